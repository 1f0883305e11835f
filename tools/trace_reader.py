"""Reads traces, for the tools beside this file. docs/FORMATS.md has the format."""

import collections
import csv

from tool import NUMBER, Fault

# A request of a trace, and a whole trace: the weight of each tenant by its name, and the requests.
Request = collections.namedtuple("Request", "moment submitter tenant kind declared cost")
Trace = collections.namedtuple("Trace", "weights requests")
# The ranges of the numbers of a request, by their places in a line.
RANGES = {1: (0, 10**14), 2: (0, 63), 5: (1, 10**9), 6: (1, 10**9)}


def number_of(row, place, low, high, fault):
    word = row[place]
    if not NUMBER.fullmatch(word) or not low <= int(word) <= high:
        raise fault(f"field {place + 1} is {word!r}, and not a number from {low} to {high}")
    return int(word)


def request_of(row, trace, fault):
    """The request of a line."""
    if len(row) != 7:
        raise fault(f"{len(row)} fields, and a request has 7")
    moment, submitter, declared, cost = (number_of(row, place, *RANGES[place], fault) for place in RANGES)
    if row[3] not in trace.weights:
        raise fault(f"there is no tenant {row[3]}")
    if trace.requests and moment < trace.requests[-1].moment:
        raise fault("the moment goes back")
    return Request(moment, submitter, row[3], row[4], declared, cost)


def read_trace(file, name):
    """The trace in a file."""
    trace, rows = Trace({}, []), csv.reader(file)
    fault = lambda what: Fault(f"{name}: line {rows.line_num}: {what}")
    try:
        for row in rows:
            if row[:1] == ["tenant"] and len(row) == 3 and not trace.requests:
                trace.weights[row[1]] = number_of(row, 2, 1, 1000, fault)
            elif row[:1] == ["request"]:
                trace.requests.append(request_of(row, trace, fault))
            elif row:
                raise fault("not a tenant or a request of a trace")
    except csv.Error as error:
        raise fault(str(error)) from None
    return trace
