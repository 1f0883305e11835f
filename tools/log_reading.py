"""Reads logs as the requests of a trace, for `from_log` and `report`: their words, and the trace."""

import argparse
import gc

from log_formats import Passed
from log_notes import Seen, arrival_notes, clock_notes, expect_span, part_notes, passed_notes
from log_times import GREATEST_COST, UNITS, Unread, cost, microseconds, moment
from logs import FORMATS, count_lines, opened_log, rows_of, shown, values_of
from tool import Fault, within
from traces import MOST_REQUESTS, Route, Row, begun, kind_of, trace

# The greatest number of paths whose kinds are kept.
MOST_KEPT = 1 << 16


def costs_of(given, duration, whole, declared):
    """The cost, the whole time or None, and the declared cost, of these texts."""
    took = given.cost or cost(duration, given.unit)
    whole = microseconds(whole, given.unit) if given.total else None
    return took, whole, cost(declared, given.unit) if given.declared else took


def why_unread(given, time, user, path, duration, whole, declared):
    """Why one of the texts of a line can't be read, with the name of its column."""
    reading = [("time", moment, time, given.time_unit)]
    reading += [] if given.cost else [("duration", cost, duration, given.unit)]
    reading += [("whole time", microseconds, whole, given.unit)] if given.total else []
    reading += [("declared cost", cost, declared, given.unit)] if given.declared else []
    for what, read, text, unit in reading:
        try:
            read(text, unit)
        except Unread as why:
            return f"the {what} {why}"
    raise AssertionError("all can be read")


def too_many(name, number):
    part = "take a part by --from and --to, or --sample"
    return Fault(f"{name}: line {number}: more than {MOST_REQUESTS} requests: {part}")


def columns_of(given):
    """The columns of times, users and paths, and of durations, whole times and declared costs, of which None is not
    read."""
    return [given.time, given.user, given.path, None if given.cost else given.duration, given.total, given.declared]


class Reader:
    """Reads logs, one after another: `rows` are their requests, `skipped` is the number of lines passed over since they
    can't be read, `passed` has for each other line passed over why it is no request, and `seen` what is to be told."""

    def __init__(self, given):
        self.given, self.rows, self.skipped, self.passed, self.count, self.seen = given, [], 0, [], 0, Seen()
        # (a column that is not read stands for itself as another that is)
        self.needed, self.kinds = [it for it in columns_of(given) if it], {}
        self.values = values_of([it or given.path for it in columns_of(given)], given.path)

    def read(self, log):
        given = self.given
        with opened_log(log) as (file, name, progress):
            for number, line, columns in rows_of(file, given.format, self.needed, name, progress):
                try:
                    self.add(name, number, columns)
                except Passed as why:
                    self.passed.append(str(why))
                except Unread as why:
                    if not given.skip:
                        why = f"{why} (--skip passes over it)"
                        raise Fault(f"{name}: line {number}: {why}\n    {shown(line)}") from None
                    self.skipped += 1

    def add(self, name, number, columns):
        """Adds the request of a line by its columns, if its time is asked for."""
        given = self.given
        if columns is None:
            raise Unread(f"the line is not {FORMATS[given.format].expected}")
        if isinstance(columns, (Passed, Unread)):
            raise columns
        texts = self.values(columns)
        try:
            time = moment(texts[0], given.time_unit)
            if (given.begin is not None and time < given.begin) or (given.end is not None and time >= given.end):
                return
            took, whole, declared = costs_of(given, *texts[3:])
        except Unread:
            raise Unread(why_unread(given, *texts)) from None
        self.count += 1
        if (self.count - 1) % given.sample == 0:
            before = max(took, whole or 0) if given.time_is == "end" else 0
            row = Row(time, before, texts[1], self.kind(texts[2]), declared, took, name, number)
            self.rows.append(row)
            self.seen.add(row, took if given.cost else microseconds(texts[3], given.unit), whole)
            if texts[0][-1:].isalpha():
                self.seen.add_zone(texts[0])
            if len(self.rows) > MOST_REQUESTS:
                raise too_many(name, number)

    def kind(self, path):
        """The kind of a path; those of the first paths are kept."""
        found = self.kinds.get(path)
        if found is None:
            found = kind_of(path, self.given.depth, self.given.route)
            if len(self.kinds) < MOST_KEPT:
                self.kinds[path] = found
        return found



def expect_room(given):
    """Refuses logs with too many lines before the work, where their number is sure."""
    if given.skip or given.begin is not None or given.end is not None or FORMATS[given.format].rows:
        return
    counts = [count_lines(it) for it in given.logs]
    if None not in counts and sum(counts) > MOST_REQUESTS * given.sample:
        least = -(-sum(counts) // MOST_REQUESTS)
        most = f"a trace has at most {MOST_REQUESTS} requests"
        part = f"take a part by --from and --to, or --sample {least}"
        raise Fault(f"{', '.join(given.logs)}: {sum(counts)} lines, and {most}: {part}")


class Weights(argparse.Action):
    """The weights by user, from words USER=WEIGHT."""

    def __call__(self, parser, given, word, option=None):
        user, _, weight = word.rpartition("=")
        if not user or not weight.isdecimal() or not 1 <= int(weight) <= 1000:
            parser.error(f"{option} {word}: not a user and a weight from 1 to 1000, as ann=2")
        given.weight = {**given.weight, user: int(weight)}


# The options that name columns, by their words, and the help of each.
COLUMNS = {
    "time": "the column of times (default: time)",
    "user": "that of tenants (default: user, of vhost and envoy host)",
    "path": "that of paths, or of kinds as they are (default: path)",
    "duration": "that of durations, which are the costs (default: duration)",
    "total": "that of whole times, with the time in a queue, in the same unit: a request came so long before its end",
    "declared": "that of declared costs, in the unit of durations (default: none; the cost is what is declared)",
}


def time(word):
    """A time of --from or --to."""
    try:
        return moment(word, "s")
    except Unread as why:
        raise argparse.ArgumentTypeError(str(why)) from None


def route(word):
    if not word.startswith("/"):
        raise argparse.ArgumentTypeError(f"{word!r} is no pattern of paths, as /api/users/{{id}}")
    return Route(word)


def add_log_words(words):
    """The options for logs, and the logs."""
    words.add_argument("--format", choices=FORMATS, help="how the log is written (default: access)")
    words.add_argument("--csv", action="store_const", const="csv", dest="format", help="the same as --format csv")
    for it, told in COLUMNS.items():
        words.add_argument(f"--{it}", metavar="COLUMN", help=told)
    words.add_argument(
        "--cost",
        type=within(1, GREATEST_COST),
        metavar="N",
        help="each request costs so many microseconds, and no duration is read",
    )
    words.add_argument("--unit", choices=UNITS, help="the unit of durations (default: s, of Envoy's logs ms)")
    words.add_argument("--time-unit", choices=UNITS, default="s", help="that of times that are numbers (default: s)")
    words.add_argument(
        "--time-is",
        choices=["start", "end"],
        help="when a line's time is: as the request came, or as it ended (default: end for combined and upstream)",
    )
    words.add_argument("--spread", action="store_true", help="spread requests of one time over the second from it on")
    add_parts(words)
    add_names(words)
    words.add_argument("--skip", action="store_true", help="pass over lines that can't be read, and tell how many")
    words.add_argument("logs", nargs="*", default=["-"], metavar="LOG", help="files (default: standard input)")


def add_parts(words):
    """The options that take a part of a log."""
    for it, told in (("from", "from this time on"), ("to", "before this time")):
        dest = "begin" if it == "from" else "end"
        words.add_argument(f"--{it}", dest=dest, type=time, metavar="TIME", help=f"take the lines whose time is {told}")
    words.add_argument(
        "--sample", type=within(1, 10**6), default=1, metavar="N", help="take the first of each N requests (default: 1)"
    )


def add_names(words):
    """The options for the contents of the trace."""
    words.add_argument(
        "--depth", type=within(1, 100), default=1, metavar="N", help="how many parts of a path make a kind (default: 1)"
    )
    words.add_argument(
        "--route",
        type=route,
        action="append",
        default=[],
        metavar="PATTERN",
        help="paths of one kind, as /api/users/{id} or /static/*; give it once for each, the first that fits counts",
    )
    words.add_argument("--mean", action="store_true", help="declare the mean cost of the request's kind in this log")
    words.add_argument(
        "--weight",
        action=Weights,
        default={},
        metavar="USER=WEIGHT",
        help="a tenant's weight, where it is not 1; give it once for each such tenant",
    )
    words.add_argument(
        "--submitters",
        type=within(1, 64),
        default=1,
        metavar="N",
        help="share the tenants among so many submitters, 1 to 64 (default: 1)",
    )


def settle(parser, given):
    """Gives the words the defaults of the log's format, and refuses what does not fit it."""
    given.format = given.format or "access"
    form = FORMATS[given.format]
    own = given.total
    for name, default in form.defaults.items():
        setattr(given, name, getattr(given, name) or default)
    if own and given.time_is == "start":
        parser.error("argument --total: a whole time tells when a request came by its end: --time-is end")
    for column in columns_of(given):
        if column and not form.has(column):
            parser.error(f"a log of the format {given.format} has no column {column}")


def called(given):
    """The name of the logs in messages."""
    return ", ".join("standard input" if it == "-" else it for it in given.logs)


def trace_of_logs(given):
    """The trace of the logs, what is to be told of it, and the time at which it begins."""
    # (no object that is kept here refers to itself)
    gc.disable()
    expect_room(given)
    reader, name = Reader(given), called(given)
    for log in given.logs:
        reader.read(log)
    if not reader.rows:
        raise Fault(f"{name}: no requests")
    came = begun(reader.rows, given.spread)
    expect_span(came)
    text, names = trace(came, name, given)
    notes = [f"{place or name}: {line}" for place, line in clock_notes(given, reader.seen, came, reader.rows)]
    lines = [*arrival_notes(given), *part_notes(given, reader.seen), *names]
    lines += passed_notes(reader.skipped, reader.passed)
    return text, notes + [f"{name}: {line}" for line in lines], came[0][0]
