"""Reads the lines of a service's logs as columns, for `from_log`: files packed by gzip or not."""

import contextlib
import csv
import gzip
import io
import itertools
import operator
import re
import sys
import zlib

import log_formats
import log_servers
from log_formats import PART, Passed, dict_of, words_of
from log_times import Unread
from tool import Fault, Progress, printable

# The greatest part of a line that is shown, the number of letters after which progress is counted, and the greatest
# number of bytes by which a trace is known.
MOST_SHOWN, MOST_UNTOLD, MOST_PEEKED = 160, 100_000, 4096
FORMATS = {**log_formats.FORMATS, **log_servers.FORMATS}
# What begins the texts of this program, and what reads them.
TRACE = re.compile(r"tenant,[^,]*,\d+$|request,\d+,\d+,")
OURS = {
    TRACE.pattern: "a trace: give it to ./twodfq run or tools/one_queue",
    r"journal [1-9]$": "a journal: give it to tools/turnaround",
    r"(script|report) [1-9]$": "no log, but a text of this program: docs/FORMATS.md tells what reads it",
}
TEXTS = {str}
csv.field_size_limit(1 << 30)


def parts_of(path):
    """The parts of a path, up to a query."""
    return re.split(r"[?#]", path, maxsplit=1)[0].strip("/").split("/")


def member(columns, name):
    """The value of a column by its name, or of JSON also by a path through objects, as http.request.path."""
    if name in columns:
        return columns[name]
    first, _, rest = name.partition(".")
    inner = columns.get(first)
    return member(inner, rest) if rest and isinstance(inner, dict) else None


def value(columns, name, path):
    """The text of a column, of a word behind an agent, or of a part of the path."""
    found = member(columns, name)
    if found is None and isinstance(columns.get("more"), str):
        found = words_of(columns).get(name)
    part = PART.fullmatch(name) if found is None and name != path else None
    if part:
        parts = parts_of(value(columns, path, path))
        found = parts[int(part[1]) - 1] if int(part[1]) <= len(parts) else None
    if isinstance(found, dict):
        raise Unread(f"{name} is an object, with the members {', '.join(map(shown, found)) or 'none'}")
    if not isinstance(found, str):
        raise Unread(f"there is no {name}")
    return found


def member_of(name):
    """The function that gives a column by its name, as `member` does, and None where it is not there."""
    first, _, rest = name.partition(".")
    inner = member_of(rest) if rest else None

    def get(columns):
        found = columns.get(name)
        if found is None and inner:
            outer = columns.get(first)
            return inner(outer) if isinstance(outer, dict) else None
        return found

    return get


def values_of(names, path):
    """The function that gives the texts of these columns of a line, two and more."""
    single = list(dict.fromkeys(names))
    # (with the first again, since one alone would give no tuple)
    pick = operator.itemgetter(*single, single[0])
    gets, order = [member_of(it) for it in single], operator.itemgetter(*map(single.index, names))
    has_paths = any("." in it for it in single)

    def values(columns):
        try:
            found = [get(columns) for get in gets] if has_paths and isinstance(columns, dict) else pick(columns)
            if set(map(type, found)) == TEXTS:
                return order(found)
        except LookupError:
            pass
        columns = dict_of(columns)
        return [value(columns, name, path) for name in names]

    return values


@contextlib.contextmanager
def opened_log(name):
    """A log as text, its name in messages, and its progress."""
    called = "standard input" if name == "-" else name
    with sys.stdin.buffer if name == "-" else open(name, "rb") as raw:
        file = raw if hasattr(raw, "peek") else io.BufferedReader(raw)
        packed = file.peek(2)[:2] == b"\x1f\x8b"
        how = {"encoding": "utf-8-sig", "errors": "surrogateescape", "newline": "\n"}
        try:
            with gzip.open(file) if packed else contextlib.nullcontext(file) as plain:
                yield io.TextIOWrapper(plain, **how), called, Progress(None if packed else raw, called)
        except (EOFError, zlib.error, gzip.BadGzipFile) as error:
            raise Fault(f"{called}: what gzip packed is not whole: {error}") from None


def told_lines(file, progress):
    """The lines of a file, whose progress is counted now and then."""
    lines = file.readlines(MOST_UNTOLD)
    while lines:
        progress.add(sum(map(len, lines)))
        yield from lines
        lines = file.readlines(MOST_UNTOLD)


def rows_of_file(rows, lines, needed, name):
    """The rows of a format that reads whole files."""
    number = 1
    try:
        for number, row, columns in rows(lines, needed, name):
            yield number, ",".join(row), columns
    except Unread as why:
        raise Fault(f"{name}: line {number}: {why}") from None
    except csv.Error as error:
        raise Fault(f"{name}: line {number + 1}: {error}") from None


def rows_of(file, format_name, needed, name, progress):
    """The number of each line of a log, its text, and its columns, or None where it can't be read, or why it can't, or
    why it is no request."""
    form, lines = FORMATS[format_name], known(told_lines(file, progress), name)
    if form.rows:
        yield from rows_of_file(form.rows, lines, needed, name)
        return
    read = form.read
    for number, line in enumerate(lines, 1):
        line = line.rstrip("\r\n")
        try:
            columns = read(line)
        except (Passed, Unread) as why:
            columns = why
        yield number, line, columns


def is_trace(name):
    """Whether a file, or standard input for `-`, begins as a trace does."""
    file = sys.stdin.buffer if name == "-" else open(name, "rb")
    try:
        begin = file.peek(MOST_PEEKED)[:MOST_PEEKED].lstrip(b"\xef\xbb\xbf").lstrip().partition(b"\n")[0]
    finally:
        if name != "-":
            file.close()
    return bool(TRACE.match(begin.decode(errors="replace").rstrip("\r")))


def expect_log(line, name):
    """Refuses the first line of a text of this program."""
    for shape, what in OURS.items():
        if re.match(shape, line.rstrip("\r\n")):
            raise Fault(f"{name}: it is {what}")


def known(lines, name):
    """The lines of a log."""
    first = list(itertools.islice(lines, 1))
    for line in first:
        expect_log(line, name)
    return itertools.chain(first, lines)


def shown(line):
    """A line as far as a message shows it."""
    return printable(line if len(line) <= MOST_SHOWN else line[:MOST_SHOWN] + " ..")


def count_lines(name):
    """The number of lines of a file; None for standard input, which can be read only once."""
    if name == "-":
        return None
    with opened_log(name) as (file, _, _):
        count, block = 0, file.buffer.read(1 << 20)
        expect_log(block.partition(b"\n")[0].decode(errors="replace"), name)
        while block:
            count += block.count(b"\n")
            block = file.buffer.read(1 << 20)
        return count
