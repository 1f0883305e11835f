"""The formats of logs that `from_log` reads: of each a function that gives the columns of a line."""

import csv
import json
import re

from log_times import Unread

# A text in quotes, without these.
QUOTED = r'[^"\\]*(?:\\.[^"\\]*)*'
# The parts of a line: ADDRESS IDENTITY USER [TIME] "METHOD PATH PROTOCOL" STATUS SIZE "REFERER" "AGENT", and more.
BEGIN = (
    r"(?P<address>\S+) (?P<identity>\S+) (?P<user>\S+|.+?) \[(?P<time>[^\]]+)\] "
    r'"(?P<method>\S+) (?P<path>\S+)(?: [^" ]*)?" (?P<status>\d{3}) (?P<size>\d+|-)'
    rf'(?: "(?P<referer>{QUOTED})" "(?P<agent>{QUOTED})")?'
)
ACCESS = re.compile(rf"{BEGIN}(?P<more>(?: .*)?)")
# Lines with one number or two behind, as most have: their match has the columns, and is read faster than a line of the
# general form.
ONE_NUMBER = re.compile(rf"{BEGIN}(?P<more> (?P<duration>[\d.]+))")
TWO_NUMBERS = re.compile(rf"{BEGIN}(?P<more> (?P<duration>[\d.]+) (?P<upstream>\d+\.\d+))")
# A word behind the agent, which may be quoted and have a name, as rt=0.125.
WORD = re.compile(rf'(?:(?P<name>[A-Za-z_]\w*)=)?(?:"(?P<quoted>{QUOTED})"|(?P<bare>\S+))')
# A last word that is not quoted and has no name.
BARE = re.compile(r'(?:.* )?([^\s"=]+)\s*')
# nginx writes `-` where it asked no other server, and a list where it asked several.
UPSTREAM = re.compile(r"(?:.* )?(?P<duration>[\d.]+) (?P<upstream>(?:[\d.]+|-)(?:(?:, | : )(?:[\d.]+|-))*)")
ENVOY = re.compile(
    r'\[(?P<time>[^\]]+)\] "(?P<method>\S+) (?P<path>\S+)(?: [^"]*)?" (?P<status>\d+) (?P<flags>\S+)'
    r'(?: (?P<details>\S+) (?P<termination>\S+) "(?P<failure>[^"]*)")? (?P<received>\d+) (?P<sent>\d+) '
    r'(?P<duration>\d+) (?P<upstream>\d+|-) "(?P<forwarded>[^"]*)" "(?P<agent>[^"]*)" "(?P<id>[^"]*)" '
    r'"(?P<host>[^"]*)" "(?P<upstream_host>[^"]*)"(?: .*)?'
)
PART = re.compile(r"part([1-9][0-9]?)")
# The columns of an access log that not every line has.
BEHIND = re.compile(r"word[1-9][0-9]?|=[A-Za-z_]\w*|duration|referer|agent")


class Passed(Exception):
    """The reason why a line is no request, though it is in its log by right."""


def access(line):
    """The columns of a web server's line."""
    found = ACCESS.fullmatch(line)
    return found and found.groupdict()


def timed(line):
    """The columns of a web server's line with a duration behind."""
    plain = ONE_NUMBER.fullmatch(line)
    if plain:
        return plain
    columns = access(line)
    if columns:
        bare = BARE.fullmatch(columns["more"])
        columns["duration"] = bare[1] if bare else words_of(columns).get("duration")
    return columns if columns and columns["duration"] else None


def dict_of(columns):
    """Columns by their names, of a match too."""
    return columns.groupdict() if isinstance(columns, re.Match) else columns


def words_of(columns):
    """The words behind the agent, by number and by name, of which the last may be a duration."""
    words = {}
    for number, word in enumerate(WORD.finditer(columns["more"]), 1):
        name, quoted, bare = word.groups()
        words[f"word{number}"] = words["duration"] = bare if quoted is None else quoted
        if name:
            words["=" + name] = words["duration"]
    return words


def upstream(line):
    """The columns of a web server's line with two durations behind, the second that of another server."""
    plain = TWO_NUMBERS.fullmatch(line)
    if plain:
        return plain
    columns = access(line)
    times = columns and UPSTREAM.fullmatch(columns["more"].strip())
    if not times:
        return None
    columns["duration"], columns["upstream"] = times.groups()
    if not columns["upstream"].replace(".", "", 1).isdigit():
        parts = [it for it in re.split(", | : ", columns["upstream"]) if it != "-"]
        # (a sum of decimal numbers with at most six places)
        total = sum(round(float(it) * 1_000_000) for it in parts if it.replace(".", "", 1).isdigit())
        columns["upstream"] = f"{total // 1_000_000}.{total % 1_000_000:06}"
    return columns


def vhost(line):
    """A web server's line with the host and port before it."""
    host, _, rest = line.partition(" ")
    columns = timed(rest)
    return columns and {**dict_of(columns), "host": host.rpartition(":")[0] or host}


def envoy(line):
    found = ENVOY.fullmatch(line)
    return found and found.groupdict()


DECODER = json.JSONDecoder(parse_float=str, parse_int=str, parse_constant=str)
SPACES = " \t\r\n"


def json_object(line):
    """The members of an object; its numbers stay as they are written."""
    line = line.strip(SPACES)
    try:
        found, end = DECODER.scan_once(line, 0)
    except (ValueError, RecursionError, StopIteration):
        return None
    return found if end == len(line) and isinstance(found, dict) else None


class Format:
    """The format of a log: the function that reads a line, the description of a line, its columns where they are known,
    and the defaults of options. Where lines name the columns, or a row has several lines, `rows` reads a whole file."""

    def __init__(self, read, expected, columns=None, rows=None, **defaults):
        self.read, self.expected, self.columns, self.rows = read, expected, columns, rows
        self.defaults = {"user": "user", "unit": "s", "time_is": "start", "time": "time", "path": "path"}
        self.defaults.update({"duration": "duration", "total": None, **defaults})

    def has(self, column):
        """Whether its lines may have this column."""
        return self.columns is None or column in self.columns or any(it.fullmatch(column) for it in (PART, BEHIND))


LINE = 'ADDRESS IDENTITY USER [TIME] "METHOD PATH PROTOCOL" STATUS SIZE "REFERER" "AGENT"'
KNOWN = {*ACCESS.groupindex} - {"more"}
FORMATS = {
    "access": Format(timed, f"{LINE} .. DURATION (without one: --format combined)", KNOWN),
    "combined": Format(access, LINE, KNOWN, time_is="end"),
    "upstream": Format(
        upstream,
        f"{LINE} .. REQUEST_TIME UPSTREAM_RESPONSE_TIME",
        KNOWN | {"upstream"},
        time_is="end",
        total="duration",
    ),
    "vhost": Format(vhost, f"HOST:PORT {LINE} .. DURATION", KNOWN | {"host"}, user="host"),
    "envoy": Format(
        envoy,
        '[TIME] "METHOD PATH PROTOCOL" STATUS FLAGS RECEIVED SENT DURATION UPSTREAM "FORWARDED" "AGENT" "ID" "HOST" '
        '"UPSTREAM_HOST"',
        {*ENVOY.groupindex},
        user="host",
        unit="ms",
        total="duration",
    ),
    "json": Format(json_object, "an object of JSON"),
}


def csv_rows(lines, needed, name):
    """The number of each row's last line, its text, and its columns, or None where it has too many or too few."""
    reader = csv.reader(lines)
    names = next(reader, [])
    for column in needed:
        if column not in names and not PART.fullmatch(column):
            raise Unread(f"there is no column {column}; it has {', '.join(names) or 'none'}")
    for row in reader:
        if row:
            yield reader.line_num, row, dict(zip(names, row)) if len(row) == len(names) else None


FORMATS["csv"] = Format(None, "a row of as many fields as the first line", rows=csv_rows)
