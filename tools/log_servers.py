"""The formats of logs of databases, proxies and clouds that `from_log` reads."""

import csv
import re

from log_formats import QUOTED, Format, Passed, json_object
from log_times import Unread, moment

NO_DURATION = "without a duration"
# What PostgreSQL writes for log_duration and log_min_duration_statement.
DURATION = re.compile(r"duration: ([\d.]+) ms\b.*", re.DOTALL)
CSVLOG = (
    "time user database process address session number tag begun virtual transaction severity state message detail "
    "hint internal internal_place context query query_place location application backend leader query_id"
).split()
# The columns of PostgreSQL 12 and before.
LEAST_CSVLOG = 23
HAPROXY = re.compile(
    r"(?P<address>\S+?):\d+ \[(?P<time>[^\]]+)\] (?P<frontend>\S+) (?P<backend>[^/\s]+)/(?P<server>\S+) "
    r"(?P<receive>-?\d+)/(?P<queue>-?\d+)/(?P<connect>-?\d+)/(?P<response>-?\d+)/\+?(?P<total>-?\d+) "
    r"(?P<status>-?\d+) \+?(?P<size>\d+) \S+ \S+ \S+ \S+ \S+(?: \{(?P<captured>[^}]*)\})?(?: \{[^}]*\})? "
    r'"(?P<method>\S+) (?P<path>\S+)(?: [^"]*)?"?.*'
)
# Before what HAProxy writes stands what syslog adds.
SYSLOG = re.compile(r"(?:.*? )?haproxy\[\d+\]: ")
ALB = re.compile(
    r"(?P<type>\S+) (?P<time>\S+) (?P<balancer>\S+) (?P<address>\S+?)(?::\d+)? (?P<target>\S+) (?P<receive>-?[\d.]+) "
    r"(?P<work>-?[\d.]+) (?P<respond>-?[\d.]+) (?P<status>\S+) (?P<target_status>\S+) (?P<received>\d+) (?P<sent>\d+) "
    rf'"(?P<method>\S+) (?P<url>\S+)(?: [^"]*)?" "(?P<agent>{QUOTED})" \S+ \S+ (?P<group>\S+) "{QUOTED}" '
    rf'"(?P<domain>{QUOTED})" "{QUOTED}" \S+ (?P<created>\S+) .*'
)
URL = re.compile(r"[^/]*//(?P<host>[^/]*?)(?::\d+)?(?P<path>/.*)?")


def duration_of(message):
    """The duration in a message of PostgreSQL, in milliseconds."""
    found = DURATION.match(message) if isinstance(message, str) else None
    if not found:
        raise Passed(NO_DURATION)
    return found[1]


def csvlog_rows(lines, needed, name):
    """The rows of PostgreSQL's csvlog, which has no first line with names; a row may have several lines."""
    reader = csv.reader(lines)
    for row in reader:
        columns = dict(zip(CSVLOG, row)) if LEAST_CSVLOG <= len(row) <= len(CSVLOG) else None
        if columns:
            try:
                columns["duration"] = duration_of(columns["message"])
            except Passed as why:
                columns = why
        yield reader.line_num, row, columns


def jsonlog(line):
    """A line of PostgreSQL's jsonlog."""
    columns = json_object(line)
    return columns and {**columns, "duration": duration_of(columns.get("message"))}


def haproxy(line):
    """A line of HAProxy's httplog, with what syslog adds or without. A time of -1 is that of a request that was given
    up."""
    begin = SYSLOG.match(line)
    found = HAPROXY.fullmatch(line[begin.end() :] if begin else line)
    columns = found and found.groupdict()
    if columns and min(int(columns[it]) for it in ("queue", "response", "total")) < 0:
        raise Passed("given up before an answer")
    for number, text in enumerate((columns["captured"] or "").split("|") if columns else (), 1):
        columns[f"captured{number}"] = text
    return columns


def alb(line):
    """A line of a load balancer of AWS."""
    found = ALB.fullmatch(line)
    if not found:
        return None
    columns = found.groupdict()
    if columns["work"] == "-1":
        raise Passed("without an answer of a target")
    url = URL.fullmatch(columns["url"])
    return {**columns, "host": url["host"] if url else "-", "path": url["path"] or "/" if url else columns["url"]}


def cloudfront_rows(lines, needed, name):
    """The rows of CloudFront's standard logs, as of any log in W3C's extended format: a line #Fields names them."""
    names, number = [], 0
    for number, line in enumerate(lines, 1):
        line = line.rstrip("\r\n")
        if line.startswith("#Fields:"):
            names = line.split()[1:]
        elif not line.startswith("#"):
            fields = line.split("\t")
            columns = dict(zip(names, fields)) if len(fields) == len(names) else None
            if columns and "date" in columns and "time" in columns:
                columns["time"] = f"{columns['date']}T{columns['time']}Z"
            yield number, fields, columns
    if number and not names:
        raise Unread("there is no line #Fields, which names the columns")


def kubernetes(line):
    """An event of Kubernetes' audit log. A request has several events, of which the last has its duration."""
    columns = json_object(line)
    if not columns or not isinstance(columns.get("stage"), str):
        return None
    if columns["stage"] != "ResponseComplete":
        raise Passed("not the end of a request")
    if columns.get("verb") == "watch":
        raise Passed("a watch, which no worker serves")
    begun, ended = (columns.get(it) for it in ("requestReceivedTimestamp", "stageTimestamp"))
    if not isinstance(begun, str) or not isinstance(ended, str):
        raise Unread("there is no requestReceivedTimestamp or stageTimestamp")
    return {**columns, "duration": str(moment(ended, "s") - moment(begun, "s"))}


AUDIT = "an event of Kubernetes' audit log in JSON, with a stage"
FORMATS = {
    "postgres-csv": Format(
        None,
        f"a row of {LEAST_CSVLOG} to {len(CSVLOG)} fields of PostgreSQL's csvlog",
        {*CSVLOG, "duration"},
        csvlog_rows,
        path="tag",
        unit="ms",
        time_is="end",
    ),
    "postgres-json": Format(
        jsonlog, "an object of PostgreSQL's jsonlog", time="timestamp", path="ps", unit="ms", time_is="end"
    ),
    "haproxy": Format(
        haproxy,
        'ADDRESS:PORT [TIME] FRONTEND BACKEND/SERVER TR/Tw/Tc/Tr/Ta STATUS SIZE .. "METHOD PATH PROTOCOL", as HAProxy '
        "writes it by httplog",
        {*HAPROXY.groupindex, *(f"captured{number}" for number in range(1, 10))},
        user="backend",
        duration="response",
        unit="ms",
        total="total",
    ),
    "alb": Format(
        alb,
        "a line of a load balancer's access log of AWS, up to the time at which the request was created",
        {*ALB.groupindex, "host", "path"},
        time="created",
        user="host",
        duration="work",
    ),
    "cloudfront": Format(
        None,
        "a row of as many fields as the line #Fields names",
        rows=cloudfront_rows,
        user="x-host-header",
        path="cs-uri-stem",
        duration="time-taken",
        total="time-taken",
        time_is="end",
    ),
    "kubernetes": Format(
        kubernetes,
        AUDIT,
        time="requestReceivedTimestamp",
        user="user.username",
        path="verb",
        unit="us",
        total="duration",
    ),
}
