"""The times and durations of logs in microseconds, for `from_log`."""

import calendar
import datetime
import decimal
import functools
import re

UNITS = {"s": 1_000_000, "ms": 1_000, "us": 1}
# The places behind the point of a number of whole microseconds, and the most digits of a number that is read at once.
PLACES, MOST_DIGITS = {"s": 6, "ms": 3, "us": 0}, 18
CALLED = {"s": "seconds", "ms": "milliseconds", "us": "microseconds"}
EPOCH = datetime.datetime(1970, 1, 1, tzinfo=datetime.timezone.utc)
MICROSECOND = datetime.timedelta(microseconds=1)
GREATEST_COST = 10**9
TIMES = "30/Nov/2026:10:00:00 +0000, 2026-11-30T10:00:00Z or a number of seconds since 1970"
MONTHS = "Jan Feb Mar Apr May Jun Jul Aug Sep Oct Nov Dec".split()
# A day and a second in two ways, and behind both a fraction and a zone, which may be a name, as UTC.
TIME = re.compile(
    r"(?P<second>\d{4}-\d\d-\d\d[T ]\d\d:\d\d:\d\d|\d\d/[A-Z][a-z]{2}/\d{4}:\d\d:\d\d:\d\d)"
    r"(?:[.,](?P<fraction>\d+))? ?(?P<zone>[+-]\d\d(?::?\d\d)?|[A-Za-z]{1,5})?",
    re.ASCII,
)
# The names of zones that are UTC.
UTC = ("Z", "z", "UTC", "GMT")


class Unread(Exception):
    """The reason why a line can't be read."""


@functools.lru_cache(maxsize=1 << 16)
def microseconds(text, unit):
    """A number with its unit, to the nearest microsecond."""
    whole, _, fraction = text.partition(".")
    # (most numbers are of whole microseconds, and a Decimal takes long)
    if len(text) <= MOST_DIGITS and len(fraction) <= PLACES[unit] and (whole + fraction).isdecimal():
        return int(whole + fraction.ljust(PLACES[unit], "0"))
    try:
        number = decimal.Decimal(text)
    except decimal.InvalidOperation:
        raise Unread(f"{text!r} is not a number of {CALLED[unit]}") from None
    if not number.is_finite() or not 0 <= number <= 10**30:
        raise Unread(f"{text!r} is not from 0 to 10^30")
    return int((number * UNITS[unit]).to_integral_value(decimal.ROUND_HALF_UP))


@functools.lru_cache(maxsize=1 << 12)
def whole_second(second, zone):
    """Microseconds since 1970 at a second of a zone. The name of a zone that is not known is taken as UTC."""
    if second[2] == "/":
        day, month, year = second[:11].split("/")
        second = f"{year}-{MONTHS.index(month) + 1:02}-{day} {second[12:]}"
    time = datetime.datetime.strptime(second.replace("T", " "), "%Y-%m-%d %H:%M:%S")
    ahead = 0
    if zone and zone[0] in "+-":
        ahead = (1 if zone[0] == "+" else -1) * (int(zone[1:3]) * 3600 + int(zone[3:].strip(":") or 0) * 60)
    return (calendar.timegm(time.timetuple()) - ahead) * 1_000_000


@functools.lru_cache(maxsize=1 << 12)
def moment(text, unit):
    """Microseconds since 1970."""
    found = TIME.fullmatch(text)
    try:
        if found:
            second, fraction, zone = found.groups()
            return whole_second(second, zone) + int((fraction or "0")[:6].ljust(6, "0"))
        if re.fullmatch(r"[0-9.]+", text):
            return microseconds(text, unit)
        time = datetime.datetime.fromisoformat(re.sub("Z$", "+00:00", text))
    except ValueError:
        raise Unread(f"{text!r} is not a time, as {TIMES}") from None
    time = time if time.tzinfo else time.replace(tzinfo=datetime.timezone.utc)
    return (time - EPOCH) // MICROSECOND


def zone_of(text):
    """The name of a zone behind a time that is taken as UTC and may be another, or None."""
    found = TIME.fullmatch(text)
    zone = found and found["zone"]
    return zone if zone and zone.isalpha() and zone not in UTC else None


def cost(text, unit):
    """A cost of 1 microsecond at least."""
    found = microseconds(text, unit) or 1
    if found > GREATEST_COST:
        raise Unread(f"{text!r} is more than {GREATEST_COST} microseconds")
    return found


def lasting(time):
    """A time of any length in words, as 2.5 hours."""
    for name, length in (("years", 365.25 * 86_400), ("days", 86_400), ("hours", 3_600), ("minutes", 60)):
        if time >= 2 * length * 1_000_000:
            return f"{time / length / 1_000_000:.1f} {name}"
    return f"{time / 1_000_000:.1f} seconds"
