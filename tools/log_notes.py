"""What in a log makes a trace, or an answer by it, another than it seems: notes for `from_log`."""

import collections

from log_times import lasting, zone_of
from tool import Fault, counted
from traces import GREATEST_MOMENT, SECOND, place_of

# A gap is told where it is longer than the rest and there are so many requests, or where it has so many microseconds.
LEAST_REQUESTS, LONGEST_GAP = 10, 300 * 86_400 * SECOND
# The greatest step back of a log's times that is no jump of a clock, since a server writes its lines about when their
# requests end; and where the ends are not known, since what requests waited is not.
STEP_BACK, STEP_BACK_UNKNOWN = 10 * SECOND, 100 * SECOND
# The greatest difference of two durations that is left unsaid, since logs round them.
ROUNDED = 1_000


class Seen:
    """What is seen while a log is read: steps back of its times, zones, durations of 0, and whole times that are below
    costs."""

    def __init__(self):
        # (the latest end of each log, and the first request that ended long before that, with the time between)
        self.latest, self.back, self.zones = {}, None, set()
        self.zero = self.below = 0

    def add(self, row, duration, whole):
        """Adds a request, with its duration as it is written, and its whole time, or None."""
        # (lines stand in the order of the ends, also where a line has the time at which its request came)
        end = row.time if row.before else row.time + (whole or row.cost)
        latest = self.latest.get(row.log, end)
        if end >= latest:
            self.latest[row.log] = end
        elif latest - end > STEP_BACK and not self.back:
            if row.before or whole or latest - end > STEP_BACK_UNKNOWN:
                self.back = row, latest - end
        self.zero += not duration
        if whole is not None and whole + ROUNDED < row.cost:
            self.below += 1

    def add_zone(self, text):
        """Adds the zone of a time."""
        if text[-1:].isalpha() and text[-1:] != "Z":
            self.zones.add(zone_of(text))


def are_coarse(rows):
    """Whether all times are whole seconds, and two requests have an equal time."""
    times = [row.time for row in rows]
    return not any(time % SECOND for time in times) and len(set(times)) < len(times)


def gap_note(came):
    """The place of the longest time in which no request comes, and what to say of it, if it is longer than all the
    rest, or nearly a year."""
    gaps = [(later[0] - earlier[0], place) for place, (earlier, later) in enumerate(zip(came, came[1:]), 1)]
    gap, place = max(gaps, default=(0, 0))
    is_long = 2 * gap > came[-1][0] - came[0][0] and len(came) >= LEAST_REQUESTS
    if gap < LONGEST_GAP and not is_long:
        return None
    side, count = ("before", place) if 2 * place < len(came) else ("after", len(came) - place)
    row = came[place - 1 if side == "before" else place][1]
    come = "request comes" if count == 1 else "requests come"
    return place_of(row), f"{count} {come} {lasting(gap)} {side} all others"


def expect_span(came):
    """Refuses requests whose moments lie too far apart for a trace."""
    if came[-1][0] - came[0][0] > GREATEST_MOMENT:
        place, what = gap_note(came) or (place_of(came[-1][1]), "this request is the last")
        most = f"a trace has at most {GREATEST_MOMENT} microseconds"
        raise Fault(f"{place}: {what}, and {most}: --from and --to take a part")


def arrival_notes(given):
    """What is missing for the moments at which requests came, or for their costs."""
    if given.time_is == "end" and not given.total:
        yield "no whole times (--total): time in queues is missing, and waits are too short"
    elif given.total and given.total == given.duration and not given.cost:
        yield "costs are whole times (--duration): time in queues counts as work, and waits are too long"


def part_notes(given, seen):
    """What a part of the log, and its durations, do to the answers."""
    if given.sample > 1:
        yield f"one of {given.sample} requests is taken: simulate one of {given.sample} workers, or waits are too short"
    if seen.zero:
        yield f"{having(seen.zero)} a duration of 0, which counts as 1 microsecond: let the log write more digits"
    if seen.below:
        yield f"{having(seen.below)} a whole time below the cost, which is taken in its place"


def having(count):
    return f"{counted(count, 'request')} {'has' if count == 1 else 'have'}"


def clock_notes(given, seen, came, rows):
    """What is wrong with the times, each with its place, or None for the whole log."""
    if not given.spread and are_coarse(rows):
        once = "end" if given.time_is == "end" else "come"
        yield None, f"all times are whole seconds, so requests {once} at once: --spread spreads them over each second"
    if seen.back:
        row, step = seen.back
        yield place_of(row), f"the time goes back by {lasting(step)}, so requests of two times are mixed"
    gap = gap_note(came)
    if gap:
        yield gap[0], f"{gap[1]}: --from and --to take a part"
    zones = sorted(seen.zones - {None})
    if zones:
        yield None, f"times of the zone {' and '.join(zones)} are taken as UTC"


def passed_notes(skipped, passed):
    """The lines that are no requests of the trace."""
    for why, count in collections.Counter(passed).items():
        yield f"{counted(count, 'line')} passed over: {why}"
    if skipped:
        yield f"{counted(skipped, 'line')} passed over"
