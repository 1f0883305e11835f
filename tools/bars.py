"""Draws the requests of each worker as bars, for `timeline` and `report`."""

import collections
import os

from matter import colored_names, names, with_others
from picture import ColorByName, Panel, element, label, legend, legend_height, svg
from tables import human
from tool import Fault

LEFT, TOP, WIDTH, ROW, SPACE = 80, 30, 800, 18, 30
MOST_BARS = 20_000
RETIRED = "#e8e8e8"

# A bar: a request, or `count` requests that follow one another; `number` is that of the first.
Bar = collections.namedtuple("Bar", "worker begin end group number count")


def bars(journal, by, begin, end, colored):
    """The bars between two moments, by worker and moment. Groups are names; those without a color are one group."""
    taken, done, last, shown = journal.taken, journal.done, journal.now, []
    for number, moment in enumerate(taken):
        if moment is not None and moment < end and (last if done[number] is None else done[number]) > begin:
            shown.append(number)
    group_of, named = getattr(journal, by), [it if it in colored else None for it in names(journal, by)]
    for number in sorted(shown, key=lambda it: (journal.worker[it], taken[it])):
        stop = last if done[number] is None else done[number]
        yield Bar(journal.worker[number], max(taken[number], begin), min(stop, end), named[group_of[number]], number, 1)


def merged(bars, pixel):
    """The bars, where a bar that is too short for the eye is one with the bar before it."""
    last = None
    for bar in bars:
        is_same = last and (bar.worker, bar.group) == (last.worker, last.group)
        if is_same and bar.begin - last.end < pixel / 4 and bar.end - bar.begin < pixel:
            last = last._replace(end=bar.end, count=last.count + 1)
        else:
            if last:
                yield last
            last = bar
    if last:
        yield last


def pools(journal, begin, end):
    """The number of workers, with the moments from which and up to which it holds, between two moments."""
    changes = [(it.moment, it.value) for it in journal.changes if it.tenant is None]
    changes = [(0, journal.workers), *changes, (end, 0)]
    for (since, pool), (until, _) in zip(changes, changes[1:]):
        if max(since, begin) < min(until, end):
            yield pool, max(since, begin), min(until, end)


def rows(journal, panel):
    """The elements behind the bars, and beside them."""
    yield label(LEFT, panel.top - 8, f"{os.path.basename(journal.name)}: {journal.policy}, {journal.estimator}")
    for worker in range(journal.workers):
        yield label(LEFT - 8, panel.top + ROW * worker + 13, f"worker {worker}", "end")
    for pool, since, until in pools(journal, *panel.moments):
        if pool < journal.workers:
            size = {"width": panel.x(until) - panel.x(since), "height": ROW * (journal.workers - pool)}
            yield element("rect", x=panel.x(since), y=panel.top + ROW * pool, **size, fill=RETIRED)


def told(journal, bar):
    """The title of a bar."""
    if bar.count > 1:
        return f"{bar.count} requests of {bar.group or 'others'}, from {human(bar.begin)} to {human(bar.end)}"
    number = bar.number
    taken, done, submitted = journal.taken[number], journal.done[number], journal.submitted[number]
    names = f"{journal.tenants[journal.tenant[number]]} ({journal.kinds[journal.kind[number]]})"
    ran = "still runs" if done is None else f"ran {human(done - taken)} up to {human(done)}"
    return f"request {number} of {names}: waited {human(taken - submitted)} up to {human(taken)}, {ran}"


def drawn(journal, panel, found, color_of):
    """The bars in their panel."""
    for bar in found:
        width = panel.x(bar.end) - panel.x(bar.begin)
        # a gap between neighbours, where there is room for it
        width -= 0.6 if width > 2 else 0
        place = {"x": panel.x(bar.begin), "y": panel.top + ROW * bar.worker + 2}
        size = {"width": width, "height": ROW - 4}
        yield element("rect", title=told(journal, bar), **place, **size, fill=color_of[bar.group])
    yield panel.frame()


def found_in(journals, by, begin, end, colored):
    """The bars of each journal."""
    found = [list(merged(bars(journal, by, begin, end, colored), (end - begin) / WIDTH)) for journal in journals]
    for journal, own in zip(journals, found):
        if not own:
            raise Fault(f"{journal.name}: no request runs from {begin} to {end}")
    count = sum(map(len, found))
    if count > MOST_BARS:
        raise Fault(f"{journals[0].name}: {count} bars, more than {MOST_BARS}: ask for a part by --from and --to")
    return found


def picture(journals, given, begin, end):
    """All panels, with one scale."""
    color_of = ColorByName(colored_names(journals, given, given.most))
    found = found_in(journals, given.by, begin, end, color_of)
    elements, top = [], TOP
    for journal, own in zip(journals, found):
        panel = Panel(LEFT, top, WIDTH, ROW * journal.workers, (begin, end))
        elements += panel.time_axis(is_told=journal is journals[-1])
        elements += rows(journal, panel)
        elements += drawn(journal, panel, own, color_of)
        top = panel.bottom + SPACE
    legends = with_others(journals, given.by, color_of)
    elements += legend(LEFT + WIDTH + 15, TOP, legends)
    return svg(LEFT + WIDTH + 160, max(top + 15, TOP + legend_height(len(legends)) + 10), elements)
