"""The pictures of docs/EVALUATION.md: SVG on white ground, so that they can be read on a dark page, too."""

import math
import os
import sys

sys.path.insert(0, os.path.join(os.path.dirname(os.path.abspath(__file__)), "../tools"))

import experiments
from picture import COLORS, GRID, Panel, element, label, legend, svg

RANKS = ("p50", "p90", "p99", "p99.9")
COLOR_OF = dict(zip(experiments.POLICIES, COLORS))
WAY_COLORS = dict(zip(experiments.WAYS, COLORS))
RIVAL_COLORS = {
    "one queue": "#7f7f7f",
    "deficit round robin": "#cc79a7",
    "4 workers kept": "#a6dba0",
    "6 workers kept": "#5aae61",
    "8 workers kept": "#1b7837",
    "`wf2q`": "#e69f00",
    "`2dfq+`": "#d55e00",
    "`2dfq+`, patience 0.02": "#0072b2",
}
# The ways of the first page.
FEW = ("one queue", "`wf2q`", "`2dfq+`", "`2dfq+`, patience 0.02")


def plain(name):
    return name.replace("`", "")


def decades(panel):
    """Lines at powers of ten, on an axis of logarithms, and their milliseconds."""
    low, high = panel.numbers
    for decade in range(math.ceil(low), math.floor(high) + 1):
        yield element("line", x1=panel.left, y1=panel.y(decade), x2=panel.right, y2=panel.y(decade), stroke=GRID)
        yield label(panel.left - 6, panel.y(decade) + 4, f"{10**decade:g}", "end")


def height(panel, number):
    """The height of a number of milliseconds on an axis of logarithms; a number below the axis is at its foot."""
    return panel.y(max(panel.numbers[0], math.log10(max(number, 1e-9))))


def line(panel, values, color, is_dashed=False):
    """A line through the middles of values side by side, and at each the range of the seeds."""
    points = [(panel.x(place), values_at) for place, values_at in enumerate(values)]
    for x, one in points:
        if one.least < one.greatest:
            yield element("line", x1=x, y1=height(panel, one.least), x2=x, y2=height(panel, one.greatest), stroke=color)
    dashes = {"stroke_dasharray": "5 3"} if is_dashed else {}
    drawn = " ".join(f"{x:.1f},{height(panel, one.middle):.1f}" for x, one in points)
    yield element("polyline", points=drawn, fill="none", stroke=color, stroke_width=2, **dashes)


def axes(panel, names, title, below=""):
    yield from decades(panel)
    yield panel.frame()
    for place, name in enumerate(names):
        yield label(panel.x(place), panel.bottom + 15, str(name), "middle")
    yield label(panel.left, panel.top - 8, title)
    yield label((panel.left + panel.right) / 2, panel.bottom + 32, below, "middle")


def lag_over_time(simulator):
    """A panel for each policy, one below the other, all of one scale around the mean."""
    series = {policy: experiments.series(simulator, policy) for policy in experiments.POLICIES}
    half = math.ceil(max(max(lags) - min(lags) for lags in series.values()) / 2) + 1
    elements = [label(60, 20, "Lag of one cheap tenant, milliseconds of work: as it rises the tenant gets less than its share")]
    for place, (policy, lags) in enumerate(series.items()):
        middle = round((max(lags) + min(lags)) / 2)
        panel = Panel(60, 32 + 102 * place, 760, 90, (0, 1000 * len(lags)), (middle - half, middle + half))
        elements += [*panel.time_axis(place == len(series) - 1), *panel.number_axis(), panel.frame()]
        points = " ".join(f"{panel.x(1000 * slot):.1f},{panel.y(lag):.1f}" for slot, lag in enumerate(lags))
        elements.append(element("polyline", points=points, fill="none", stroke=COLOR_OF[policy], stroke_width=1.2))
        elements.append(label(panel.right + 8, (panel.top + panel.bottom) / 2 + 4, policy))
    return svg(880, 32 + 102 * len(series) + 34, elements)


def spreads(simulator, names, situation, below):
    """The spread of a cheap tenant's lag by name of a situation, a line for each policy."""
    panel = Panel(60, 36, 520, 240, (-0.2, len(names) - 0.8), (-1.2, 1))
    elements = list(axes(panel, names, "Spread of a cheap tenant's lag, milliseconds", below))
    for policy, color in COLOR_OF.items():
        values = [simulator.values(situation(name)(policy), experiments.spread) for name in names]
        elements += line(panel, values, color, policy == "2dfq+")
    return svg(680, 320, [*elements, *legend(600, 40, list(COLOR_OF.items()))])


def spread_by_share(simulator):
    return spreads(simulator, experiments.SHARES, experiments.by_share, "costly tenants of 100")


def spread_by_costs(simulator):
    return spreads(simulator, experiments.COSTLY_COSTS, experiments.by_costs, "milliseconds of a costly request; a cheap one has 0.3")


def spread_by_workers(simulator):
    return spreads(simulator, experiments.NUMBERS_OF_WORKERS, experiments.by_workers, "workers")


def spread_by_estimate(simulator):
    """A panel for each sort of costs."""
    elements, names = [label(60, 18, "Spread of a cheap tenant's lag, milliseconds, by estimate")], experiments.ESTIMATES
    for place, costs in enumerate(experiments.UNKNOWN):
        panel = Panel(60 + 330 * (place % 3), 52 + 270 * (place // 3), 270, 200, (-0.3, len(names) - 0.7), (-1.2, 2))
        elements += axes(panel, names, costs)
        for policy, color in COLOR_OF.items():
            situations = [experiments.estimated(costs, name, policy) for name in names]
            values = [simulator.values(situation, experiments.spread) for situation in situations]
            elements += line(panel, values, color, policy == "2dfq+")
    return svg(1010, 550, [*elements, *legend(760, 340, list(COLOR_OF.items()))])


def waits_by_load(simulator):
    """A panel for each rank."""
    elements = [label(60, 18, "Waiting of cheap requests from submit to start, milliseconds")]
    for place, rank in enumerate((0, 2, 3)):
        panel = Panel(60 + 290 * place, 52, 240, 220, (-0.3, len(experiments.LOADS) - 0.7), (-0.5, 2.2))
        below = "part of their share that cheap tenants ask for" if place == 1 else ""
        elements += axes(panel, experiments.LOADS, RANKS[rank], below)
        for name, way in experiments.WAYS.items():
            values = [experiments.waits(simulator, way, load)[rank] for load in experiments.LOADS]
            elements += line(panel, values, WAY_COLORS[name])
    return svg(1090, 320, [*elements, *legend(930, 60, [(plain(name), color) for name, color in WAY_COLORS.items()])])


def by_rank(simulator, names, least):
    """Waits by rank at half load, a line for each way to serve, from a power of ten milliseconds on."""
    panel = Panel(60, 36, 480, 260, (-0.2, len(RANKS) - 0.8), (least, 3.2))
    elements = list(axes(panel, RANKS, "Waiting of cheap requests from submit to start, milliseconds"))
    for name in names:
        values = experiments.waits(simulator, experiments.RIVALS[name], 0.5)
        elements += line(panel, values, RIVAL_COLORS[name])
    colors = [(plain(name), RIVAL_COLORS[name]) for name in names]
    return svg(740, 330, [*elements, *legend(560, 44, colors)])


def waits_by_rival(simulator):
    """Waits by rank, of all ways to serve with bounded waits."""
    return by_rank(simulator, RIVAL_COLORS, -2)


def waits_in_short(simulator):
    return by_rank(simulator, FEW, 0)


def starving(stories):
    """The longest time without a take over the time before, a panel for each story."""
    elements = [label(60, 18, "The longest time for which a tenant waits and is not taken, seconds")]
    names = experiments.SECONDS_BEFORE
    for place, (story, name) in enumerate(experiments.STORIES.items()):
        panel = Panel(60 + 340 * place, 52, 280, 200, (-0.3, len(names) - 0.7), (-2.3, 2.5))
        elements += axes(panel, names, name, "seconds before the second tenant comes")
        for policy, color in (("2dfq", COLORS[2]), ("2dfq+", COLORS[3])):
            points = ((panel.x(at), height(panel, stories.pause(story, policy, it))) for at, it in enumerate(names))
            drawn = " ".join(f"{x:.1f},{y:.1f}" for x, y in points)
            elements.append(element("polyline", points=drawn, fill="none", stroke=color, stroke_width=2))
    return svg(860, 300, [*elements, *legend(700, 60, [("all others", COLORS[2]), ("2dfq+", COLORS[3])])])
