"""The pictures of `report`: waits over time, the workers at the worst, and for whom victims waited."""

import types

from bars import MOST_BARS, bars, merged
from bars import picture as timeline
from blame import PARTS
from picture import OTHERS, ColorByName, Panel, element, label, legend, legend_height, svg, unit_of
from tables import human

COLUMNS = 120
LEFT, TOP, WIDTH, HEIGHT, ROW, SPACE = 80, 30, 600, 240, 18, 4
# The greatest number of rows and of colors, and the greatest number of bars of the workers' picture.
MOST_ROWS, MOST_COLORS, MANY_BARS = 12, 8, MOST_BARS // 8


def inline(picture):
    """A picture as a part of a page, without its first line."""
    return picture.partition("\n")[2]


def curves(journal, tenants):
    """The greatest waits of tenants over time: of each its points, the ends of columns and the waits that end there."""
    width, found = journal.now // COLUMNS + 1, {tenant: {} for tenant in tenants}
    for tenant, came, taken in zip(journal.tenant, journal.submitted, journal.taken):
        if taken is not None and tenant in found:
            own, place = found[tenant], taken // width
            own[place] = max(own.get(place, 0), taken - came)
    return {tenant: [((place + 1) * width, own[place]) for place in sorted(own)] for tenant, own in found.items()}


def waits_picture(journal, tenants):
    """The waits of tenants over time."""
    found = curves(journal, tenants)
    color_of = ColorByName([journal.tenants[it] for it in tenants])
    most = max([wait for points in found.values() for _, wait in points], default=0)
    unit = unit_of(0, max(1, most))
    panel = Panel(LEFT, TOP, WIDTH, HEIGHT, (0, (journal.now // COLUMNS + 1) * COLUMNS), (0, max(1, most)))
    elements = [label(LEFT, TOP - 8, f"greatest wait in {unit[1]}, over time")]
    elements += [*panel.time_axis(), *panel.number_axis(unit[0])]
    for tenant, points in found.items():
        at = " ".join(f"{panel.x(moment):.2f},{panel.y(wait):.2f}" for moment, wait in points)
        name = journal.tenants[tenant]
        style = {"fill": "none", "stroke": color_of[name], "stroke_width": 1.5, "stroke_linecap": "round"}
        elements.append(element("polyline", title=name, points=at, **style))
    elements += [panel.frame(), *legend(LEFT + WIDTH + 15, TOP, list(color_of.items()))]
    return inline(svg(LEFT + WIDTH + 180, TOP + HEIGHT + 50, elements))


def worst(journal, tenants):
    """The request of these tenants that waited longest, or None."""
    chosen, longest = set(tenants), (-1, None)
    for number, (tenant, came, taken) in enumerate(zip(journal.tenant, journal.submitted, journal.taken)):
        if taken is not None and tenant in chosen and taken - came > longest[0]:
            longest = taken - came, number
    return longest[1]


def worst_time(journal, number):
    """The time round the wait of a request, as much of it as has no more bars than one sees."""
    begin, end = journal.submitted[number], max(journal.taken[number], journal.submitted[number] + 1)
    begin, end = max(0, begin - (end - begin) // 4), min(journal.now, end + (end - begin) // 4) or 1
    while end - begin > 1:
        shown = list(merged(bars(journal, "tenant", begin, end, ()), (end - begin) / WIDTH))
        if len(shown) <= MANY_BARS:
            break
        begin += (end - begin) // 2
    return begin, end


def workers_picture(journal, tenants, number):
    """The requests of each worker round the wait of a request."""
    words = types.SimpleNamespace(tenants=[journal.tenants[it] for it in tenants], by="tenant", most=MOST_COLORS)
    return inline(timeline([journal], words, *worst_time(journal, number)))


def pairs_picture(journal, verdict, shown):
    """For whom each victim waited, as parts of its waiting; these tenants have colors."""
    victims, names = verdict.victims[:MOST_ROWS], journal.tenants
    color_of = ColorByName([names[it] for it in shown])
    elements = [label(LEFT, TOP - 8, "for whom each victim waited, as parts of its waiting")]
    for place, tenant in enumerate(victims):
        top, left = TOP + place * (ROW + SPACE), float(LEFT)
        own = sorted(((held, runs) for (it, runs), held in verdict.pairs.items() if it == tenant), reverse=True)
        whole = sum(held for held, _ in own) or 1
        elements.append(label(LEFT - 6, top + 13, names[tenant], "end"))
        # (those without a color are last)
        for held, runs in sorted(own, key=lambda it: names[it[1]] not in color_of):
            width = WIDTH * held / whole
            title = f"{names[tenant]} waited {human(held / PARTS)} for {names[runs]}, {100 * held / whole:.0f}%"
            size = {"width": width, "height": ROW}
            elements.append(element("rect", title=title, x=left, y=top, **size, fill=color_of[names[runs]]))
            left += width
    others = [("others", OTHERS)] if len(names) > len(shown) else []
    elements += legend(LEFT + WIDTH + 15, TOP, [*color_of.items(), *others])
    height = max(len(victims) * (ROW + SPACE), legend_height(len(shown) + 1)) + TOP + 10
    return inline(svg(LEFT + WIDTH + 180, height, elements))
