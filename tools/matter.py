"""The tenants or kinds of a journal that matter most, for the pictures of the tools beside this file."""

import collections
import itertools

from picture import COLORS, OTHERS
from tables import expect_names
from tool import within


def busy(journal, column="tenant"):
    """The time for which workers ran requests of each tenant or kind, by its number."""
    found = collections.Counter()
    for group, taken, done in zip(getattr(journal, column), journal.taken, journal.done):
        if taken is not None:
            found[group] += (journal.now if done is None else done) - taken
    return found


def waiting(journal, column="tenant"):
    """The time for which requests of each tenant or kind waited, by its number."""
    found = collections.Counter()
    for number, (group, submitted, taken) in enumerate(zip(getattr(journal, column), journal.submitted, journal.taken)):
        found[group] += (journal.withdrawn.get(number, journal.now) if taken is None else taken) - submitted
    return found


BY = {"busy": busy, "waiting": waiting}


def add_words(words, orders, default, has_most=False):
    """The options for the names that have colors of their own. A tool may have an option --most already."""
    words.add_argument(
        "--tenants", type=lambda it: it.split(","), metavar="NAME,..", help="these have colors, and all others are grey"
    )
    words.add_argument(
        "--rank", choices=orders, default=default, help=f"of what most is meant where none is named (default: {default})"
    )
    if has_most:
        return
    words.add_argument(
        "--most",
        type=within(0, 100),
        default=len(COLORS),
        metavar="N",
        help=f"so many that have most have colors, and all others are grey (default: {len(COLORS)})",
    )


def names(journal, column):
    return journal.tenants if column == "tenant" else journal.kinds


def colored_names(journals, given, count):
    """The names that have a color: those asked for, or at most `count`, in the order of the journals' heads."""
    if given.tenants:
        for journal in journals:
            expect_names(given.tenants, journal.tenants, "tenant", journal.name)
        return list(dict.fromkeys(given.tenants))
    sizes = []
    for journal in journals:
        found = BY[given.rank](journal, given.by)
        sizes.append([{name: found[number] for number, name in enumerate(names(journal, given.by)) if found[number]}])
    chosen = set(most(sizes, count))
    return [name for name in dict.fromkeys(name for it in journals for name in names(it, given.by)) if name in chosen]


def with_others(journals, column, color_of):
    """The lines of a legend: the names that have a color, and the number of names that have none."""
    others = len({name for it in journals for name in names(it, column)} - set(color_of))
    return [*color_of.items(), *([(f"{others} others", OTHERS)] if others else [])]


def most(sizes, count):
    """At most `count` names with the greatest sizes, by turns of each kind of size. Sizes are by file, kind, name."""
    orders = []
    for kind in zip(*sizes):
        greatest = {}
        for name, size in itertools.chain.from_iterable(own.items() for own in kind):
            greatest[name] = max(greatest.get(name, size), size)
        orders.append(sorted(greatest, key=greatest.get, reverse=True))
    return list(dict.fromkeys(itertools.chain.from_iterable(zip(*orders))))[:count]
