"""The lags of a journal's tenants behind the ideal server, slot by slot, for `lags`. docs/FORMATS.md defines them."""

import collections
import functools
import itertools
import operator

from tool import Fault, percentile

# The greatest number of cells of a report, one for each slot and tenant.
MOST_CELLS = 4_000_000


class Setting:
    """The weights and the number of workers, slot by slot."""

    def __init__(self, journal, slot):
        self.weights, self.pool = list(journal.weights), journal.workers
        self.changes = collections.deque((-(-it.moment // slot), it) for it in journal.changes)

    def next_change(self):
        """The first slot that has another setting."""
        return self.changes[0][0] if self.changes else MOST_CELLS

    def move_to(self, place):
        while self.next_change() <= place:
            _, change = self.changes.popleft()
            if change.tenant is None:
                self.pool = change.value
            else:
                self.weights[change.tenant] = change.value


def level_of(capacity, backlogs):
    """The greatest level whose gifts to backlogs (units and weights) fit the capacity, which is below their units."""
    low, high = 0, 1024 * (capacity + 1)
    # the units of the backlogs that every level from here on serves as a whole, and the weights of those that none does
    served, short = 0, collections.Counter()
    while high - low > 1:
        middle = (low + high) // 2
        given = [(units, weight, middle * weight // 1024) for units, weight in backlogs]
        total = served + sum(count * (middle * weight // 1024) for weight, count in short.items())
        if total + sum(min(units, gift) for units, _, gift in given) <= capacity:
            low = middle
            served += sum(units for units, _, gift in given if units <= gift)
            backlogs = [(units, weight) for units, weight, gift in given if units > gift]
        else:
            high = middle
            short.update(weight for units, weight, gift in given if units >= gift)
            backlogs = [(units, weight) for units, weight, gift in given if units < gift]
    return low


@functools.lru_cache(maxsize=1024)
def unbounded(capacity, weights):
    """The gifts of the greatest level by these weights where no backlog is served as a whole, and of the next level."""
    level = level_of(capacity, [(capacity + 1, weight) for weight in weights if weight])
    return tuple([it * weight // 1024 for weight in weights] for it in (level, level + 1))


def gifts(capacity, backlog, weights):
    """The gifts of a slot to each tenant's backlog: all of it, or that of the greatest level whose gifts fit. And the
    number of slots with equal gifts, one after another, where no request joins and no setting changes."""
    total = sum(backlog)
    if total <= capacity:
        return backlog, 1 if total else MOST_CELLS
    wanting = tuple([weight if units else 0 for units, weight in zip(backlog, weights)])
    given, next_given = unbounded(capacity, wanting)
    if not any(map(operator.lt, backlog, next_given)):
        rows = zip(backlog, given, next_given)
        return given, min((units - more) // gift + 1 for units, gift, more in rows if gift) if any(given) else 1
    level = level_of(capacity, [it for it in zip(backlog, weights) if it[0]])
    return [min(units, level * weight // 1024) for units, weight in zip(backlog, weights)], 1


def expect_done(journal):
    """Refuses a journal with a request that is neither done nor withdrawn."""
    for number, cost in enumerate(journal.cost):
        if cost is None and number not in journal.withdrawn:
            raise Fault(f"{journal.name}: request {number} is not done")


def fluid(journal, slot, slots):
    """The gifts of the ideal server in each slot, a list for each tenant. A request joins at the first slot's start at
    or after its submit."""
    submitted, tenant_of, costs, setting = journal.submitted, journal.tenant, journal.cost, Setting(journal, slot)
    backlog, rows, place, number, count = [0] * len(journal.tenants), [[] for _ in journal.tenants], 0, 0, len(costs)
    while place < slots:
        setting.move_to(place)
        start = place * slot
        while number < count and submitted[number] <= start:
            backlog[tenant_of[number]] += costs[number] or 0
            number += 1
        joins = -(-submitted[number] // slot) if number < count else slots
        given, alike = gifts(setting.pool * slot, backlog, setting.weights)
        until = min(place + alike, setting.next_change(), joins, slots)
        alike, place = until - place, until
        for row, gift in zip(rows, given):
            row += [gift] * alike
        backlog = [units - alike * gift for units, gift in zip(backlog, given)]
    return rows


def take_work(rows, journal, slot):
    """Takes the work done in each slot off the gifts. The work on a request is spread evenly from take to done."""
    for tenant, begin, end, cost in zip(journal.tenant, journal.taken, journal.done, journal.cost):
        if cost is None:
            continue
        # (work at the end of a slot is done in it, also where it took no time)
        row, first, last, rest = rows[tenant], begin // slot, max(end - 1, 0) // slot, cost
        if last >= len(row):
            raise Fault(f"{journal.name}: its report ends before its entries")
        if first < last:
            done = 0
            for place in range(first, last):
                now = cost * ((place + 1) * slot - begin) // (end - begin)
                row[place] -= now - done
                done = now
            rest -= done
        row[last] -= rest


def lags(journal, slot, slots):
    """The lags of the tenants after each slot, one tenant after another."""
    expect_done(journal)
    rows = fluid(journal, slot, slots)
    take_work(rows, journal, slot)
    return (list(itertools.accumulate(row)) for row in rows)


def summed_up(curve):
    """The least, three percentiles and the greatest, as a report has them."""
    ranked = sorted(curve)
    return [ranked[0], *(percentile(ranked, p) for p in (50, 90, 99)), ranked[-1]]
