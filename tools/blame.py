"""The tenants whose requests ran while others waited, for `turnaround`."""

import collections

from matter import waiting
from tables import Name, Part, Table, Time

# The parts of a microsecond in which time is shared.
PARTS = 1 << 20
SUBMIT, TAKE, DONE, WITHDRAW = range(4)
# An event is one number, so that many events are sorted fast: the moment, the request in this number of bits, and its
# change in two bits more.
BITS = 40
# The bits of a sum of waits: of 2^18 requests, for 2^64 microseconds, in parts of these, and some more.
SUM_BITS = 128


def events(journal):
    """The changes of waiting and running requests, in the order of moments."""
    shift = BITS + 2
    found = [moment << shift | number << 2 | SUBMIT for number, moment in enumerate(journal.submitted)]
    for moments, what in ((journal.taken, TAKE), (journal.done, DONE)):
        found += [it << shift | number << 2 | what for number, it in enumerate(moments) if it is not None]
    found += [moment << shift | number << 2 | WITHDRAW for number, moment in journal.withdrawn.items()]
    found.sort()
    return found


def pairs_of(journal, asked):
    """The waits of each tenant that is asked for while requests of each tenant ran, in parts of microseconds.

    While a request waits and r run, each of these gets 1/r of a microsecond in a microsecond. So a request gets from a
    tenant the growth of a sum: that of r'/r over time, of which r' is the number of the tenant's running requests. The
    sums of all tenants stand side by side in one large number, of SUM_BITS bits each, since Python adds large numbers
    fast. A row of such sums loses them at each submit of its tenant, and gets those of the take."""
    rows, running, sums, runs, now = {tenant: 0 for tenant in asked}, 0, 0, 0, 0
    tenant_of, waiting, mask = journal.tenant, collections.Counter(), (1 << BITS) - 1
    for event in events(journal):
        moment, number, what = event >> BITS + 2, event >> 2 & mask, event & 3
        if moment > now:
            if runs:
                sums += running * ((moment - now) * PARTS // runs)
            now = moment
        tenant = tenant_of[number]
        if what != DONE and tenant in rows:
            rows[tenant] += -sums if what == SUBMIT else sums
            waiting[tenant] += 1 if what == SUBMIT else -1
        if what in (TAKE, DONE):
            change = 1 if what == TAKE else -1
            running += change << SUM_BITS * tenant
            runs += change
    if runs:
        sums += running * ((journal.now - now) * PARTS // runs)
    found = {}
    for tenant, row in rows.items():
        for other, held in enumerate(unpacked(row + waiting[tenant] * sums, len(journal.tenants))):
            if held:
                found[tenant, other] = held
    return found


def unpacked(row, count):
    """The sums that stand side by side in a number."""
    size = SUM_BITS // 8
    digits = row.to_bytes(size * count, "little")
    return [int.from_bytes(digits[at : at + size], "little") for at in range(0, size * count, size)]


def busy(journal, column="tenant"):
    """The microseconds that each worker ran requests of each tenant or kind, a list for each of these."""
    found = [[0] * journal.workers for _ in (journal.tenants if column == "tenant" else journal.kinds)]
    for group, worker, taken, done in zip(getattr(journal, column), journal.worker, journal.taken, journal.done):
        if worker is not None:
            found[group][worker] += (journal.now if done is None else done) - taken
    return found


def span_of(journal):
    """The time from the first submit to the last entry."""
    return journal.now - journal.submitted[0] if journal.submitted else 0


def ratio(part, whole):
    return part / whole if whole else None


def ranked(rows, place):
    """The rows with the greatest in a column first."""
    return sorted(rows, key=lambda row: row[place] or 0, reverse=True)


def workers_table(journal, shown):
    """The part of each worker's time that each tenant had."""
    span, rows = span_of(journal), []
    for name, own in zip(journal.tenants, busy(journal)):
        if shown(name):
            rows.append([name, ratio(sum(own), span * journal.workers), *(ratio(it, span) for it in own)])
    columns = [Name("tenant"), Part("all"), *(Part(f"worker-{number}") for number in range(journal.workers))]
    return Table("workers", columns, ranked(rows, 1))


def pairs_table(journal, shown):
    """The tenants for whom each shown tenant waited."""
    asked = [tenant for tenant, name in enumerate(journal.tenants) if shown(name)]
    rows, found, waited = [], {tenant: [] for tenant in asked}, waiting(journal)
    for (tenant, runs), held in pairs_of(journal, asked).items():
        found[tenant].append((held, runs))
    for tenant in asked:
        whole = waited[tenant] * PARTS
        for held, runs in sorted(found[tenant], key=lambda it: (-it[0], it[1])):
            rows.append([journal.tenants[tenant], journal.tenants[runs], round(held / PARTS), ratio(held, whole)])
    return Table("pairs", [Name("tenant"), Name("waited-for"), Time("held"), Part("part")], rows)
