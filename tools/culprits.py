"""Who took more than its share while others waited, and who waited for it, for `turnaround`.

Only the time in which some request waits counts, cut into slots. In a slot a tenant wants the time of its open
requests, those that wait and those that run, and has the time of those that run. What all had is divided by weight
among the tenants with open requests: its part of that is a tenant's share, and what it gets where nobody gets more than
it wants is its due. A tenant that has more than its due in a slot took that of others, who were short of it.

Over all slots a tenant was short by a part of what was due to it, and a slot counts by what the tenant waited in it. So
much of its waiting is wrongful: the rest it owes to itself, or all waited alike. After a burst its own requests are
gone, and those of others wait on for the time that it took. So there is an ideal server too, which divides among the
tenants what all had, by weight and by the work that each has open there. Of a tenant's open work the part that the
ideal server has done already is behind, and a tenant is short by that part, if that is more. A victim was short by a
fifth or more. A culprit had 1.7 times its share and more where victims waited. There is none where less than a fifth of
what all others waited is wrongful."""

import collections
import itertools

from blame import BITS, DONE, PARTS, SUBMIT, TAKE, busy, events, pairs_of, ranked, ratio
from tables import Column, Name, Part, Ratio, Table, Time, digits, human
from tool import percentile

# The greatest number of slots, the least number, and the number of mean requests for which a slot has room.
MOST_SLOTS, LEAST_SLOTS, LONG = 400, 10, 10
# A victim is short by this part of its due, a culprit had this many times its share and took this part of all that was
# taken, and wrongful waits are this part of those of others.
SHORT, FAR, LEAST_TAKEN, WRONGFUL = 0.2, 1.7, 0.1, 0.2

# The greatest number of victims that are told in words.
MOST_TOLD = 5

# What a tenant's requests waited and had in a slot, in microseconds, and its open work at the begin and the end.
Times = collections.namedtuple("Times", "waited ran before after")
# What a tenant waited, had, was due and had as its share in a slot, in microseconds, and the part of its open work by
# which it was behind.
Cell = collections.namedtuple("Cell", "waited had due share behind")
# The standing of a tenant: what it waited, the part by which it was short, and what it waited wrongfully.
Standing = collections.namedtuple("Standing", "waited short wrongful")


def waiting_time(journal):
    """The time in which some request waits."""
    waits, since, total = 0, 0, 0
    for event in events(journal):
        moment, what = event >> BITS + 2, event & 3
        if what == DONE:
            continue
        if what == SUBMIT and not waits:
            since = moment
        waits += 1 if what == SUBMIT else -1
        if not waits:
            total += moment - since
    return total + (journal.now - since if waits else 0)


def lengths_of(journal):
    """The time for which each request runs, as far as it is known; for one that was not taken that of the mean one."""
    found = []
    for taken, done in zip(journal.taken, journal.done):
        found.append(None if taken is None else (journal.now if done is None else done) - taken)
    known = [it for it in found if it is not None]
    mean = sum(known) // (len(known) or 1)
    return [mean if it is None else it for it in found]


class Slots:
    """The slots of a journal: `found` has of each the tenants' times by tenant, and whether nobody waited at some
    moment of it. Its clock goes only while some request waits."""

    def __init__(self, journal):
        self.count, self.slot = len(journal.tenants), slot_of(journal)
        # (of each tenant its open requests, its times in this slot so far, and the moment up to which these go)
        self.waiting, self.running = [0] * self.count, [0] * self.count
        self.waited, self.ran, self.since = [0] * self.count, [0] * self.count, [0] * self.count
        # (of each tenant the lengths of open requests, the takes of those that run, and its open work before this slot)
        self.lengths, self.begun, self.before = [0] * self.count, [0] * self.count, [0] * self.count
        self.clock, self.end, self.is_cut, self.found = 0, self.slot, True, []
        self.follow(journal)

    def settle(self, tenant):
        """Adds a tenant's times up to now."""
        passed = self.clock - self.since[tenant]
        if passed:
            self.waited[tenant] += passed * self.waiting[tenant]
            self.ran[tenant] += passed * self.running[tenant]
            self.since[tenant] = self.clock

    def pass_time(self, now, moment):
        """Lets time go by in which some request waits."""
        until = self.clock + moment - now
        while until >= self.end:
            self.clock = self.end
            self.close(moment - until + self.end)
            self.end += self.slot
        self.clock = until

    def close(self, now):
        """Ends a slot."""
        for tenant in range(self.count):
            self.settle(tenant)
        after = [self.lengths[it] - self.running[it] * now + self.begun[it] for it in range(self.count)]
        rows = enumerate(map(Times, self.waited, self.ran, self.before, after))
        times = {tenant: times for tenant, times in rows if times.waited or times.ran}
        if times:
            self.found.append((times, self.is_cut))
        self.waited, self.ran, self.before, self.is_cut = [0] * self.count, [0] * self.count, after, False

    def follow(self, journal):
        tenant_of, now, waits, mask, lengths = journal.tenant, 0, 0, (1 << BITS) - 1, lengths_of(journal)
        for event in events(journal):
            moment, number, what = event >> BITS + 2, event >> 2 & mask, event & 3
            if waits and moment > now:
                self.pass_time(now, moment)
            now, tenant = moment, tenant_of[number]
            self.settle(tenant)
            if what == SUBMIT:
                waits += 1
                self.waiting[tenant] += 1
                self.lengths[tenant] += lengths[number]
            elif what == DONE:
                self.running[tenant] -= 1
                self.end_work(tenant, lengths[number], now - lengths[number])
            else:
                waits -= 1
                self.waiting[tenant] -= 1
                if what == TAKE:
                    self.running[tenant] += 1
                    self.begun[tenant] += now
                else:
                    self.end_work(tenant, lengths[number], 0)
                self.is_cut |= not waits
        if waits:
            self.pass_time(now, journal.now)
        self.close(journal.now)

    def end_work(self, tenant, length, begun):
        """Takes away a request that is done or withdrawn."""
        self.lengths[tenant] -= length
        self.begun[tenant] -= begun


def slot_of(journal):
    """The length of a slot: of several mean requests, but neither too many slots nor too few."""
    whole, ran = waiting_time(journal), [0, 0]
    for taken, done in zip(journal.taken, journal.done):
        if taken is not None:
            ran = [ran[0] + (journal.now if done is None else done) - taken, ran[1] + 1]
    long = LONG * ran[0] // (ran[1] or 1)
    return max(1, whole // MOST_SLOTS, min(long, whole // LEAST_SLOTS))


def dues(capacity, wanted, weights):
    """What is due to each tenant: the capacity by weight, where nobody gets more than it wants."""
    due, rest = {}, sum(weights[it] for it in wanted)
    for tenant in sorted(wanted, key=lambda it: wanted[it] / weights[it]):
        due[tenant] = min(wanted[tenant], capacity * weights[tenant] / rest)
        capacity -= due[tenant]
        rest -= weights[tenant]
    return due


class Ideal:
    """The ideal server: `lags` has by tenant how much more of its work it has done since somebody waits."""

    def __init__(self, weights):
        self.weights, self.lags = weights, {}

    def pass_slot(self, times, is_cut):
        """Serves a slot, and gives the part of its open work by which each tenant was behind."""
        if is_cut:
            self.lags = {}
            return dict.fromkeys(times, 0)
        before, nothing = self.lags, Times(0, 0, 0, 0)
        had = {it: times.get(it, nothing) for it in {*times, *before}}
        wanted = {it: own.after + own.ran - before.get(it, 0) for it, own in had.items()}
        given = dues(sum(own.ran for own in times.values()), wanted, self.weights)
        self.lags = {it: before.get(it, 0) + given[it] - own.ran for it, own in had.items()}
        behind = {it: max(0, before.get(it, 0) + self.lags[it]) for it in times}
        return {it: min(1, behind[it] / (own.before + own.after or 1)) for it, own in times.items()}


def cells_of(journal):
    """The cells of each slot by tenant."""
    weights, ideal = journal.weights, Ideal(journal.weights)
    for times, is_cut in Slots(journal).found:
        wanted, behind = {it: own.waited + own.ran for it, own in times.items()}, ideal.pass_slot(times, is_cut)
        capacity, whole = sum(own.ran for own in times.values()), sum(weights[it] for it in wanted)
        due = dues(capacity, wanted, weights)
        share = {it: capacity * weights[it] / whole for it in wanted}
        yield {it: Cell(own.waited, own.ran, due[it], share[it], behind[it]) for it, own in times.items()}


def standing_of(cells, has_ideal):
    """A tenant's standing by its cells, and by the ideal server."""
    waited = sum(it.waited for it in cells)
    had, due, behind = (sum(it.waited * getattr(it, column) for it in cells) for column in ("had", "due", "behind"))
    short = max(0, 1 - had / due, has_ideal and behind / waited) if due else 0
    return Standing(waited, short, waited * short)


class Verdict:
    """The verdict on a journal, by the numbers of tenants: `standings`; `taken`, the work that each had beyond its due;
    `held`, the wrongful waiting of others while its requests ran; `times`, how many times its share it had where
    victims waited; and `victims` and `culprits`, the worst first."""

    def __init__(self, journal):
        slots = list(cells_of(journal))
        count, own = len(journal.tenants), collections.defaultdict(list)
        for tenant, cell in itertools.chain.from_iterable(it.items() for it in slots):
            own[tenant].append(cell)
        self.taken = [sum(max(0, it.had - it.due) for it in own[tenant]) for tenant in range(count)]
        # (where there is no culprit, some of many are behind by chance)
        for has_ideal in (True, False):
            self.judge([standing_of(own[tenant], has_ideal) for tenant in range(count)], slots)
            if self.culprits:
                break
        of = lambda it: self.standings[it]
        # (waits of whole tenants, each while requests of each other tenant ran)
        asked = [it for it in range(count) if of(it).short]
        self.pairs = pairs_of(journal, asked)
        self.held = [0] * count
        for (it, runs), held in self.pairs.items():
            self.held[runs] += of(it).short * held if it != runs else 0

    def judge(self, standings, slots):
        """Finds victims and culprits by the tenants' standings."""
        self.standings, everybody = standings, range(len(standings))
        of = lambda it: standings[it]
        self.victims = [it for it in everybody if of(it).wrongful and of(it).short >= SHORT]
        self.victims.sort(key=lambda it: -of(it).wrongful)
        self.times = self.times_of_share(slots)
        self.culprits = [it for it in everybody if self.is_far(it)]
        self.culprits.sort(key=lambda it: -self.taken[it])
        others = [of(it) for it in everybody if it not in self.culprits]
        if sum(it.wrongful for it in others) < WRONGFUL * sum(it.waited for it in others) or not self.victims:
            self.culprits = []

    def times_of_share(self, slots):
        """How many times its share each tenant had; a slot counts by what victims waited in it."""
        had, share = collections.Counter(), collections.Counter()
        for cells in slots:
            waited = sum(cells[it].waited for it in self.victims if it in cells)
            for tenant, cell in cells.items() if waited else ():
                had[tenant] += waited * cell.had
                share[tenant] += waited * cell.share
        return {it: had[it] / share[it] for it in share if share[it]}

    def is_far(self, tenant):
        """Whether a tenant had far more than its share, and took a good part of all that was taken."""
        far = tenant not in self.victims and self.times.get(tenant, 0) >= FAR
        return far and self.taken[tenant] >= LEAST_TAKEN * sum(self.taken) > 0


def waits_table(journal, verdict, shown):
    """The tenants whose requests ran while those of others waited; who took most from others comes first."""
    ran, weights, rows = [sum(own) for own in busy(journal)], sum(journal.weights), []
    for tenant, name in enumerate(journal.tenants):
        if shown(name):
            weight, taken, own = journal.weights[tenant], verdict.taken[tenant], verdict.standings[tenant]
            parts = [weight, weight / weights, ratio(ran[tenant], sum(ran)), taken, ratio(taken, sum(verdict.taken))]
            rows.append([name, *parts, verdict.held[tenant] / PARTS, own.waited, own.short if own.waited else None])
    columns = [Name("tenant"), Column("weight"), Part("due"), Part("had"), Time("taken"), Part("part")]
    return Table("waits", [*columns, Time("held"), Time("waited"), Part("short")], ranked(rows, 4))


def culprits_table(journal, verdict):
    of = lambda it: [journal.tenants[it], verdict.times[it], verdict.taken[it], verdict.held[it] / PARTS]
    rows = map(of, verdict.culprits)
    return Table("culprits", [Name("tenant"), Ratio("times-share", "times_share"), Time("taken"), Time("held")], rows)


def victims_table(journal, verdict):
    """The tenants that were short of their due, with the part of their waiting while requests of culprits ran."""
    waits = collections.defaultdict(list)
    for tenant, submitted, taken in zip(journal.tenant, journal.submitted, journal.taken):
        if taken is not None:
            waits[tenant].append(taken - submitted)
    rows = []
    for it in verdict.victims:
        own, late = verdict.standings[it], percentile(sorted(waits[it]), 99) if waits[it] else None
        held = {runs: held for (tenant, runs), held in verdict.pairs.items() if tenant == it}
        part = ratio(sum(held.get(runs, 0) for runs in verdict.culprits), sum(held.values()))
        rows.append([journal.tenants[it], own.wrongful, own.waited, late, own.short, part])
    columns = [Name("tenant"), Time("wrongful"), Time("waited"), Time("wait-p99"), Part("short"), Part("for-culprits")]
    return Table("victims", columns, rows)


def sentences(journal, verdict):
    """The verdict in words."""
    for name, times, taken, _ in culprits_table(journal, verdict).rows:
        yield f"{name} took {digits(times)} times its share while others waited: {human(taken)} of work beyond its due"
    if not verdict.culprits:
        yield "nobody took far more than its share while others waited"
        return
    names, rows = " and ".join(journal.tenants[it] for it in verdict.culprits), victims_table(journal, verdict).rows
    for name, _, waited, late, short, part in rows[:MOST_TOLD]:
        how = f"p99 {human(late)}, " if late is not None else ""
        for_whom = f"{100 * part:.0f}% of it while {names} ran"
        yield f"{name} waited {human(waited)}, {how}and was short by {100 * short:.0f}% of its due: {for_whom}"
    if len(rows) > MOST_TOLD:
        more = len(rows) - MOST_TOLD
        yield f"{more} more {'was short of its' if more == 1 else 'were short of their'} due"


def verdict_table(journal, verdict):
    return Table("verdict", [Name("verdict")], [[it] for it in sentences(journal, verdict)])
