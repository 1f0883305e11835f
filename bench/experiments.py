"""The experiments of docs/EVALUATION.md: the situations of each, and its table."""

import dataclasses
import subprocess

from simulator import CHEAP, COSTLY, HERE, Costs, Situation, Tenants, compiled

POLICIES = ("wfq", "wf2q", "2dfq", "2dfq+")
TENANTS, WORKERS = 100, 16
SHARES = (10, 25, 50, 75, 90)
COSTLY_COSTS = (0.3, 3, 30, 100)
NUMBERS_OF_WORKERS = (2, 4, 8, 16, 32, 64)
LOADS = (0.1, 0.3, 0.5, 0.7, 0.9)
RIVAL_LOADS = (0.1, 0.5, 0.9)
SECONDS_BEFORE = (10, 20, 40, 80, 160)

NEAR_CHEAP, NEAR_COSTLY = Costs("near", CHEAP), Costs("near", COSTLY)
# From 1 to 1000 milliseconds, and their mean.
LOG_UNIFORM, MEAN_LOG_UNIFORM = Costs("log-uniform", 1, 1000), 144.6
# One cost of ten near 100 milliseconds, the others near 1.
TWO_HUMPED, MEAN_TWO_HUMPED = Costs("two-humped", 1, COSTLY, 0.1), 10.9
# Any cost from that of a cheap request to that of a costly request.
ANY, MEAN_ANY = Costs("log-uniform", CHEAP, COSTLY), 17.16


def backlogged(costly=50, cheap_costs=NEAR_CHEAP, costly_costs=NEAR_COSTLY):
    """Tenants with a backlog all the time, this number of them costly."""
    return (Tenants(TENANTS - costly, cheap_costs), Tenants(costly, costly_costs))


def visited(load):
    """Cheap tenants that ask for a part of their share, beside as many costly tenants with a backlog all the time."""
    return (Tenants(50, NEAR_CHEAP, load=load * WORKERS / TENANTS), Tenants(50, NEAR_COSTLY))


def unpredictable(tenants):
    """This number of tenants of either sort may send requests of any cost."""
    steady = (Tenants(50 - tenants, NEAR_CHEAP, CHEAP), Tenants(50 - tenants, NEAR_COSTLY, COSTLY))
    return (*steady, Tenants(2 * tenants, ANY, MEAN_ANY))


# Costs that nobody knows, by name. In each the first tenants are the cheap tenants of the table, and the declared cost is the mean
# of the tenant.
UNKNOWN = {
    "steady": (Tenants(50, NEAR_CHEAP, CHEAP), Tenants(50, NEAR_COSTLY, COSTLY)),
    "log-uniform": (Tenants(50, NEAR_CHEAP, CHEAP), Tenants(50, LOG_UNIFORM, MEAN_LOG_UNIFORM)),
    "two-humped": (Tenants(50, NEAR_CHEAP, CHEAP), Tenants(50, TWO_HUMPED, MEAN_TWO_HUMPED)),
    "a third unpredictable": unpredictable(17),
    "two thirds unpredictable": unpredictable(33),
}
ESTIMATES = ("known", "declared", "recent", "pessimistic")


def estimated(name, estimate, policy):
    tenants = UNKNOWN[name]
    if estimate == "known":
        tenants = tuple(dataclasses.replace(each, declared=0) for each in tenants)
        estimate = "declared"
    return Situation(tenants, policy, estimate)


def spread(seen):
    return seen.spread[0]


# Ways to serve whose waits are compared: a name, and the parts of the situation that differ.
WAYS = {
    "`wfq`": {"serve": "wfq"},
    "`wf2q`": {"serve": "wf2q"},
    "`2dfq`": {"serve": "2dfq"},
    "`2dfq+`": {"serve": "2dfq+"},
    "`2dfq+`, patience 0.02": {"serve": "2dfq+", "patience": 0.02},
    "`2dfq+`, patience 0.05": {"serve": "2dfq+", "patience": 0.05},
}
RIVALS = {
    "one queue": {"serve": "one-queue"},
    "round robin": {"serve": "round-robin"},
    "deficit round robin": {"serve": "deficit", "quantum": 1},
    "4 workers kept": {"serve": "lanes", "lanes": 4},
    "6 workers kept": {"serve": "lanes", "lanes": 6},
    "8 workers kept": {"serve": "lanes", "lanes": 8},
    "`wf2q`": WAYS["`wf2q`"],
    "`2dfq+`": WAYS["`2dfq+`"],
    "`2dfq+`, patience 0.02": WAYS["`2dfq+`, patience 0.02"],
}


def served(way, load):
    return Situation(visited(load), estimate="pessimistic", **way)


# Texts of tables.


def shown(number):
    """A number of milliseconds."""
    return f"{number:,.2f}" if number < 10 else f"{number:,.1f}" if number < 100 else f"{number:,.0f}"


def table(head, rows, words):
    """Rows of cells, of which the first are words and the others numbers."""
    first, *others = ("| " + " | ".join(line) + " |" for line in [head, *rows])
    return "\n".join([first, "|" + "---|" * words + "---:|" * (len(head) - words), *others]) + "\n"


def ranged(values):
    return f"{shown(values.middle)} ({shown(values.least)} to {shown(values.greatest)})"


def least(values):
    """The names of the least of these values, and of the values that are alike it."""
    best = min(values.values(), key=lambda one: one.middle)
    names = [f"`{name}`" for name, one in values.items() if one.is_alike(best)]
    return "all alike" if len(names) == len(values) else ", ".join(names) + (" alike" if len(names) > 1 else "")


def by_policy(simulator, cells, situation):
    """A row: the spread of a cheap tenant's lag under each policy, and the policy with the least."""
    values = {policy: simulator.values(situation(policy), spread) for policy in POLICIES}
    return [*cells, *(ranged(one) for one in values.values()), least(values)]


def policy_head(*words):
    return [*words, *(f"`{policy}`" for policy in POLICIES), "least"]


# The experiments: each has its table, and some have more for their pictures.


# Estimates of costs, and whether all tenants come in one moment or at random in the first second.
COMINGS = {
    "known": {"estimate": "declared"},
    "`pessimistic`": {"estimate": "pessimistic"},
    "`pessimistic`, tenants come one by one": {"estimate": "pessimistic", "joins": 1000},
    "as above, seconds 20 to 25": {"estimate": "pessimistic", "joins": 1000, "window": (20_000_000, 25_000_000)},
}


def over_time(simulator, count=len(COMINGS)):
    """The first rows, `count` of them."""
    rows = [
        by_policy(simulator, [name], lambda policy: Situation(backlogged(), policy, **way))
        for name, way in list(COMINGS.items())[:count]
    ]
    return table(policy_head("costs"), rows, 1)


def series(simulator, policy):
    """One cheap tenant's lag after each of 1,250 milliseconds: two turns of a costly tenant."""
    situation = Situation(backlogged(), policy, show="series")
    simulator.run_all([situation])
    return simulator.seen[situation].series[:1250]


def by_share(costly):
    return lambda policy: Situation(backlogged(costly), policy)


def shares(simulator):
    rows = [by_policy(simulator, [str(costly)], by_share(costly)) for costly in SHARES]
    return table(policy_head("costly tenants of 100"), rows, 1)


def by_costs(cost):
    return lambda policy: Situation(backlogged(costly_costs=Costs("near", cost)), policy)


def costs_apart(simulator):
    rows = [by_policy(simulator, [f"{cost:g}"], by_costs(cost)) for cost in COSTLY_COSTS]
    return table(policy_head("a costly request"), rows, 1)


def by_workers(workers, window=()):
    return lambda policy: Situation(backlogged(), policy, "pessimistic", workers=workers, window=window)


def numbers_of_workers(simulator):
    rows = [by_policy(simulator, [str(workers)], by_workers(workers)) for workers in NUMBERS_OF_WORKERS]
    rows.append(by_policy(simulator, ["2, seconds 2 to 10"], by_workers(2, (2_000_000, 10_000_000))))
    return table(policy_head("workers"), rows, 1)


def unknown_costs(simulator):
    rows = []
    for name in UNKNOWN:
        for estimate in ESTIMATES:
            cells = [name, estimate if estimate == "known" else f"`{estimate}`"]
            rows.append(by_policy(simulator, cells, lambda policy: estimated(name, estimate, policy)))
    return table(policy_head("costs", "estimate"), rows, 2)


def waits(simulator, way, load):
    """Waits of cheap requests at four ranks."""
    return [simulator.values(served(way, load), lambda seen: seen.wait[0][rank]) for rank in range(4)]


def is_behind(simulator, way, load):
    """Whether less than nine tenths of the cheap requests that come are served, so that waits grow without bound."""
    asked = load * WORKERS / 2 / CHEAP * 1000
    return simulator.values(served(way, load), lambda seen: seen.done[0]).middle < 0.9 * asked


def marked(values, is_in):
    """The cells of a column: the least value is bold, and the values that are alike it."""
    best = min((one for one, counts in zip(values, is_in) if counts), key=lambda one: one.middle)
    for one, counts in zip(values, is_in):
        text = ranged(one) if counts else "unbounded"
        yield f"**{text}**" if counts and one.is_alike(best) else text


def wait_rows(simulator, ways, load):
    """The rows of a load."""
    is_steady = [not is_behind(simulator, way, load) for way in ways.values()]
    by_rank = list(zip(*(waits(simulator, way, load) for way in ways.values())))
    columns = [list(marked(values, is_steady)) for values in (by_rank[0], by_rank[2], by_rank[3])]
    for place, (name, way) in enumerate(ways.items()):
        costly, busy = (simulator.values(served(way, load), number).middle for number in (costly_rate, lambda seen: seen.busy))
        yield [f"{load}", name, *(column[place] for column in columns), f"{costly:.1f}", f"{busy:.3f}"]


def costly_rate(seen):
    return seen.done[1]


WAIT_HEAD = ["load", "served by", "p50", "p99", "p99.9", "costly a second", "workers busy"]


def loads(simulator):
    return table(WAIT_HEAD, [row for load in LOADS for row in wait_rows(simulator, WAYS, load)], 2)


def rivals(simulator, loads=RIVAL_LOADS):
    return table(WAIT_HEAD, [row for load in loads for row in wait_rows(simulator, RIVALS, load)], 2)


# As on the threads of `rust/examples/patience.rs`: all cheap requests have one cost, and all costly requests have one.
EQUAL_WAYS = {"one queue": RIVALS["one queue"], **WAYS}
SLEPT = 0.37


def equal_costs(simulator):
    tenants = (
        Tenants(50, Costs("fixed", SLEPT), load=0.5 * WORKERS / TENANTS),
        Tenants(50, Costs("fixed", COSTLY)),
    )
    rows = []
    for name, way in EQUAL_WAYS.items():
        situation = Situation(tenants, estimate="pessimistic", **way)
        cheap = [simulator.values(situation, lambda seen: seen.wait[0][rank]) for rank in (0, 2, 3)]
        costly, busy = (simulator.values(situation, number).middle for number in (costly_rate, lambda seen: seen.busy))
        rows.append([name, *(ranged(one) for one in cheap), f"{costly:.1f}", f"{busy:.3f}"])
    return table(WAIT_HEAD[1:], rows, 1)


STORIES = {0: "spare workers", 5: "little charged"}
STARVING_POLICIES = ("wfq", "wf2q", "msf2q", "2dfq", "2dfq+")


class Starving:
    """The stories of `bench/starving.c`."""

    def __init__(self, library, room):
        self.binary, self.seen = f"{room}/starving", {}
        compiled([f"{HERE}/starving.c"], library, self.binary)

    def pause(self, story, policy, seconds):
        """The longest time in seconds for which one of the two tenants waits and is not taken."""
        key = (story, policy, seconds)
        if key not in self.seen:
            words = [self.binary, str(story), str(STARVING_POLICIES.index(policy)), str(seconds)]
            self.seen[key] = int(subprocess.run(words, stderr=subprocess.PIPE, check=True).stderr) / 1000
        return self.seen[key]


def starving(stories, before=SECONDS_BEFORE):
    head = ["story", "seconds before", *(f"`{policy}`" for policy in STARVING_POLICIES)]
    rows = [
        [name, str(seconds), *(f"{stories.pause(story, policy, seconds):.2f}" for policy in STARVING_POLICIES)]
        for story, name in STORIES.items()
        for seconds in before
    ]
    return table(head, rows, 2)
