"""Makes a trace of the requests of a log, for `from_log`: moments, names, means, and notes on the names."""

import collections
import itertools
import re

from tool import Fault, printable

MOST_REQUESTS, MOST_TENANTS, MOST_KINDS, MOST_PAIRS = 262_144, 4_096, 64, 65_536
GREATEST_MOMENT = 10**14
SECOND = 1_000_000
# The greatest number of names that are listed because they differ from the log.
MOST_TOLD = 10
# The name of the tenant of users who gave no name.
ANONYMOUS = "anonymous"

# A request: the time of its line, the time from its coming to that, its user, its kind, its declared cost, its cost,
# and its log and line.
Row = collections.namedtuple("Row", "time before user kind declared cost log line")


class Route:
    """The paths of one pattern, as /api/users/{id}, /shops/*/items or /static/*, which have one kind."""

    def __init__(self, pattern):
        parts = pattern.strip("/").split("/")
        self.kind = ".".join(it.strip("{}") for it in parts if it != "*") or "-"
        shapes = list(map(shape_of, parts))
        # (a * at the end is whatever follows)
        whole = "/".join(shapes[:-1]) + "(?:/.*)?" if parts[-1] == "*" else "/".join(shapes)
        self.shape = re.compile(whole, re.DOTALL)

    def fits(self, path):
        return bool(self.shape.fullmatch(path))


def shape_of(part):
    """The expression for a part of a path: any part for {name} and for *, and * in a part for any letters of it."""
    if part == "*" or (part.startswith("{") and part.endswith("}")):
        return "[^/]+"
    return "[^/]*".join(map(re.escape, part.split("*")))


def kind_of(path, depth, routes):
    """The kind of the first route that a path fits, or else the first parts of the path."""
    plain = path.partition("?")[0].partition("#")[0].strip("/")
    for route in routes:
        if route.fits(plain):
            return route.kind
    return ".".join(plain.split("/", depth)[:depth]) or "-"


class Names:
    """Names as a trace may have them, one for each text, in order."""

    def __init__(self, what, most, fault, renamed=()):
        self.what, self.most, self.fault, self.renamed = what, most, fault, dict(renamed)
        self.found, self.names, self.taken = {}, [], set()

    def add(self, text):
        """The number of the text's name."""
        if text not in self.found:
            if len(self.names) == self.most:
                raise Fault(self.fault)
            plain = self.renamed.get(text) or re.sub(r"[^A-Za-z0-9_.-]", "_", text)[:64] or "-"
            ends = itertools.chain([""], (f"-{number}" for number in itertools.count(2)))
            name = next(it for it in (plain[: 64 - len(end)] + end for end in ends) if it not in self.taken)
            self.found[text] = len(self.names)
            self.names.append(name)
            self.taken.add(name)
        return self.found[text]

    def changes(self):
        """The names that differ from the log, as lines."""
        changed = [(text, name) for text, name in zip(self.found, self.names) if text != name]
        for text, name in changed[:MOST_TOLD]:
            yield f"{self.what} {printable(text)!r} is named {name}"
        if len(changed) > MOST_TOLD:
            yield f"{len(changed) - MOST_TOLD} more {self.what}s have other names than in the log"


def place_of(row):
    return f"{row.log}: line {row.line}"


def spread(times):
    """Times, of which equal ones are spread evenly over the second from them on, in their order."""
    count, place = collections.Counter(times), collections.Counter()
    for time in times:
        yield time + place[time] * SECOND // count[time]
        place[time] += 1


def begun(rows, is_spread):
    """The moments at which requests came, and the requests, in the order of these moments."""
    times = [row.time for row in rows]
    came = [time - row.before for time, row in zip(spread(times) if is_spread else times, rows)]
    return sorted(zip(came, rows), key=lambda it: it[0])


def means(rows):
    """The mean cost of each kind, to the nearest microsecond."""
    sums = collections.defaultdict(lambda: [0, 0])
    for row in rows:
        sums[row.kind][0] += row.cost
        sums[row.kind][1] += 1
    return {kind: (2 * total + count) // (2 * count) for kind, (total, count) in sums.items()}


def trace(came, name, given):
    """The lines of the trace of requests with the moments at which they came, and the notes on its names."""
    tenants = Names("tenant", MOST_TENANTS, f"{name}: more than {MOST_TENANTS} tenants", {"-": ANONYMOUS})
    too_many = f"{name}: more than {MOST_KINDS} kinds: take less of the paths, or another column"
    kinds = Names("kind", MOST_KINDS, too_many)
    first, mean, requests = came[0][0], means(row for _, row in came) if given.mean else None, []
    # (what stands between the moment and the costs, by user and kind)
    middles = {}
    for moment, (_, _, user, kind, declared, cost, _, _) in came:
        middle = middles.get((user, kind))
        if middle is None:
            tenant = tenants.add(user)
            names = f"{tenants.names[tenant]},{kinds.names[kinds.add(kind)]}"
            middle = middles[user, kind] = f"{tenant % given.submitters},{names}"
        requests.append(f"request,{moment - first},{middle},{mean[kind] if mean else declared},{cost}\n")
    if len(tenants.names) * len(kinds.names) > MOST_PAIRS:
        raise Fault(f"{name}: more than {MOST_PAIRS} pairs of a tenant and a kind")
    for user in given.weight:
        if user not in tenants.found:
            raise Fault(f"{name}: no request is of {user}, whose weight is told")
    heads = (f"tenant,{it},{given.weight.get(user, 1)}\n" for user, it in zip(tenants.found, tenants.names))
    return "".join([*heads, *requests]), [*tenants.changes(), *kinds.changes()]
