"""Simulates a trace as a service would serve it after a change, for `report` and `compare`: under a policy or in one
queue, by so many workers, with other weights, with limits of tenants, or with the reserve of a pool."""

import collections
import functools
import re
import types

import reserve
from program import answer
from queue_journal import takes_of

ONE_QUEUE = "one_queue"
TAKES = re.compile(rb"^take \d+ (\d+) \d+ (\d+)", re.MULTILINE)

# A change: the policy, or one_queue, whose estimator is None; the workers; other weights and limits of tenants, as pairs
# of a name and a number; and the part of the reserve, or None.
Change = collections.namedtuple("Change", "policy estimate workers weights limits reserve", defaults=((), (), None))

# What a change makes of a trace: the wait of each request, in the order of the trace, and when the last was done.
Served = collections.namedtuple("Served", "waits end")


def decimal(value):
    return f"{value:.3f}".rstrip("0").rstrip(".")


def details(change):
    """What a change changes beside policy, estimator and workers, in words."""
    parts = [f"{name} at weight {weight}" for name, weight in change.weights]
    for name, limit in change.limits:
        parts.append(f"{name} at {decimal(limit)} {'worker' if limit == 1 else 'workers'}")
    if change.reserve is not None:
        parts.append(f"with the reserve {decimal(change.reserve)}")
    return ", ".join(parts)


def described(change):
    """A change in words."""
    policy = "one queue" if change.policy == ONE_QUEUE else change.policy
    workers = f"{change.workers} {'worker' if change.workers == 1 else 'workers'}"
    return ", ".join(filter(None, (policy, workers, details(change))))


def weighted(trace, weights):
    """A trace with other weights."""
    return trace._replace(weights={**trace.weights, **dict(weights)})


def limited(trace, limits):
    """A trace in which some tenants are let through no faster than so many workers serve them, each request after the
    last one's cost over that number; and of each of its requests the number in the trace as it was."""
    limit_of, free, came = dict(limits), collections.Counter(), []
    for number, it in enumerate(trace.requests):
        moment = max(it.moment, free[it.tenant])
        if it.tenant in limit_of:
            free[it.tenant] = moment + max(1, round(it.cost / limit_of[it.tenant]))
        came.append((moment, number))
    came.sort()
    requests = [trace.requests[number]._replace(moment=moment) for moment, number in came]
    return trace._replace(requests=requests), [number for _, number in came]


def text_of(trace):
    """A trace as the program reads it."""
    lines = [f"tenant,{name},{weight}\n" for name, weight in trace.weights.items()]
    for moment, submitter, tenant, kind, declared, cost in trace.requests:
        lines.append(f"request,{moment},{submitter},{tenant},{kind},{declared},{cost}\n")
    return "".join(lines).encode(errors="surrogateescape")


class Texts:
    """The texts of traces; that of the trace that was asked for last is kept."""

    def __init__(self):
        self.last = None, b""

    def of(self, trace):
        last, text = self.last
        if last is not trace:
            text = text_of(trace)
            self.last = trace, text
        return text


TEXTS = Texts()


def takes_by_program(change, trace, given, name):
    """The moment of each request's take by the program, and the last moment."""
    words = [f"--{it}={getattr(given, it)}" for it in ("initial", "refresh")]
    words += [f"--workers={change.workers}", f"--policy={change.policy}", f"--estimate={change.estimate}"]
    text = answer(given.program, ["run", *words, "--print=journal"], name, input=TEXTS.of(trace))
    found = [0] * len(trace.requests)
    for moment, number in TAKES.findall(text):
        found[int(number)] = int(moment)
    return found, int(text[text.rfind(b"\n", 0, -1) + 1 :].split()[2])


def takes(change, trace, given, name):
    """The moment of each request's take, and the last moment."""
    if change.reserve is None and change.policy != ONE_QUEUE:
        return takes_by_program(change, trace, given, name)
    if change.policy == ONE_QUEUE:
        found = takes_of(trace.requests, change.workers)
    else:
        words = {**change._asdict(), "initial": given.initial, "refresh": given.refresh, "patience": change.reserve}
        found = [moment for moment, _ in reserve.takes(given.replay, trace, types.SimpleNamespace(**words))]
    return found, max((taken + it.cost for taken, it in zip(found, trace.requests)), default=0)


def served(change, trace, given, name):
    """What a change makes of a trace. `given` has the program, `initial` and `refresh`, and for a reserve `replay`."""
    coming, order = limited(trace, change.limits) if change.limits else (trace, range(len(trace.requests)))
    if change.weights:
        coming = weighted(coming, change.weights)
    found, end = takes(change, coming, given, name)
    waits = [0] * len(found)
    for number, taken in zip(order, found):
        waits[number] = taken - trace.requests[number].moment
    return Served(waits, end)


@functools.lru_cache(maxsize=1)
def kept(read, *words):
    """What `read` gives for these words; the last is kept."""
    return read(*words)
