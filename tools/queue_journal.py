"""Makes the journal of a trace in one queue, for `one_queue` and `report`."""

import heapq
import io

from journal import ONE_QUEUE, Journal

# The order of entries of one moment.
DONE, SUBMIT, TAKE = range(3)
# The callers that are submitters; workers come behind them.
CALLERS = 64


def services_of(requests, workers):
    """The worker of each request and the moment of its take."""
    free = [(0, worker) for worker in range(workers)]
    for it in requests:
        since, worker = heapq.heappop(free)
        taken = max(since, it.moment)
        heapq.heappush(free, (taken + it.cost, worker))
        yield worker, taken


def takes_of(requests, workers):
    """The moment of each request's take."""
    return [taken for _, taken in services_of(requests, workers)]


def entries_of(requests, workers):
    """The entries of requests: of each its moment, its place among those of one moment (dones go by workers, and all
    else by requests), its request, and its worker."""
    for number, (it, (worker, taken)) in enumerate(zip(requests, services_of(requests, workers))):
        yield it.moment, SUBMIT, number, number, None
        yield taken, TAKE, number, number, worker
        yield taken + it.cost, DONE, worker, number, worker


def journal_of(trace, workers):
    """The lines of the journal."""
    requests = trace.requests
    tenants = {name: number for number, name in enumerate(trace.weights)}
    kinds = {name: number for number, name in enumerate(dict.fromkeys(it.kind for it in requests) or ["-"])}
    yield "journal 1"
    yield f"config {workers} {ONE_QUEUE} declared 1 {3 * len(requests) + 4} {len(requests) or 1}"
    yield from (f"tenant {name} {weight}" for name, weight in trace.weights.items())
    yield from (f"kind {name}" for name in kinds)
    end = 0
    for end, what, _, number, worker in sorted(entries_of(requests, workers), key=lambda it: it[:3]):
        it = requests[number]
        if what == SUBMIT:
            tenant, kind = tenants[it.tenant], kinds[it.kind]
            yield f"submit {it.submitter} {end} {number} {tenant} {kind} {it.declared} {number}"
        elif what == TAKE:
            yield f"take {CALLERS + worker} {end} {worker} {number} {it.declared}"
        else:
            yield f"done {CALLERS + worker} {end} {worker} {number} {it.cost}"
    yield f"close 0 {end}"


def queued(trace, workers, name):
    """The journal of a trace in one queue, as it is read."""
    text = "".join(line + "\n" for line in journal_of(trace, workers)).encode(errors="surrogateescape")
    return Journal(io.TextIOWrapper(io.BytesIO(text)), name).whole()
