"""What would help, by simulation, for `report`: policies, limits and weights of culprits, and more workers."""

import concurrent.futures

import reserve
from changes import ONE_QUEUE, Change, described, served
from program import Count
from tables import Column, Name, Table, Time, human
from tool import counted, percentile, processors

MOST_WORKERS = 64
# By how much the weight of culprits is less, and the greatest weight.
LIGHTER, MOST_WEIGHT = 4, 1000
WITHOUT = "2dfq+ is simulated without the reserve that a pool keeps by its patience"
QUEUE = Change(ONE_QUEUE, None, 1)
PLUS = Change("2dfq+", "pessimistic", 1)


def lighter(weights, culprits):
    """Weights, as pairs with names, by which culprits have a quarter of what they have now, beside the others."""
    if max(weights.values()) * LIGHTER <= MOST_WEIGHT:
        return tuple((name, weight if name in culprits else LIGHTER * weight) for name, weight in weights.items())
    return tuple((name, max(1, weights[name] // LIGHTER)) for name in culprits)


def told_reserve(given):
    """What is said of the reserve."""
    if given.replay:
        return f"{WITHOUT}, and with a reserve of {reserve.PATIENCE}."
    return f"{WITHOUT}, as {reserve.why_not()}."


def changes_of(given, trace, culprits):
    """The changes that are tried, each with its description."""
    workers, queue = given.workers, QUEUE._replace(workers=given.workers)
    plus = PLUS._replace(workers=workers)
    yield f"{described(queue)}: today", queue
    changes = [plus, plus._replace(policy="2dfq")]
    changes += [plus._replace(reserve=reserve.PATIENCE)] if given.replay else []
    if culprits:
        # (all others keep as many workers as a culprit, or more)
        most = max(1, workers // (len(culprits) + 1))
        changes += [it._replace(limits=tuple((name, most) for name in culprits)) for it in (queue, plus)]
        less = f"{' and '.join(culprits)} at a quarter of {'its' if len(culprits) == 1 else 'their'} weight"
        yield f"{described(plus)}, {less}", plus._replace(weights=lighter(trace.weights, culprits))
    for more in sorted({workers + 1, workers * 3 // 2, workers * 2} - {workers}):
        changes += [it._replace(workers=more) for it in (queue, plus) if more <= MOST_WORKERS]
    yield from ((described(it), it) for it in changes)


class Trials:
    """The percentiles of the waits of chosen tenants' requests under changes; each change is simulated once."""

    def __init__(self, given, trace, name, chosen):
        self.given, self.trace, self.name, self.found = given, trace, name, {}
        self.chosen = [number for number, it in enumerate(trace.requests) if it.tenant in chosen]

    def try_one(self, change):
        waits = served(change, self.trace, self.given, self.name).waits
        ranked = sorted(map(waits.__getitem__, self.chosen))
        return percentile(ranked, 50), percentile(ranked, 99)

    def try_all(self, changes):
        """Simulates the changes that were not simulated before, side by side."""
        new = [it for it in dict.fromkeys(changes) if it not in self.found]
        count = Count(len(new), "simulations")
        with concurrent.futures.ThreadPoolExecutor(processors()) as pool:
            try:
                for change, waits in zip(new, pool.map(self.try_one, new)):
                    self.found[change] = waits
                    count.add()
            except BaseException:
                pool.shutdown(cancel_futures=True)
                raise

    def late(self, change):
        """The 99th percentile under a change."""
        self.try_all([change])
        return self.found[change][1]

    def least_workers(self, change, wanted):
        """The least number of workers by which the 99th percentile is at most this, or None."""
        low, high = 1, MOST_WORKERS
        if self.late(change._replace(workers=high)) > wanted:
            return None
        while low < high:
            middle = (low + high) // 2
            if self.late(change._replace(workers=middle)) <= wanted:
                high = middle
            else:
                low = middle + 1
        return low


def changes_table(trials, changes):
    """The waits under each change, the best first."""
    changes = list(changes)
    trials.try_all([change for _, change in changes])
    rows = sorted(([told, *trials.found[change]] for told, change in changes), key=lambda it: it[2])
    return Table("changes", [Name("change"), Time("wait-p50"), Time("wait-p99")], rows)


def workers_table(trials, workers):
    """The 99th percentile of the waits by the number of workers, in one queue and under 2dfq+."""
    counts = sorted({workers, workers + 1, workers + 2, workers * 5 // 4, workers * 3 // 2, workers * 2})
    counts = [it for it in counts if it <= MOST_WORKERS]
    columns = [Column("workers"), Time("one-queue-p99", "one_queue_p99"), Time("2dfq+-p99", "plus_p99")]
    trials.try_all([it._replace(workers=count) for count in counts for it in (QUEUE, PLUS)])
    rows = [[count, *(trials.found[it._replace(workers=count)][1] for it in (QUEUE, PLUS))] for count in counts]
    return Table("workers_needed", columns, rows)


def wanted_sentences(trials, wanted):
    """How many workers there have to be for a wanted percentile."""
    for name, change in (("one queue", QUEUE), ("2dfq+", PLUS)):
        least = trials.least_workers(change, wanted)
        count = counted(least, "worker") if least else f"more than {MOST_WORKERS} workers"
        yield f"{name} needs {count} for waits of at most {human(wanted)} at the 99th percentile"
