"""Writes a trace whose culprit is known: stories.py STORY SEED [BUSY], for the tests of verdicts.

Ten tenants t0 to t9 send requests for a minute, and keep half of eight workers busy, so that nobody waits for long; or
they keep BUSY of 100 busy. What a story has besides:

    calm        nothing
    costly      big sends four requests of 4 seconds each 3 seconds
    flood       big sends 700 requests of 20 milliseconds a second, two and a half times what its workers could do
    burst       big sends 1500 requests of 20 milliseconds at once after half a minute
    two         big and huge send each a request of 4 seconds each half a second
    slow        from second 20 to second 35 each request takes eight times as long
    growth      each tenant sends two and a half times as many requests
    uneven      the same, where t0 to t9 send 0.5 to 1.4 times as many as in growth
"""

import random
import sys

SECOND, WHOLE, WORKERS, TENANTS = 1_000_000, 60, 8, 10
MEAN = 20_000


def arrivals(draw, rate, begin=0, end=WHOLE):
    """Moments at random, so many a second."""
    moment = begin * SECOND
    while True:
        moment += max(1, round(draw.expovariate(rate) * SECOND))
        if moment >= end * SECOND:
            return
        yield moment


def usual(draw, story, busy):
    """The requests of the ten tenants, which keep this part of the workers busy."""
    grown = 2.5 if story in ("growth", "uneven") else 1
    for tenant in range(TENANTS):
        size = 0.5 + tenant / 10 if story == "uneven" else 1
        for moment in arrivals(draw, WORKERS * busy / TENANTS / MEAN * SECOND * grown * size):
            slow = 8 if story == "slow" and 20 <= moment // SECOND < 35 else 1
            yield moment, f"t{tenant}", max(1, round(draw.expovariate(1 / MEAN) * slow))


def others(draw, story):
    """The requests of those who cause it."""
    if story == "costly":
        yield from ((second * SECOND, "big", 4 * SECOND) for second in range(0, WHOLE, 3) for _ in range(4))
    elif story == "flood":
        yield from ((moment, "big", MEAN) for moment in arrivals(draw, 700))
    elif story == "burst":
        yield from ((30 * SECOND + number, "big", MEAN) for number in range(1500))
    elif story == "two":
        for name in ("big", "huge"):
            yield from ((half * SECOND // 2, name, 4 * SECOND) for half in range(2 * WHOLE))


def main():
    story, draw, busy = sys.argv[1], random.Random(int(sys.argv[2])), [*map(int, sys.argv[3:]), 50][0] / 100
    requests = sorted([*usual(draw, story, busy), *others(draw, story)])
    names = dict.fromkeys(name for _, name, _ in requests)
    print("".join(f"tenant,{name},1\n" for name in names), end="")
    print("".join(f"request,{moment},0,{name},get,{cost},{cost}\n" for moment, name, cost in requests), end="")


main()
