"""Whether `bench/simulate` makes the program's history of a trace, and computes the lags of its report. In the trace all requests
come at once, and the ideal server ends those of all tenants in one moment."""

import subprocess
import sys

from simulator import CHEAP, COSTLY, SLOT, Costs, Situation, Tenants

WORKERS, TENANTS = 16, 10
# The work of all requests of a tenant, in milliseconds.
WORK = 1_200
KINDS = (("cheap", CHEAP), ("costly", COSTLY))
POLICIES, ESTIMATES = ("wfq", "wf2q", "msf2q", "2dfq", "2dfq+"), ("declared", "recent", "pessimistic")
FEW = (("2dfq", "pessimistic"), ("2dfq+", "recent"))


def requests_of(cost):
    return round(WORK / cost)


def trace():
    lines = [f"tenant,{name}{tenant},1" for name, _ in KINDS for tenant in range(TENANTS)]
    for name, cost in KINDS:
        for tenant in range(TENANTS):
            microseconds = round(1000 * cost)
            lines += [f"request,0,0,{name}{tenant},job,{microseconds},{microseconds}"] * requests_of(cost)
    return "\n".join(lines) + "\n"


def reported(program, file, policy, estimate):
    """The number of slots in the program's report, and the five ranks of each tenant's lags."""
    words = [program, "run", "--workers", str(WORKERS), "--policy", policy, "--estimate", estimate]
    with open(file) as source:
        text = subprocess.run(
            [*words, "--slot", str(SLOT), "--print", "report"], stdin=source, stdout=subprocess.PIPE, text=True, check=True
        ).stdout
    lines = [line.split() for line in text.splitlines()]
    return int(lines[1][3]), [[int(word) for word in line[11:16]] for line in lines if line[0] == "tenant"]


def simulated(simulator, slots, policy, estimate):
    tenants = tuple(Tenants(TENANTS, Costs("fixed", cost), cost, requests=requests_of(cost)) for _, cost in KINDS)
    return simulator.run(
        Situation(tenants, policy, estimate, workers=WORKERS, window=(0, slots * SLOT), show="lags")
    ).lags


def compared(simulator, program, room, is_quick):
    """Ends with status 1 where a lag differs."""
    file = f"{room}/trace"
    with open(file, "w") as to:
        to.write(trace())
    pairs = FEW if is_quick else [(policy, estimate) for policy in POLICIES for estimate in ESTIMATES]
    for policy, estimate in pairs:
        slots, lags = reported(program, file, policy, estimate)
        own = simulated(simulator, slots, policy, estimate)
        if own != lags or not any(max(ranks) for ranks in lags):
            sys.exit(f"under {policy} with {estimate} the simulation's lags are not those of the report:\n{own}\n{lags}")
    return f"lags are those of the program's reports, in {len(pairs)} runs of {2 * TENANTS} tenants"
