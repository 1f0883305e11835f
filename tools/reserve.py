"""Simulates 2dfq+ with the reserve that a pool keeps by its patience, by bench/replay.c over the library for C, for
`report` and `compare`. It needs a C compiler and what c/build leaves."""

import functools
import os
import subprocess

from journal import ESTIMATORS, POLICIES
from program import HERE
from tool import Fault

TOP = os.path.dirname(HERE)
LIBRARY, SOURCE = f"{TOP}/c/out", f"{TOP}/bench/replay.c"
# The part of the workers' time that may be lost by patience, as pools have it unless they are told another.
PATIENCE = 0.02


@functools.lru_cache(maxsize=1)
def why_not():
    """Why there is no simulation with the reserve, or None."""
    if not os.path.exists(SOURCE) or not os.path.exists(f"{LIBRARY}/lib/libtwodfq.a"):
        return "the library for C is not built (c/build)"
    try:
        subprocess.run([compiler(), "--version"], capture_output=True, check=True)
    except (OSError, subprocess.CalledProcessError):
        return f"there is no C compiler {compiler()} ($CC)"
    return None


def compiler():
    return os.environ.get("CC", "cc")


def built(room):
    """The simulator, built in a folder."""
    binary, flags = f"{room}/replay", ["-std=c11", "-O2", "-D_GNU_SOURCE", "-I", f"{LIBRARY}/include"]
    words = [compiler(), *flags, SOURCE, "-L", f"{LIBRARY}/lib", "-ltwodfq", "-lm", "-o", binary]
    ran = subprocess.run(words, capture_output=True, check=False)
    if ran.returncode:
        raise Fault(f"{SOURCE}: {ran.stderr.decode(errors='replace').strip()}")
    return binary


def numbered(names):
    return {name: number for number, name in enumerate(names)}


def input_of(trace, given):
    """What the simulator reads, for the workers, policy, estimator, initial estimate, refresh and patience given."""
    kinds = numbered(dict.fromkeys(it.kind for it in trace.requests))
    tenants, counts = numbered(trace.weights), (len(trace.weights), len(kinds) or 1, len(trace.requests))
    head = given.workers, POLICIES.index(given.policy), ESTIMATORS.index(given.estimate), given.initial, given.refresh
    yield " ".join(map(str, (*head, given.patience, *counts))) + "\n"
    yield from (f"{weight}\n" for weight in trace.weights.values())
    for it in trace.requests:
        yield f"{it.moment} {tenants[it.tenant]} {kinds[it.kind]} {it.declared} {it.cost}\n"


def takes(binary, trace, given):
    """The moment of each request's take, and its worker."""
    text = "".join(input_of(trace, given))
    ran = subprocess.run([binary], input=text, capture_output=True, text=True, check=False)
    if ran.returncode:
        raise Fault(f"{SOURCE}: {ran.stderr.strip() or f'it ended with status {ran.returncode}'}")
    return [tuple(map(int, line.split())) for line in ran.stdout.splitlines()]
