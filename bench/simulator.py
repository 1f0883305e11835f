"""Situations of a pool that many tenants share, and their simulation (`bench/simulate`, in C over the library). It is exact: a
situation has one outcome. Times are in milliseconds."""

import concurrent.futures
import dataclasses
import glob
import os
import statistics
import subprocess
import sys

HERE = os.path.dirname(os.path.abspath(__file__))
# Costs in milliseconds of cheap requests and of costly requests.
CHEAP, COSTLY = 0.3, 100
SLOT = 1_000
# The length of a run, in microseconds of all its workers together, and the part of it that is left out, from its begin on.
WORK, LEFT_OUT = 160_000_000, 0.5
SEEDS = (1, 2, 3)


@dataclasses.dataclass(frozen=True)
class Costs:
    """The distribution of the costs of requests: `near` low by a normal distribution with a deviation of a tenth, `fixed` at low,
    `log-uniform` from low to high, or `two-humped`, where this part is near high and the others near low."""

    law: str
    low: float
    high: float = 0
    part: float = 0


@dataclasses.dataclass(frozen=True)
class Tenants:
    """Tenants of one sort. Two requests of each wait all the time; or where they have a load, their requests come at random, and
    ask for this part of a worker. `declared` is the declared cost, or 0 for the cost of each request."""

    count: int
    costs: Costs
    declared: float = 0
    load: float = 0
    requests: int = 0

    def line(self):
        backlog = 0 if self.load else self.requests or 2
        interval = 1000 * self.costs.low / self.load if self.load else 0
        costs = f"{self.costs.law} {1000 * self.costs.low} {1000 * self.costs.high} {self.costs.part}"
        return f"tenants {self.count} {costs} {round(1000 * self.declared)} {backlog} {self.requests} {interval}"


@dataclasses.dataclass(frozen=True)
class Situation:
    """The tenants that are served, the way to serve them, and the time."""

    tenants: tuple
    serve: str
    estimate: str = "declared"
    workers: int = 16
    patience: float = 0
    lanes: int = 0
    quantum: float = 0
    joins: float = 0
    seed: int = 1
    window: tuple = ()
    show: str = ""

    def text(self):
        end = WORK // self.workers
        begin, end = self.window or (round(end * LEFT_OUT), end)
        lines = [f"workers {self.workers}", f"serve {self.serve} {self.estimate}", f"patience {self.patience}"]
        lines += [f"lanes {self.lanes}", f"quantum {round(1000 * self.quantum)}", f"joins {round(1000 * self.joins)}"]
        lines += [f"window {begin} {end} {SLOT}", f"seed {self.seed}", f"show {self.show}"]
        return "\n".join([*lines, *(tenants.line() for tenants in self.tenants)]) + "\n"


@dataclasses.dataclass
class Seen:
    """The outcome of a simulation, by group of tenants: the mean of the spreads of their lags, their waits at the 50th, 90th, 99th
    and 99.9th percentile, and the requests done a second; the part of their time in which workers ran requests; the lags of the
    first tenant, and five ranks of each tenant's lags, where they are asked for."""

    spread: dict = dataclasses.field(default_factory=dict)
    wait: dict = dataclasses.field(default_factory=dict)
    done: dict = dataclasses.field(default_factory=dict)
    busy: float = 0
    series: list = dataclasses.field(default_factory=list)
    lags: list = dataclasses.field(default_factory=list)

    @staticmethod
    def of(text):
        seen = Seen()
        for word, *values in (line.split() for line in text.splitlines()):
            numbers = [float(value) for value in values]
            if word == "series":
                seen.series = [number / 1000 for number in numbers]
            elif word == "lag":
                seen.lags.append([int(value) for value in values[1:]])
            elif word == "busy":
                seen.busy = numbers[0]
            elif word == "done":
                seen.done[int(numbers[0])] = numbers[1]
            else:
                scaled = [number / 1000 for number in numbers[1:]]
                getattr(seen, word)[int(numbers[0])] = scaled[0] if word == "spread" else scaled
        return seen


class Values:
    """One number of runs with several seeds."""

    def __init__(self, values):
        self.middle, self.least, self.greatest = statistics.median(values), min(values), max(values)

    def is_alike(self, other):
        """Whether the two values differ by less than runs with other seeds do: the ranges of the seeds meet."""
        return self.least <= other.greatest and other.least <= self.greatest


def compiled(sources, library, binary):
    """Builds a program over the library in this folder, where `c/build` leaves it."""
    flags = ["-std=c11", "-O2", "-D_GNU_SOURCE", "-Wall", "-Wextra", "-Wpedantic", "-Werror", "-I", f"{library}/include"]
    words = [os.environ.get("CC", "cc"), *flags, *sources, "-L", f"{library}/lib", "-ltwodfq", "-lm", "-o", binary]
    if not os.path.exists(f"{library}/lib/libtwodfq.a"):
        sys.exit(f"there is no {library}/lib/libtwodfq.a: c/build makes it")
    subprocess.run(words, check=True)


class Simulator:
    """Runs situations, each once, side by side where there is more than one job."""

    def __init__(self, library, room, jobs):
        self.binary, self.seen, self.jobs = f"{room}/simulate", {}, jobs
        compiled(sorted(glob.glob(f"{HERE}/simulate/*.c")), library, self.binary)

    def run(self, situation):
        words = {"input": situation.text(), "stdout": subprocess.PIPE, "text": True, "check": True}
        return Seen.of(subprocess.run([self.binary], **words).stdout)

    def run_all(self, situations):
        """Runs the situations that were not run before."""
        new = [situation for situation in dict.fromkeys(situations) if situation not in self.seen]
        with concurrent.futures.ThreadPoolExecutor(self.jobs) as runs:
            self.seen.update(zip(new, runs.map(self.run, new)))

    def values(self, situation, number):
        """The values of `number`, a function of an outcome, in runs with several seeds."""
        runs = [dataclasses.replace(situation, seed=seed) for seed in SEEDS]
        self.run_all(runs)
        return Values([number(self.seen[run]) for run in runs])
