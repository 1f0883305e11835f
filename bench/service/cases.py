"""Random cases for the model of a service."""

import json
import random

from model import VISIT, Service
from reserve import CHARGED_AFTER, WINDOW
from scheduler import GREATEST_COST, GREATEST_MOMENT, GREATEST_WEIGHT


class Maker:
    """A random case: calls chosen by what the service then holds, so that they come near to the edges of rules."""

    def __init__(self, rng, config):
        self.rng, self.config, self.service = rng, config, Service(config)
        self.calls, self.outcomes, self.until = [], [], -1

    def make(self, name, *arguments):
        self.calls.append([name, *arguments])
        self.outcomes.append(self.service.call(*self.calls[-1]))
        return self.outcomes[-1]

    def pick(self, *choices):
        return self.rng.choice(choices)

    def chance(self, part):
        return self.rng.random() < part

    def near(self, number):
        return max(0, number + self.pick(-1, 0, 0, 1))

    def moment(self):
        now, again = self.service.moment, self.service.reserve.again
        known = [r.deadline for r in self.service.requests.values()] + [self.until, again, again + CHARGED_AFTER]
        known += [s.visited + VISIT for s in self.service.slots if s.visited is not None]
        known += [now - now % WINDOW + WINDOW]
        ahead = [m for m in known if now <= m <= now + 2 * VISIT]
        if ahead and self.chance(0.15):
            return self.near(self.rng.choice(ahead))
        near, far = self.pick(0, 0, 0, 0, 1, 3, 20, 70, 500, 1500, 20_000, -5), self.pick(WINDOW, VISIT, 1 << 30)
        step = near if self.chance(0.96) else far
        return max(0, now + step)

    def worker(self):
        """A worker, most often one that runs something, and its request."""
        running = self.service.running()
        if running and self.chance(0.93):
            request = self.rng.choice(running)
            return request.worker, request
        return self.rng.randrange(self.config["workers"] + 2), None

    def slot(self):
        return self.rng.randrange(len(self.service.slots) + self.chance(0.05))

    def submit(self):
        m, slot = self.moment(), self.slot()
        known = self.service.slots[slot].generation if slot < len(self.service.slots) else 0
        generation = (known or 0) + self.chance(0.03)
        kind = self.rng.randrange(self.config["kinds"] + self.chance(0.03))
        declared = self.pick(1, 3, 8, 9, 64, 65, 400, 5000, 100_000)
        if self.chance(0.03):
            declared = self.pick(0, GREATEST_COST, GREATEST_COST + 1)
        ahead = self.pick(-1, 0, 0, 1, 5, 80, 1000, 100_000, GREATEST_MOMENT)
        deadline = -1 if self.chance(0.75) else max(0, m + ahead)
        return self.make("submit", m, slot, generation, kind, declared, deadline, self.rng.randrange(1000))

    def next(self):
        outcome = self.make("next", self.moment() if self.chance(0.3) else self.service.moment)
        self.until = outcome[1] if outcome[0] == "rest" else -1
        return outcome

    def rest(self):
        while self.next()[0] != "rest":
            pass

    def used(self):
        worker, request = self.worker()
        cost = self.pick(0, 1, 100, 30_000, GREATEST_COST, 10 * GREATEST_COST)
        if request and self.chance(0.8):
            least = request.report + max(self.config["refresh"], request.report // 4)
            cost = self.near(self.pick(request.estimate, request.report, least, max(least, request.estimate + 1)))
        return self.make("used", self.moment(), worker, cost)

    def finish(self):
        worker, request = self.worker()
        m, cost = self.moment(), self.pick(0, 1, 4, 40, 900, 20_000, GREATEST_COST, 10 * GREATEST_COST)
        if request and self.chance(0.7):
            cost = self.near(self.pick(request.estimate, request.named, request.report, max(0, m - request.taken)))
        return self.make("finish", m, worker, cost)

    def other(self):
        waiting = [r.ticket for r in self.service.waiting()] if self.chance(0.8) else []
        ticket = self.rng.choice(waiting or [self.rng.randrange(self.service.tickets + 2)])
        weight, most = self.pick(0, 1, 1, 2, 7, GREATEST_WEIGHT, GREATEST_WEIGHT + 1), self.pick(0, 1, 1, 2, 2, 3)
        return self.make(*self.rng.choice((
            ("cancel", self.moment(), ticket), ("cancel", self.moment(), ticket), ("join", self.moment(), weight),
            ("join", self.moment(), weight), ("weight", self.moment(), self.slot(), weight),
            ("limit", self.moment(), self.slot(), most),
            ("workers", self.moment(), self.rng.randrange(self.config["workers"] + 2)))))

    def play(self, length_):
        """As a wrapper would, and sometimes not."""
        rates = [self.rng.uniform(1, 6), self.rng.uniform(0.5, 4), self.pick(0.2, 1, 3), self.pick(0.2, 1, 3), 0.5]
        asks, close = self.pick(0.4, 0.9, 1), self.rng.randrange(3 * length_)
        for place in range(length_):
            self.rng.choices((self.submit, self.finish, self.other, self.used, self.next), rates)[0]()
            if self.chance(asks):
                self.rest()
            if place == close:
                self.make("close", self.moment())
        for _ in range(4 if self.chance(0.1) else 0):
            self.make("next", GREATEST_MOMENT + self.pick(-1, 0, 1, 10**6))
            self.submit()

    def flood(self):
        """Slots come after one another, each with more than it is granted."""
        for slot in self.rng.sample(range(len(self.service.slots)), len(self.service.slots)):
            for _ in range(self.pick(1, 2, self.config["room"])):
                self.make("submit", self.service.moment, slot, 0, 0, 5, -1, slot)

    def steady(self):
        """Costs are the time for which requests run; cheap tenants and costly ones come again and again."""
        ends = {}
        for _ in range(self.pick(60, 200)):
            slot, m = self.rng.randrange(len(self.service.slots)), self.service.moment + self.rng.randrange(800)
            by_end = lambda r: ends.setdefault(r.ticket, r.taken + self.near(r.declared))
            for request in sorted(self.service.running(), key=by_end):
                if ends[request.ticket] <= m:
                    self.make("finish", ends[request.ticket], request.worker, ends[request.ticket] - request.taken)
                    self.rest()
            self.make("submit", m, slot, 0, 0, self.pick(100, 300) if slot % 2 else self.pick(3000, 9000), -1, slot)
            self.rest()

    def reserve(self):
        """Visitors run, for times near to the rule's edge, and then heads come of which a worker may decline one."""
        for _ in range(self.pick(1, 1, 2, 3)):
            others = range(1, len(self.service.slots))
            for slot in self.rng.sample(others, self.pick(1, 1, len(others))):
                self.make("submit", self.service.moment, slot, 0, 0, self.pick(1, 8, 15, 16), -1, slot)
            self.rest()
            for request in self.service.running():
                time = self.near(self.pick(1310, 1311, 65_536, 65_536, 131_072, 131_072, 400))
                self.make("finish", request.taken + time, request.worker, self.pick(1, request.estimate, 31))
            if self.chance(0.3):
                self.make("next", self.service.moment - self.service.moment % WINDOW + WINDOW - self.pick(0, 0, 1))
        estimate = self.near(self.pick(64, 128, 1024, 4096))
        small = max(1, self.near(estimate // 8))
        rows = [(0, estimate), (1, small), (0, estimate), (1, self.pick(estimate, estimate // 8))]
        for slot, declared in rows if self.chance(0.5) else rows[1:]:
            deadline = self.service.moment + self.pick(62, 500, 1500) if self.chance(0.2) else -1
            self.make("submit", self.service.moment, slot, 0, 0, declared, deadline, slot)
            if self.chance(0.3):
                self.rest()
        for _ in range(self.pick(2, 5, 12)):
            self.rest()
            if self.until < 0:
                return
            late = self.until + self.pick(0, 0, 0, 999, 1000, 1001, 5000)
            workers = self.rng.randrange(1, self.config["workers"] + 1)
            self.make(*self.pick(
                ("next", late), ("next", late), ("cancel", late, 1 << 40), ("workers", self.until - 7, workers),
                ("workers", late, self.config["workers"]), ("next", self.until - 7), ("used", late, 0, 1 << 30)))
            if self.chance(0.3):
                self.make("cancel", self.service.moment + self.pick(30, 300), 1 << 40)
        if self.chance(0.1):
            self.make("close", self.service.moment)

    def emptied(self):
        """Two slots hold what may go, and the former scheduler empties at an end of one of them."""
        first, last = self.rng.sample(range(len(self.service.slots)), 2)
        for slot in (last, first):
            self.make("limit", self.service.moment, slot, 1)
        self.make("submit", self.service.moment, last, 0, 0, 5, -1, 1)
        self.rest()
        for slot in (last, first, first):
            self.make("submit", self.service.moment, slot, 0, 0, 5, -1, 2 + slot)
        now = self.service.moment
        while self.make(*self.pick(("weight", now, 0, 1), ("workers", now, self.config["workers"])))[-1] != "Full":
            if len(self.calls) > 4 * self.config["entries"]:
                return
        for request in self.service.waiting(first)[:1]:
            self.make("cancel", self.service.moment, request.ticket)
        self.make("submit", self.service.moment, first, 0, 0, 5, -1, 7)
        for request in self.service.running():
            self.make("finish", self.service.moment + 5, request.worker, 5)
            self.rest()


def random_config(rng, kind):
    slots, room, kinds = rng.choice((1, 2, 2, 3, 4, 6)), rng.choice((1, 2, 3, 4, 5, 8, 12)), rng.choice((1, 1, 2, 3))
    config = {
        "workers": rng.choice((1, 2, 3, 3, 4)), "weights": [rng.choice((1, 1, 2, 5, 1000)) for _ in range(slots)],
        "named": rng.randrange(slots + 1), "kinds": kinds, "entries": 0,
        "policy": rng.choice(("2dfq+", "2dfq+", "2dfq", "wfq", "wf2q", "msf2q")),
        "estimate": rng.choice(("pessimistic", "recent", "declared")),
        "initial": rng.choice((1, 100, 1000)), "room": room,
        "room_per_tenant": rng.choice((0, 0, 0, 1, 3)), "most_running": rng.choice((0, 0, 1, 2)),
        "kind_most_running": [rng.choice((0, 0, 1, 2)) for _ in range(kinds)],
        "refresh": rng.choice((0, 10, 1000, 10_000)),
        "idle_ppm": rng.choice((0, 20_000, 200_000, 1_000_000))}
    if kind != "plain":
        slots = {"flood": 6, "steady": 4, "reserve": rng.choice((2, 3)), "emptied": rng.choice((2, 3))}[kind]
        config.update(weights=[1] * slots, named=slots, room_per_tenant=0, room=12)
    if kind in ("reserve", "steady"):
        part = rng.choice((61, 62, 122, 123, 184, 62_500, 125_000, 250_000, 1_000_000))
        config.update(estimate="declared", idle_ppm=part, kinds=1, kind_most_running=[0], most_running=0)
        config["weights"][0] = rng.choice((1, 1, 1000))
    if kind == "emptied":
        config.update(room=rng.choice((4, 6)), room_per_tenant=4)
    roomy = 4000 if kind in ("reserve", "steady") else 0
    config["entries"] = 8 * config["room"] + 4 * config["workers"] + rng.choice((0, 1, 2, 3, roomy, roomy))
    return config


def make(seed, count):
    rng = random.Random(seed)
    for number in range(count):
        kind = rng.choice(("plain",) * 4 + ("reserve",) * 3 + ("steady", "emptied", "flood"))
        maker = Maker(rng, random_config(rng, kind))
        for _ in range(0 if kind == "plain" else rng.choice((1, 2, 4)) if kind == "reserve" else 1):
            getattr(maker, kind)()
        maker.play(rng.choice((20, 60, 150)))
        print(json.dumps({"name": f"random-{seed}-{number:03}", "config": maker.config, "calls": maker.calls,
                          "outcomes": maker.outcomes}, separators=(",", ":")))
    return 0
