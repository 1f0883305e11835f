"""A model of a service over two schedulers that serve by turns: room, limits, deadlines, grants, reports and slots.

It is made of the rules alone, and sums are made anew at each call.
"""

from reserve import Reserve
from scheduler import GREATEST_COST, GREATEST_MOMENT, GREATEST_WEIGHT, Refused, Request, Scheduler

VISIT = 1_000_000  # microseconds


class Slot:
    def __init__(self, generation, weight, most):
        self.generation, self.weight, self.most = generation, weight, most
        self.idle_since = 0  # the call; the opening is 0
        self.visited = None  # the moment of its last admitted submit that found nothing waiting


class Service:
    def __init__(self, config):
        self.config = config
        named, most = config["named"], config["most_running"]
        # a slot that is not joined yet has no generation that a caller could know
        self.slots = [Slot(0 if i < named else None, w, most) for i, w in enumerate(config["weights"])]
        self.joins = [0] * len(self.slots)
        self.count = config["workers"]
        self.requests = {}  # by ticket: what waits or runs
        self.tickets = self.calls = self.moment = 0
        self.is_closed = False
        self.scheduler, self.before = Scheduler(config, config["weights"]), None
        self.reserve = Reserve(config["idle_ppm"], self.count)

    # -- what waits and runs

    def waiting(self, slot=None):
        """What waits, held ones too, in the order of tickets."""
        return [r for r in self.requests.values() if r.worker is None and slot in (None, r.slot)]

    def running(self):
        """What runs, in the order of workers."""
        return sorted((r for r in self.requests.values() if r.worker is not None), key=lambda r: r.worker)

    def on_worker(self, worker):
        for r in self.requests.values():
            if r.worker is not None and r.worker == worker:
                return r
        raise Refused("NotRunning")

    def forget(self, request):
        """It ended or was withdrawn."""
        del self.requests[request.ticket]
        if all(r.slot != request.slot for r in self.requests.values()):
            self.slots[request.slot].idle_since = self.calls

    # -- calls

    def call(self, name, m, *arguments):
        """The outcome of a call, as the cases have it."""
        self.calls += 1
        m = max(self.moment, min(m, GREATEST_MOMENT))
        self.reserve.pass_time(self.moment, m, self.count, len(self.running()))
        self.moment = m
        try:
            outcome = getattr(self, "call_" + name)(m, *arguments)
        except Refused as cause:
            outcome = ["refused", *cause.args]
        if self.is_closed and not self.scheduler.is_closed and all(r.scheduler for r in self.requests.values()):
            self.scheduler.close(m)
        return outcome

    def call_submit(self, m, slot, generation, kind, declared, deadline, label):
        if self.is_closed:
            raise Refused("Closed")
        if slot >= len(self.slots) or self.slots[slot].generation != generation:
            raise Refused("Tenant")
        if kind >= self.config["kinds"]:
            raise Refused("Kind")
        if not 1 <= declared <= GREATEST_COST:
            raise Refused("Cost")
        deadline = min(deadline, GREATEST_MOMENT)  # it is a moment, too; -1 is none
        if 0 <= deadline < m:
            raise Refused("Late")
        self.check_room(slot)
        request = Request(self.tickets, slot, kind, declared, deadline, label, m)
        is_first = not self.waiting(slot)
        if self.passes(request) and not self.held(slot, kind):
            if not self.forward(m, request):
                raise Refused("Full")
        self.requests[self.tickets] = request
        self.tickets += 1
        if is_first:
            self.slots[slot].visited = m
        return ["ticket", request.ticket]

    def check_room(self, slot):
        room, own_most, count = self.config["room"], self.config["room_per_tenant"], len(self.slots)
        if len(self.waiting()) >= room:
            raise Refused("TooManyWait")
        own = len(self.waiting(slot))
        if own_most > 0:
            if own >= own_most:
                raise Refused("TenantFull")
            return
        places = room if count == 1 else room // (2 * count)
        if own < places:
            return
        taken = sum(max(0, len(self.waiting(s)) - places) for s in range(count))
        if own - places >= room - count * places - taken:
            raise Refused("TenantFull")

    def call_cancel(self, m, ticket):
        request = self.requests.get(ticket)
        if request is None or request.worker is not None:
            return ["no"]
        self.withdraw(m, request)
        return ["cancelled", request.label]

    def call_next(self, m):
        waiting = self.waiting()
        limited = [r for r in waiting if r.deadline >= 0]
        late = [r for r in limited if r.deadline < m]
        if late:
            request = min(late, key=lambda r: (r.deadline, r.ticket))
            self.withdraw(m, request)
            self.reserve.rest(m, 0)
            return ["late", request.label, request.ticket]
        declined = 0
        if len(self.running()) < self.count and any(r.scheduler for r in waiting):
            self.report_by_clock(m)
            busy = {r.worker for r in self.running()}
            for worker in range(self.count):
                if worker in busy:
                    continue
                if not self.declines(m, worker, declined):
                    return self.grant(m, worker)
                declined += 1
        self.reserve.rest(m, declined)
        times = [r.deadline + 1 for r in limited] + ([self.reserve.again] if declined else [])
        return ["rest", min(times, default=-1)]

    def declines(self, m, worker, already):
        if self.is_closed or len({r.slot for r in self.requests.values()}) < 2:
            return False
        _, estimate, _ = self.scheduler.foresee(m, worker, 0)
        if not self.reserve.declines(m, estimate, self.count, self.running(), already):
            return False
        _, _, has_small = self.scheduler.foresee(m, worker, -(-estimate // 8))
        return not has_small

    def grant(self, m, worker):
        request = self.scheduler.take(m, worker)
        visited = self.slots[request.slot].visited
        request.is_visitor = m - visited <= VISIT
        self.reserve.rest(m, 0)
        return ["grant", request.label, request.ticket, worker, request.slot, request.kind, request.estimate,
                m - request.admitted]

    def call_used(self, m, worker, cost):
        request = self.on_worker(worker)
        if cost > 0:
            request.named = max(request.named, min(cost, GREATEST_COST))
            self.report(m, request, min(cost, GREATEST_COST))
        return ["accepted"]

    def report(self, m, request, use):
        last = request.report
        if use > max(request.estimate, last) and use - last >= max(self.config["refresh"], last // 4):
            request.scheduler.report(m, request, use)

    def report_by_clock(self, m):
        if self.config["refresh"] > 0:
            for request in self.running():
                if request.named == 0:
                    self.report(m, request, min(m - request.taken, GREATEST_COST))

    def call_finish(self, m, worker, cost):
        request = self.on_worker(worker)
        cost = min(GREATEST_COST, max(1, cost, request.named, request.report))
        request.scheduler.done(m, request, cost)
        self.reserve.ended(m, request, cost)
        self.forget(request)
        empties = request.scheduler is self.before and self.before.running == 0
        if empties:
            self.before = None
        self.release(m, request.slot)
        if empties:
            for slot in range(len(self.slots)):
                self.release(m, slot)
        return ["accepted"]

    def call_join(self, m, weight):
        if self.is_closed:
            raise Refused("Closed")
        if not 1 <= weight <= GREATEST_WEIGHT:
            raise Refused("Weight")
        busy = {r.slot for r in self.requests.values()}
        idle = [s for s in range(self.config["named"], len(self.slots)) if s not in busy]
        if not idle:
            raise Refused("NoSlot")
        number = min(idle, key=lambda s: (self.slots[s].idle_since, s))
        slot = self.slots[number]
        if slot.weight != weight:
            self.change(m, "weight", number, weight)
            slot.weight = weight
        self.joins[number] += 1
        slot.generation, slot.most, slot.idle_since = self.joins[number], self.config["most_running"], self.calls
        return ["slot", number, slot.generation]

    def call_weight(self, m, slot, weight):
        if self.is_closed:
            raise Refused("Closed")
        if slot >= len(self.slots):
            raise Refused("Tenant")
        if not 1 <= weight <= GREATEST_WEIGHT:
            raise Refused("Weight")
        self.change(m, "weight", slot, weight)
        self.slots[slot].weight = weight
        return ["accepted"]

    def call_limit(self, m, slot, most):
        if slot >= len(self.slots):
            raise Refused("Tenant")
        self.slots[slot].most = most
        self.release(m, slot)
        return ["accepted"]

    def call_workers(self, m, count):
        if self.is_closed:
            raise Refused("Closed")
        if not 1 <= count <= self.config["workers"]:
            raise Refused("Workers")
        self.change(m, "workers", count)
        self.count = count
        self.reserve.set_workers(count)
        return ["accepted"]

    def call_close(self, m):
        if self.is_closed:
            raise Refused("Closed")
        self.is_closed = True
        return ["accepted"]

    # -- limits

    def held(self, slot, kind=None):
        return [r for r in self.waiting(slot) if r.scheduler is None and kind in (None, r.kind)]

    def passes(self, request):
        forwarded = [r for r in self.requests.values() if r.scheduler and r.slot == request.slot]
        of_kind = [r for r in forwarded if r.kind == request.kind]
        most, most_of_kind = self.slots[request.slot].most, self.config["kind_most_running"][request.kind]
        return (most == 0 or len(forwarded) < most) and (most_of_kind == 0 or len(of_kind) < most_of_kind)

    def release(self, m, slot):
        """Forward what the slot holds and may."""
        while True:
            oldest = {}
            for request in self.held(slot):
                oldest.setdefault(request.kind, request)
            request = next((r for r in oldest.values() if self.passes(r)), None)
            if request is None or not self.forward(m, request):
                return

    def withdraw(self, m, request):
        if request.scheduler:
            request.scheduler.withdraw(m, request)
        self.forget(request)
        if request.scheduler:
            self.release(m, request.slot)

    # -- two schedulers

    def forward(self, m, request):
        return self.scheduler.submit(m, request) or (self.roll(m) and self.scheduler.submit(m, request))

    def change(self, m, name, *arguments):
        if not getattr(self.scheduler, name)(m, *arguments):
            if not self.roll(m):
                raise Refused("Full")
            getattr(self.scheduler, name)(m, *arguments)

    def roll(self, m):
        """The next scheduler; False, and nothing changes, where something still runs in one before this."""
        if self.before:
            return False
        old, self.scheduler = self.scheduler, Scheduler(self.config, [s.weight for s in self.slots])
        if self.count < self.config["workers"]:
            self.scheduler.workers(m, self.count)
        for request in self.waiting():
            if request.scheduler:
                old.withdraw(m, request)
                self.scheduler.submit(m, request)
        old.close(m)
        self.before = old if old.running else None
        return True
