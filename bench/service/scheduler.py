"""One scheduler of the model of a service, as plainly as its rules have it: a choice looks at each tenant."""

STEPS_IN_UNIT = 1 << 20
GREATEST_COST = 10**9
GREATEST_MOMENT = 10**15
GREATEST_WEIGHT = 1000  # that of texts


class Refused(Exception):
    """A refused call; its argument is the cause."""


class Request:
    """An admitted request: held (no scheduler), forwarded, running, or over."""

    def __init__(self, ticket, slot, kind, declared, deadline, label, admitted):
        self.ticket, self.slot, self.kind, self.declared = ticket, slot, kind, declared
        self.deadline, self.label, self.admitted = deadline, label, admitted
        self.scheduler = None  # where it is forwarded to
        self.number = None  # among the requests of that scheduler
        self.worker = None  # on which it runs
        self.taken = self.estimate = self.taken_weight = None  # the moment, estimate and weight at its Take
        self.report = 0  # the last use reported
        self.named = 0  # the greatest cost that `used` named
        self.is_visitor = False


def length(cost, weight):
    return -(-cost * STEPS_IN_UNIT // weight)


class Tenant:
    """What a scheduler knows of a tenant."""

    def __init__(self, weight):
        self.weight = weight
        self.queue = []  # its waiting requests, in the order of their numbers
        self.running = 0
        self.charge = self.base = self.idle = 0  # idle: the virtual time that passed without a request


class Scheduler:
    """One history of the scheduler; `policy` is one of five, `estimator` one of three. A call that the history has no
    room for answers False."""

    def __init__(self, config, weights):
        self.config, self.policy = config, config["policy"]
        self.tenants = [Tenant(weight) for weight in weights]
        self.pool = config["workers"]
        self.costs = {}  # of a tenant and kind: the last eight, and the greatest of the decayed ones
        self.entries = self.submits = self.waiting = self.running = 0
        self.moment = self.now = self.reached = 0
        self.is_closed = False

    def lacks_room(self, more):
        return self.entries + 2 * self.waiting + self.running + more > self.config["entries"]

    def start(self, tenant):
        return tenant.charge + (tenant.idle if self.policy == "msf2q" else tenant.base)

    def is_served(self, tenant):
        if tenant.queue or tenant.running:
            return True
        return self.policy == "2dfq+" and self.now < tenant.charge + tenant.base

    def time_at(self, m):
        weights = sum(t.weight for t in self.tenants if self.is_served(t))
        passed = m - self.moment
        time = self.now + (passed * self.pool * STEPS_IN_UNIT // weights if weights and passed else 0)
        return min(time, self.reached) if self.policy == "2dfq+" else time

    def enter(self, m):
        time = self.time_at(m)
        for tenant in self.tenants:
            if not tenant.queue and not tenant.running:
                tenant.idle += time - self.now
        self.now, self.moment = time, m
        self.entries += 1

    def estimate(self, request):
        if self.config["estimate"] == "declared":
            return request.declared
        last, greatest = self.costs.get((request.slot, request.kind), ([], self.config["initial"]))
        if not last:
            return self.config["initial"]
        return max(1, sum(last) // len(last) if self.config["estimate"] == "recent" else greatest)

    def stagger(self, worker, len_):
        return worker * len_ // self.pool if self.policy in ("2dfq", "2dfq+") else 0

    def foresee(self, m, worker, below):
        """The request of a take, its estimate, and whether an eligible head has an estimate below `below`."""
        time, best, has_smaller = self.time_at(m), None, False
        for tenant in self.tenants:
            if not tenant.queue:
                continue
            head = tenant.queue[0]
            estimate = self.estimate(head)
            len_ = length(estimate, tenant.weight)
            key = self.start(tenant) - self.stagger(worker, len_)
            finish = self.start(tenant) + len_
            is_eligible = self.policy == "wfq" or key <= time
            rank = (0, 0, finish, head.number) if is_eligible else (1, key, finish, head.number)
            if best is None or rank < best[0]:
                best = rank, head, estimate
            has_smaller = has_smaller or (is_eligible and estimate < below)
        return best[1], best[2], has_smaller

    def submit(self, m, request):
        assert not self.is_closed and self.waiting < self.config["room"]
        if self.lacks_room(4):
            return False
        self.enter(m)
        tenant = self.tenants[request.slot]
        if not tenant.queue:
            tenant.base = max(tenant.base, self.now - tenant.charge)
        request.scheduler, request.number = self, self.submits
        tenant.queue.append(request)
        self.submits += 1
        self.waiting += 1
        return True

    def withdraw(self, m, request):
        self.enter(m)
        self.tenants[request.slot].queue.remove(request)
        self.waiting -= 1

    def take(self, m, worker):
        request, estimate, _ = self.foresee(m, worker, 0)
        self.enter(m)
        tenant = self.tenants[request.slot]
        tenant.queue.remove(request)
        self.waiting -= 1
        tenant.running += 1
        self.running += 1
        len_ = length(estimate, tenant.weight)
        if self.policy == "2dfq+":
            start = self.start(tenant)
            self.now = max(self.now, start - self.stagger(worker, len_))
            self.reached = max(self.reached, start + len_)
        tenant.charge += len_
        request.worker, request.taken, request.estimate, request.taken_weight = worker, m, estimate, tenant.weight
        return request

    def charge(self, request, cost):
        before = max(request.estimate, request.report)
        self.tenants[request.slot].charge += length(cost, request.taken_weight) - length(before, request.taken_weight)

    def report(self, m, request, use):
        if self.lacks_room(2):
            return False
        self.enter(m)
        self.charge(request, max(use, request.estimate))
        request.report = use
        return True

    def done(self, m, request, cost):
        self.enter(m)
        self.charge(request, cost)
        last, greatest = self.costs.get((request.slot, request.kind), ([], self.config["initial"]))
        self.costs[request.slot, request.kind] = (last + [cost])[-8:], max(cost, 99 * greatest // 100)
        self.tenants[request.slot].running -= 1
        self.running -= 1

    def weight(self, m, slot, weight):
        if self.lacks_room(2):
            return False
        self.enter(m)
        self.tenants[slot].weight = weight
        return True

    def workers(self, m, count):
        if self.lacks_room(2):
            return False
        self.enter(m)
        self.pool = count
        return True

    def close(self, m):
        self.enter(m)
        self.is_closed = True
