"""The reserve of the model of a service: the demand of small requests, the credit, and when a free worker declines."""

WINDOW = 131_072  # microseconds
SHORTEST_DECLINE, LONGEST_DECLINE, CHARGED_AFTER = 61, 1000, 1000  # microseconds
MILLION = 1_000_000


def class_of(x):
    return max(1, x).bit_length() - 1


class Demand:
    """How long requests ran, by the window in which they ended and by class."""

    def __init__(self):
        self.sums = {}

    def add(self, m, class_, time):
        at = m // WINDOW, class_
        self.sums[at] = self.sums.get(at, 0) + time

    def below(self, m, estimate):
        window, x = divmod(m, WINDOW)
        return sum(self.sums.get((window - 1, k), 0) * (WINDOW - x) + self.sums.get((window, k), 0) * WINDOW
                   for k in range(class_of(estimate // 8)))


class Reserve:
    def __init__(self, part, count):
        self.part = part  # in millionths
        self.all, self.visitors = Demand(), Demand()
        self.set_workers(count)
        self.credit = self.cap
        self.declined, self.again = 0, 0  # at the last `next`, and when they are asked again

    def set_workers(self, count):
        self.cap = self.part * MILLION * count
        self.credit = min(getattr(self, "credit", self.cap), self.cap)

    def pass_time(self, before, m, count, running):
        declined = min(self.declined, max(0, count - running))
        charged = max(0, min(m, self.again + CHARGED_AFTER) - before)
        self.credit = min(self.cap, self.credit + self.part * running * (m - before)) - MILLION * declined * charged

    def ended(self, m, request, cost):
        class_ = class_of(max(request.estimate, cost))
        self.all.add(m, class_, m - request.taken)
        if request.is_visitor:
            self.visitors.add(m, class_, m - request.taken)

    def declines(self, m, estimate, count, running, already):
        """Rules 1 to 4, but for tenants and closing; `running` are the requests that run."""
        whole = WINDOW * WINDOW
        small = self.all.below(m, estimate)
        long = sum(8 * max(r.estimate, r.report) > estimate for r in running)
        return (self.credit > SHORTEST_DECLINE * MILLION * (already + 1)
                and 100 * self.visitors.below(m, estimate) >= whole
                and (small >= whole or 4 * self.part * count * whole >= MILLION * (whole - small))
                and (count - long) * whole * self.cap < small * self.cap + 2 * self.credit * whole)

    def rest(self, m, declined):
        self.declined = declined
        self.again = m
        if declined:
            self.again += max(SHORTEST_DECLINE, min(LONGEST_DECLINE, self.credit // MILLION // declined + 1))
