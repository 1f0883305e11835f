"""Reads journals for the tools beside this file.

It reads the outputs of `script`, `run` and `live` with `--print journal` or `both`: replies before a journal are passed
over, and a lag report after it is left to the caller. docs/FORMATS.md has the formats.
"""

import collections
import copy
import gc
import re

from lines import Lines

NAME = re.compile(r"[A-Za-z0-9_.-]{1,64}")
POLICIES = ("wfq", "wf2q", "msf2q", "2dfq", "2dfq+")
# What `one_queue` writes in the place of a policy.
ONE_QUEUE = "one_queue"
ESTIMATORS = ("declared", "recent", "pessimistic")
REPLIES = ("request", "run", "ok", "retired", "idle", "drained", "refused", "withdrawn")
VERSIONS = (["journal", "1"], ["journal", "2"], ["journal", "3"])
# The fields of a journal that its entries change, but for `waiting`.
STATE = "tenant kind submitted label taken worker done cost since running numbers".split()
STATE += "withdrawn pool changes now is_closed".split()
WORKERS = {b"%d" % worker: worker for worker in range(64)}

# A tenant's weight is set, or where the tenant is None the number of workers.
Change = collections.namedtuple("Change", "moment tenant value")


def numbered(names):
    """The number of each name, by its digits."""
    return {b"%d" % number: number for number in range(len(names))}


class Journal:
    """A journal. Its head is read at once, and its entries by `steps`: an entry that no scheduler could have written is
    a fault, but decisions are not judged.

    The requests of the entries so far are in columns, by number: tenant, kind, submitted, taken, worker, done, cost;
    and label as digits. A value that is not known yet is None. Other fields are `waiting` (the requests of each tenant,
    of which the first waits), `since` (the moment at which a tenant last began to wait), `running` (the digits of
    requests, by those of workers), `withdrawn` (the moment of each withdraw), `pool` (the number of workers),
    `changes`, and `now`, the moment of the last entry."""

    def __init__(self, file, name):
        # (no object that is kept here refers to itself)
        gc.disable()
        self.lines, self.name = Lines(file, name), name
        self.expect = self.lines.expect
        self.read_head()
        self.tenant_of, self.kind_of = numbered(self.tenants), numbered(self.kinds)
        self.tenant, self.kind, self.submitted, self.label = [], [], [], []
        self.taken, self.worker, self.done, self.cost = [], [], [], []
        self.waiting, self.since = [collections.deque() for _ in self.tenants], [0] * len(self.tenants)
        # (`numbers` has the request of each worker, or its last request)
        self.running, self.numbers, self.withdrawn = {}, {}, {}
        self.pool, self.changes = self.workers, []
        self.now, self.is_closed = 0, False

    def next_of_head(self):
        words = self.lines.words()
        self.expect(words is not None, "the journal ends in its head")
        return words

    def read_head(self):
        """Reads all above the entries."""
        words = self.next_of_head()
        while words[0] in REPLIES:
            words = self.next_of_head()
        self.expect(words in VERSIONS, "not a journal")
        self.version = int(words[1])
        self.read_config(self.next_of_head())
        self.tenants, self.weights, self.kinds = [], [], []
        names, words = set(), self.next_of_head()
        while words[0] == "tenant":
            self.lines.fields(words, 3)
            self.tenants.append(self.named(words[1], names))
            self.weights.append(self.lines.number_within(words, 2, 1, 1000))
            words = self.next_of_head()
        self.expect(self.tenants and words[0] == "kind", "not a tenant or kind line")
        names = set()
        while words and words[0] == "kind":
            self.lines.fields(words, 2)
            self.kinds.append(self.named(words[1], names))
            words = self.lines.words()
        self.lines.back(words)

    def read_config(self, words):
        self.expect(words[0] == "config", "not a config line")
        self.lines.fields(words, 7)
        self.workers = self.lines.number_within(words, 1, 1, 64)
        self.policy, self.estimator = words[2:4]
        self.expect(self.policy in (*POLICIES, ONE_QUEUE), f"{self.policy} is no policy")
        self.expect(self.estimator in ESTIMATORS, f"{self.estimator} is no estimator")
        self.lines.numbers(words, 4)
        self.config = " ".join(words)

    def named(self, name, others):
        self.expect(NAME.fullmatch(name), "field 2 is no name")
        self.expect(name not in others, f"{name} is named twice")
        others.add(name)
        return name

    def steps(self):
        """Reads the entries. After each take it stops with the request and its block of lines, and after a block's last
        entry with None and the block."""
        text = self.lines.text_ahead()
        while text:
            yield from self.steps_of(text)
            text = self.lines.text_ahead()
        # the line after the last entry, the first of a report
        self.ahead = self.lines.words()

    def steps_of(self, text):
        """Reads `text`, the lines that come next, in steps like `steps`."""
        block, fault = self.lines.block(text, self.now)
        for number in self.added(block):
            yield number, block
        if fault:
            raise fault
        yield None, block
        self.now = block.moments[-1]

    def follow(self, other):
        """Takes over the state of another journal, whose entries so far are equal."""
        for it in STATE:
            setattr(self, it, copy.copy(getattr(other, it)))
        self.waiting = [numbers.copy() for numbers in other.waiting]

    def added(self, block):
        """Adds the entries of a block, and stops after each take. Most of the time goes by here, so the work for most
        entries is done in place."""
        running, numbers, taken, worker_of, done, cost = self.columns(block)
        for fields, moment in zip(block.fields, block.moments):
            word = fields[0]
            if word == b"report":
                if running.get(fields[3]) != fields[4]:
                    self.refuse(block, fields, self.why_not_used(fields))
            elif word == b"take":
                _, _, _, worker, digits, _ = fields
                number = int(digits)
                if WORKERS.get(worker, 64) >= self.pool or worker in running or not self.is_first(number):
                    self.refuse(block, fields, self.why_not_taken(fields))
                running[worker], numbers[worker] = digits, number
                taken[number], worker_of[number] = moment, WORKERS[worker]
                yield number
            elif word == b"done":
                worker = fields[3]
                if running.pop(worker, None) != fields[4]:
                    self.refuse(block, fields, self.why_not_used(fields))
                number = numbers[worker]
                done[number], cost[number] = moment, int(fields[5])
            elif word == b"submit":
                if self.is_closed or not self.add_submit(moment, fields):
                    self.refuse(block, fields, self.why_not_submitted(fields))
            else:
                self.add_other(block, fields, moment)

    def columns(self, block):
        """The columns of running requests, with room for the requests of a block."""
        count = sum(fields[0] == b"submit" for fields in block.fields)
        columns = self.taken, self.worker, self.done, self.cost
        for column in columns:
            column += [None] * count
        return self.running, self.numbers, *columns

    def refuse(self, block, fields, why):
        """Raises the reason why no scheduler could have written this line of a block."""
        place = next(place for place, it in enumerate(block.fields) if it is fields)
        self.lines.number = block.before + place + 1
        raise self.lines.fault(why)

    def add_submit(self, moment, fields):
        """Adds a submit, and gives whether a scheduler could have written it; if not, nothing is added."""
        _, _, _, number, tenant, kind, _, label = fields
        count, tenant, kind = len(self.submitted), self.tenant_of.get(tenant), self.kind_of.get(kind)
        if int(number) != count or tenant is None or kind is None:
            return False
        waiting = self.waiting[tenant]
        if not waiting:
            self.since[tenant] = moment
        waiting.append(count)
        self.submitted.append(moment)
        self.tenant.append(tenant)
        self.kind.append(kind)
        self.label.append(label)
        return True

    def why_not_submitted(self, fields):
        _, _, _, number, tenant, kind, _, _ = (it.decode() for it in fields)
        if self.is_closed:
            return "a submit after the close"
        if int(number) != len(self.submitted):
            return f"request {number} where {len(self.submitted)} comes next"
        return f"there is no kind {kind}" if fields[4] in self.tenant_of else f"there is no tenant {tenant}"

    def is_first(self, number):
        """Whether a request waits and is the first of its tenant; it does not wait from here on."""
        if number >= len(self.submitted):
            return False
        waiting = self.waiting[self.tenant[number]]
        if not waiting or waiting.popleft() != number:
            return False
        if self.withdrawn:
            self.pass_over(waiting)
        return True

    def pass_over(self, waiting):
        """Drops withdrawn requests from the front of a tenant's requests."""
        while waiting and waiting[0] in self.withdrawn:
            waiting.popleft()

    def why_not_taken(self, fields):
        _, _, _, worker, number, _ = (it.decode() for it in fields)
        if int(worker) >= self.pool:
            return f"worker {worker} is not among the workers"
        if fields[3] in self.running:
            return f"worker {worker} runs a request already"
        if int(number) >= len(self.submitted):
            return f"request {number} was not submitted"
        return f"request {number} is not the one that waits first of its tenant"

    def why_not_used(self, fields):
        return f"worker {fields[3].decode()} does not run request {fields[4].decode()}"

    def add_other(self, block, fields, moment):
        word = fields[0].decode()
        add = self.others.get(word)
        why = add(self, moment, *fields[3:]) if add else f"{word} is no entry"
        if why:
            self.refuse(block, fields, why)

    # These give the reason why an entry could not be written, or None.

    def add_close(self, moment):
        if self.is_closed:
            return "a second close"
        self.is_closed = True

    def add_weight(self, moment, tenant, weight):
        if self.version < 2:
            return "a weight entry below journal 1"
        if tenant not in self.tenant_of:
            return f"there is no tenant {tenant.decode()}"
        if not 1 <= int(weight) <= 1000:
            return f"field 5 is {int(weight)}, and not from 1 to 1000"
        self.changes.append(Change(moment, self.tenant_of[tenant], int(weight)))

    def add_workers(self, moment, count):
        if self.version < 2:
            return "a workers entry below journal 1"
        if not 1 <= int(count) <= self.workers:
            return f"field 4 is {int(count)}, and not from 1 to {self.workers}"
        self.pool = int(count)
        self.changes.append(Change(moment, None, self.pool))

    def add_withdraw(self, moment, digits):
        number = int(digits)
        if self.version < 3:
            return f"a withdraw entry below journal {self.version}"
        if number >= len(self.submitted):
            return f"request {number} was not submitted"
        if number in self.withdrawn or self.taken[number] is not None:
            return f"request {number} does not wait"
        self.withdrawn[number] = moment
        self.pass_over(self.waiting[self.tenant[number]])

    others = {"close": add_close, "weight": add_weight, "workers": add_workers, "withdraw": add_withdraw}

    def whole(self):
        """This journal, after its last entry."""
        collections.deque(self.steps(), maxlen=0)
        return self
