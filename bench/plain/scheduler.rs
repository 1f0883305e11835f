//! The scheduler.
use crate::entry::{Act, Entry, Refusal};
use crate::pace::Pace;
use crate::tree::{Key, WorkerTrees};

pub const SCALE: u64 = 1 << 20;

pub const GREATEST_COST: u64 = 1_000_000_000;

pub const GREATEST_MOMENT: u64 = 1_000_000_000_000_000;

#[derive(Clone, Copy, PartialEq, Eq)]
pub struct Keys {
    pub start: i128,
    pub len: i128,
    pub request: u32,
}

impl Keys {
    /// The eligible key for a worker of so many.
    pub fn at(&self, worker: u32, workers: usize) -> i128 {
        self.start - quotient(worker as u128 * self.len as u128, workers as u64)
    }
}

#[derive(Clone, Copy)]
pub struct Item {
    pub request: u32,
    pub kind: u32,
    pub label: u64,
}

#[derive(Clone, Copy)]
pub struct Slot {
    pub item: Item,
    pub next: Option<u32>,
}

#[derive(Clone, Copy)]
pub struct Ends {
    pub first: u32,
    pub last: u32,
}

#[derive(Clone, Copy)]
pub struct Row {
    pub request: u32,
    pub tenant: u32,
    pub kind: u32,
    pub weight: u32,
    pub estimate: u64,
    pub last: u64,
}

#[derive(Clone, Copy, Default)]
pub struct Tenant {
    pub weight: u32,
    pub charge: i128,
    pub base: i128,
    pub undone: u32,
    pub net: u64,
}

pub struct Scheduler {
    pub entries: usize,
    pub requests: usize,
    pub kinds: u32,
    pub past: Vec<Entry>,
    pub closed: bool,
    pub submits: u32,
    pub running: u64,
    pub slots: Vec<Slot>,
    pub free: Option<u32>,
    pub ends: Vec<Option<Ends>>,
    pub waiting: usize,
    pub rows: Vec<Option<Row>>,
    pub tenants: Vec<Tenant>,
    pub greatest: Vec<u64>,
    pub moment: u64,
    /// The sum of the weights of the tenants that the fluid serves: they have open requests, or linger.
    pub weights: u64,
    pub time: i128,
    /// Under `2dfq+` alone.
    pub pace: Option<Pace>,
    pub table: Vec<Option<Keys>>,
    pub trees: Vec<WorkerTrees>,
}

impl Scheduler {
    pub fn open(
        [workers, entries, requests, kinds]: [u32; 4],
        is_plus: bool,
        initial: u64,
        tenants: Vec<Tenant>,
    ) -> Scheduler {
        let count = tenants.len();
        Scheduler {
            entries: entries as usize,
            requests: requests as usize,
            kinds,
            past: Vec::with_capacity(entries as usize),
            closed: false,
            submits: 0,
            running: 0,
            slots: Vec::with_capacity(requests as usize),
            free: None,
            ends: vec![None; count],
            waiting: 0,
            rows: vec![None; workers as usize],
            tenants,
            greatest: vec![initial; count * kinds as usize],
            moment: 0,
            weights: 0,
            time: 0,
            pace: is_plus.then(|| Pace::open(count)),
            table: vec![None; count],
            trees: (0..workers).map(|_| WorkerTrees::open(count)).collect(),
        }
    }
    pub fn close(&mut self, who: u32, moment: u64) -> Result<(), Refusal> {
        if self.closed {
            return Err(Refusal::Closed);
        }
        let moment = self.effective(moment);
        self.pass(moment);
        self.closed = true;
        self.past.push(Entry {
            who,
            moment,
            act: Act::Close,
        });
        Ok(())
    }
    pub fn effective(&self, moment: u64) -> u64 {
        moment
            .max(self.past.last().map_or(0, |e| e.moment))
            .min(GREATEST_MOMENT)
    }
    pub fn has_room(&self, more: u64) -> bool {
        self.past.len() as u64 + 2 * self.waiting as u64 + self.running + more <= self.entries as u64
    }
    pub fn pass(&mut self, moment: u64) {
        if self.weights != 0 {
            let dt = moment - self.moment;
            let advance = quotient(dt as u128 * self.rows.len() as u128 * SCALE as u128, self.weights);
            match &self.pace {
                None => self.time += advance,
                Some(pace) => self.rise_to((self.time + advance).min(pace.reached)),
            }
        }
        self.moment = moment;
    }
    pub fn renew(&mut self, tenant: u32) {
        let t = &self.tenants[tenant as usize];
        let keys = self.ends[tenant as usize].map(|ends| {
            let item = &self.slots[ends.first as usize].item;
            let estimate = self.greatest[(tenant * self.kinds + item.kind) as usize].max(1);
            Keys {
                start: t.charge + t.base,
                len: length(estimate, t.weight),
                request: item.request,
            }
        });
        if self.table[tenant as usize] == keys {
            return;
        }
        self.table[tenant as usize] = keys;
        for trees in &mut self.trees {
            if !trees.is_noted[tenant as usize] {
                trees.is_noted[tenant as usize] = true;
                trees.noted.push(tenant);
            }
        }
    }
    pub fn choose(&mut self, worker: u32) -> Option<u32> {
        let workers = self.rows.len();
        let trees = &mut self.trees[worker as usize];
        for &tenant in &trees.noted {
            trees.is_noted[tenant as usize] = false;
            let (mut later, mut eligible) = (None, None);
            if let Some(k) = self.table[tenant as usize] {
                let at = k.at(worker, workers);
                let finish = k.start + k.len;
                if at <= self.time {
                    eligible = Some(Key {
                        a: finish,
                        b: 0,
                        c: k.request,
                    })
                } else {
                    later = Some(Key {
                        a: at,
                        b: finish,
                        c: k.request,
                    })
                }
            }
            trees.later.set(tenant, later);
            trees.eligible.set(tenant, eligible);
        }
        trees.noted.clear();
        while let Some((tenant, key)) = trees.later.first() {
            if key.a > self.time {
                break;
            }
            trees.later.set(tenant, None);
            trees.eligible.set(
                tenant,
                Some(Key {
                    a: key.b,
                    b: 0,
                    c: key.c,
                }),
            );
        }
        trees.eligible.first().or(trees.later.first()).map(|x| x.0)
    }
    pub fn append(&mut self, tenant: u32, item: Item) {
        let slot = Slot { item, next: None };
        let at = match self.free {
            Some(at) => {
                self.free = self.slots[at as usize].next;
                self.slots[at as usize] = slot;
                at
            }
            None => {
                self.slots.push(slot);
                self.slots.len() as u32 - 1
            }
        };
        match &mut self.ends[tenant as usize] {
            Some(ends) => {
                self.slots[ends.last as usize].next = Some(at);
                ends.last = at;
            }
            none => *none = Some(Ends { first: at, last: at }),
        }
        self.waiting += 1;
    }
    pub fn submit(
        &mut self,
        who: u32,
        moment: u64,
        tenant: u32,
        kind: u32,
        declared: u64,
        label: u64,
    ) -> Result<u32, Refusal> {
        if self.closed {
            return Err(Refusal::Closed);
        }
        if tenant as usize >= self.tenants.len() {
            return Err(Refusal::Tenant(tenant));
        }
        if kind >= self.kinds {
            return Err(Refusal::Kind(kind));
        }
        if declared == 0 || declared > GREATEST_COST {
            return Err(Refusal::Cost(declared));
        }
        if self.waiting == self.requests {
            return Err(Refusal::Slots(self.waiting as u64));
        }
        if !self.has_room(4) {
            return Err(Refusal::Full(self.entries as u64));
        }
        let moment = self.effective(moment);
        let request = self.submits;
        self.pass(moment);
        if self.tenants[tenant as usize].undone == 0 {
            self.come(tenant);
        }
        let t = &mut self.tenants[tenant as usize];
        t.undone += 1;
        if self.ends[tenant as usize].is_none() {
            t.base = t.base.max(self.time - t.charge);
        }
        self.append(tenant, Item { request, kind, label });
        self.renew(tenant);
        self.submits += 1;
        self.past.push(Entry {
            who,
            moment,
            act: Act::Submit {
                request,
                tenant,
                kind,
                declared,
                label,
            },
        });
        Ok(request)
    }
    pub fn take(&mut self, who: u32, moment: u64, worker: u32) -> Result<Option<(u32, u64, u64)>, Refusal> {
        if worker as usize >= self.rows.len() {
            return Err(Refusal::Worker(worker));
        }
        if let Some(row) = self.rows[worker as usize] {
            return Err(Refusal::Busy(row.request));
        }
        if self.waiting == 0 {
            return Ok(None);
        }
        let moment = self.effective(moment);
        self.pass(moment);
        let tenant = self.choose(worker).unwrap();
        self.lift(worker, self.table[tenant as usize].unwrap());
        let ends = self.ends[tenant as usize].unwrap();
        let Slot { item, next } = self.slots[ends.first as usize];
        self.ends[tenant as usize] = next.map(|first| Ends { first, last: ends.last });
        self.slots[ends.first as usize].next = self.free;
        self.free = Some(ends.first);
        self.waiting -= 1;
        let estimate = self.greatest[(tenant * self.kinds + item.kind) as usize].max(1);
        let t = &mut self.tenants[tenant as usize];
        self.rows[worker as usize] = Some(Row {
            request: item.request,
            tenant,
            kind: item.kind,
            weight: t.weight,
            estimate,
            last: 0,
        });
        t.net += estimate;
        t.charge += length(estimate, t.weight);
        self.renew(tenant);
        self.running += 1;
        self.past.push(Entry {
            who,
            moment,
            act: Act::Take {
                worker,
                request: item.request,
                estimate,
            },
        });
        Ok(Some((item.request, estimate, item.label)))
    }
    pub fn row_for(&self, worker: u32, used: u64) -> Result<Row, Refusal> {
        if worker as usize >= self.rows.len() {
            return Err(Refusal::Worker(worker));
        }
        let row = self.rows[worker as usize].ok_or(Refusal::NotRunning)?;
        if used > GREATEST_COST {
            return Err(Refusal::Cost(used));
        }
        if used < row.last {
            return Err(Refusal::Falling(row.last, used));
        }
        Ok(row)
    }
    pub fn recharge(&mut self, row: &Row, charge: u64) {
        let old = row.estimate.max(row.last);
        let t = &mut self.tenants[row.tenant as usize];
        t.net = t.net - old + charge;
        t.charge += length(charge, row.weight) - length(old, row.weight);
    }
    pub fn report(&mut self, who: u32, moment: u64, worker: u32, used: u64) -> Result<(), Refusal> {
        let row = self.row_for(worker, used)?;
        if !self.has_room(2) {
            return Err(Refusal::Full(self.entries as u64));
        }
        let moment = self.effective(moment);
        let next = Row { last: used, ..row };
        self.rows[worker as usize] = Some(next);
        self.recharge(&row, next.estimate.max(used));
        self.pass(moment);
        self.renew(row.tenant);
        self.past.push(Entry {
            who,
            moment,
            act: Act::Report {
                worker,
                request: row.request,
                used,
            },
        });
        Ok(())
    }
    pub fn done(&mut self, who: u32, moment: u64, worker: u32, cost: u64) -> Result<(), Refusal> {
        let row = self.row_for(worker, cost)?;
        let moment = self.effective(moment);
        self.rows[worker as usize] = None;
        self.recharge(&row, cost);
        let place = (row.tenant * self.kinds + row.kind) as usize;
        self.greatest[place] = (99 * self.greatest[place] / 100).max(cost);
        self.pass(moment);
        let t = &mut self.tenants[row.tenant as usize];
        t.undone -= 1;
        if t.undone == 0 {
            self.leave(row.tenant);
        }
        self.renew(row.tenant);
        self.running -= 1;
        self.past.push(Entry {
            who,
            moment,
            act: Act::Done {
                worker,
                request: row.request,
                cost,
            },
        });
        Ok(())
    }
}

pub fn length(cost: u64, weight: u32) -> i128 {
    ((cost * SCALE + (weight as u64 - 1)) / weight as u64) as i128
}

pub fn quotient(number: u128, by: u64) -> i128 {
    if number <= u64::MAX as u128 {
        (number as u64 / by) as i128
    } else {
        (number / by as u128) as i128
    }
}
