//! Virtual time of `2dfq+`.
use crate::scheduler::{Keys, Scheduler};
use crate::tree::{Key, Tree};

/// What virtual time of `2dfq+` needs, and that of `2dfq` does not.
pub struct Pace {
    /// The greatest finish at which a request was taken.
    pub reached: i128,
    /// The tenants that linger, by start: those without an open request whose start is above virtual time.
    pub lingering: Tree,
}

impl Pace {
    pub fn open(count: usize) -> Pace {
        Pace {
            reached: 0,
            lingering: Tree::new(count),
        }
    }
}

impl Scheduler {
    /// Makes virtual time of `2dfq+` at least this; tenants whose starts it comes to linger no more.
    pub fn rise_to(&mut self, time: i128) {
        let Some(pace) = &mut self.pace else { return };
        self.time = self.time.max(time);
        while let Some((tenant, key)) = pace.lingering.first() {
            if key.a > self.time {
                return;
            }
            pace.lingering.set(tenant, None);
            self.weights -= self.tenants[tenant as usize].weight as u64;
        }
    }
    /// The tenant's weight counts from now on, unless the tenant lingers, so that it counts already.
    pub fn come(&mut self, tenant: u32) {
        match &mut self.pace {
            Some(pace) if pace.lingering.marks[tenant as usize] => pace.lingering.set(tenant, None),
            _ => self.weights += self.tenants[tenant as usize].weight as u64,
        }
    }
    /// The tenant's weight counts no more, unless the tenant lingers from now on.
    pub fn leave(&mut self, tenant: u32) {
        let t = &self.tenants[tenant as usize];
        let start = t.charge + t.base;
        match &mut self.pace {
            Some(pace) if start > self.time => {
                let key = Key {
                    a: start,
                    b: 0,
                    c: tenant,
                };
                pace.lingering.set(tenant, Some(key))
            }
            _ => self.weights -= t.weight as u64,
        }
    }
    /// A take under `2dfq+`: virtual time is at least the eligible key of the request, and its cap the finish.
    pub fn lift(&mut self, worker: u32, keys: Keys) {
        if let Some(pace) = &mut self.pace {
            pace.reached = pace.reached.max(keys.start + keys.len);
            self.rise_to(keys.at(worker, self.rows.len()));
        }
    }
}
