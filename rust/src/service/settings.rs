//! The settings of all schedulers of a pool or of permits.
use super::ids::TenantId;
use super::names::Names;
use super::trace::Hooked;
use crate::{Config, Estimator, OpenFault, Policy, Scheduler};

/// The entries of one request more, and of the close.
pub(crate) const ONE_REQUEST_AND_CLOSE: u64 = 4;

/// The settings of all schedulers, but for the weights.
#[derive(Clone, Debug)]
pub(crate) struct Settings {
    pub(crate) most_workers: u32,
    /// A name for each slot, under which journals have it.
    pub(crate) tenants: Names,
    /// How many tenants are named at the opening, and keep their slots, which are the first.
    pub(crate) named: u32,
    /// The weight of tenants that come by name.
    pub(crate) default_weight: u32,
    pub(crate) kinds: Names,
    pub(crate) entries: u32,
    pub(crate) keep: u32,
    /// How many entries a history has at most whose journal is judged.
    pub(crate) judged: u32,
    pub(crate) room: u32,
    pub(crate) room_per_tenant: Option<u32>,
    /// How many requests of a tenant may run at once,
    pub(crate) most_running: Option<u32>,
    /// and of each kind of a tenant.
    pub(crate) kinds_running: Vec<Option<u32>>,
    pub(crate) policy: Policy,
    pub(crate) estimator: Estimator,
    pub(crate) initial: u64,
    pub(crate) patience: f64,
    pub(crate) hook: Hooked,
}

impl Settings {
    /// The number of the tenant of this name, where it was named at the opening.
    pub(crate) fn tenant(&self, name: &str) -> Option<TenantId> {
        self.tenants.number(name).filter(|number| *number < self.named).map(TenantId::new)
    }

    /// How many entries a history may have by the head of its journal: as many as are judged, and four for each place of
    /// a room for which these are too few.
    pub(crate) fn journal_entries(&self) -> u32 {
        self.entries.min(self.judged.max(4 * self.room))
    }

    /// How many entries a journal has at most. Up to here a history of `journal_entries` has room for any call, so that
    /// the first entries of a longer one are legal by that head.
    pub(crate) fn journal_room(&self) -> u64 {
        let needed = 2 * u64::from(self.room) + u64::from(self.most_workers) + ONE_REQUEST_AND_CLOSE;
        let entries = self.journal_entries();
        u64::from(entries) - if self.entries > entries { needed } else { 0 }
    }

    pub(crate) fn open(&self, weights: &[u32]) -> Result<Scheduler, OpenFault> {
        Scheduler::open(&Config {
            workers: self.most_workers,
            weights,
            kinds: self.kinds.len() as u32,
            entries: self.entries,
            requests: self.room,
            policy: self.policy,
            estimate: self.estimator,
            initial: self.initial,
            keep: self.keep,
        })
    }
}
