//! The tenants' slots of the scheduler. The tenants of the opening keep theirs. A tenant that comes by name takes a
//! free slot, or the slot of the tenant that was idle longest.
use std::collections::{BTreeSet, HashMap};
use std::sync::Arc;

use super::cause::Cause;
use super::ids::{Tenant, TenantId};
use super::settings::Settings;
use super::trace::Owner;

/// The longest name of a tenant that comes, in bytes.
const LONGEST_NAME: usize = 256;

/// A slot for tenants that come.
#[derive(Default)]
struct Slot {
    /// Its tenant; none until the first comes.
    name: Option<Arc<str>>,
    /// How many tenants have had it.
    generation: u64,
    /// The event at which its tenant went idle.
    since: u64,
}

pub(crate) struct Slots {
    /// How many tenants keep their slots, which are the first.
    named: u32,
    others: Vec<Slot>,
    numbers: HashMap<Arc<str>, u32>,
    /// The slots without an open request, by the event at which they went idle.
    unused: BTreeSet<(u64, u32)>,
    /// How often a tenant went idle.
    events: u64,
    default_weight: u32,
    /// Weights other than the default, by name.
    weights: HashMap<Box<str>, u32>,
}

impl Slots {
    pub(crate) fn new(settings: &Settings) -> Slots {
        let (named, all) = (settings.named, settings.tenants.len() as u32);
        Slots {
            named,
            others: (named..all).map(|_| Slot::default()).collect(),
            numbers: HashMap::new(),
            unused: (named..all).map(|slot| (0, slot)).collect(),
            events: 0,
            default_weight: settings.default_weight,
            weights: HashMap::new(),
        }
    }

    fn other(&self, slot: u32) -> Option<&Slot> {
        self.others.get(slot.checked_sub(self.named)? as usize)
    }

    /// The slot of a tenant; none for a new name. Names of the opening never come here.
    pub(crate) fn find(&self, tenant: Tenant) -> Result<Option<u32>, Cause> {
        match tenant {
            Tenant::Id(TenantId { slot, generation }) => {
                let is_there = match self.other(slot) {
                    Some(other) => other.generation == generation && generation > 0,
                    None => slot < self.named && generation == 0,
                };
                if is_there {
                    Ok(Some(slot))
                } else {
                    Err(Cause::NoTenant)
                }
            }
            Tenant::Name(_) if self.others.is_empty() => Err(Cause::NoTenant),
            Tenant::Name(name) if !(1..=LONGEST_NAME).contains(&name.len()) => Err(Cause::Name),
            Tenant::Name(name) => Ok(self.numbers.get(name).copied()),
        }
    }

    /// The name of the slot's tenant, for a hook.
    pub(crate) fn owner(&self, slot: u32) -> Owner {
        match self.other(slot) {
            None => Owner::Named(slot),
            Some(other) => other.name.clone().map_or(Owner::Unknown, Owner::Other),
        }
    }

    /// The number of a tenant that came by name.
    pub(crate) fn id(&self, name: &str) -> Option<TenantId> {
        let slot = *self.numbers.get(name)?;
        Some(TenantId { slot, generation: self.other(slot)?.generation })
    }

    /// The slot that the next new tenant gets.
    pub(crate) fn next(&self) -> Option<u32> {
        self.unused.first().map(|(_, slot)| *slot)
    }

    /// Gives the slot to a new tenant.
    pub(crate) fn give(&mut self, slot: u32, name: &str) {
        let other = &mut self.others[(slot - self.named) as usize];
        let name: Arc<str> = name.into();
        other.generation += 1;
        if let Some(before) = other.name.replace(name.clone()) {
            self.numbers.remove(&before);
        }
        self.numbers.insert(name, slot);
        self.enter(slot);
        self.leave(slot);
    }

    /// The slot's tenant has its first open request.
    pub(crate) fn enter(&mut self, slot: u32) {
        if let Some(other) = self.other(slot) {
            self.unused.remove(&(other.since, slot));
        }
    }

    /// The slot's tenant goes idle.
    pub(crate) fn leave(&mut self, slot: u32) {
        if slot >= self.named {
            self.events += 1;
            self.others[(slot - self.named) as usize].since = self.events;
            self.unused.insert((self.events, slot));
        }
    }

    /// The weight that a new tenant gets.
    pub(crate) fn weight(&self, name: &str) -> u32 {
        self.weights.get(name).copied().unwrap_or(self.default_weight)
    }

    /// Keeps the weight of a tenant that comes by name.
    pub(crate) fn keep_weight(&mut self, tenant: Tenant, weight: u32) {
        let name = match tenant {
            Tenant::Name(name) => Some(name.into()),
            Tenant::Id(id) => self.other(id.slot).and_then(|other| other.name.as_deref()).map(Box::from),
        };
        match name {
            Some(name) if weight == self.default_weight => _ = self.weights.remove(&name),
            Some(name) => _ = self.weights.insert(name, weight),
            None => {}
        }
    }

    /// Copies the names of tenants that came, by slot. It takes no memory.
    pub(crate) fn copy_names(&self, to: &mut [Option<Arc<str>>]) {
        to.iter_mut().zip(&self.others).for_each(|(to, other)| to.clone_from(&other.name));
    }
}
