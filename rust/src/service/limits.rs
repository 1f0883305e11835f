//! Limits on how many requests of a tenant, and of a tenant's kind, run at once. A request beyond a limit is held back
//! before the scheduler, so that a take never finds a request that may not run.
use std::collections::BTreeSet;
use std::iter;

use super::requests::Ticket;
use super::settings::Settings;

#[derive(Default)]
pub(crate) struct Limits {
    /// How many requests of a tenant may be in the schedulers, waiting or running.
    tenant: Option<u32>,
    /// How many of each kind may be there.
    kinds: Vec<Option<u32>>,
    /// How many requests of each tenant are in the schedulers. Empty where there is no limit.
    tenants: Vec<u32>,
    /// How many of each tenant and kind are there.
    pairs: Vec<u32>,
    /// The held requests, by tenant and kind, in order of arrival.
    held: BTreeSet<(u32, u32, Ticket)>,
}

impl Limits {
    pub(crate) fn new(settings: &Settings) -> Limits {
        let (tenants, kinds) = (settings.tenants.len(), settings.kinds.len());
        if settings.most_running.is_none() && settings.kinds_running.iter().all(Option::is_none) {
            return Limits::default();
        }
        Limits {
            tenant: settings.most_running,
            kinds: settings.kinds_running.clone(),
            tenants: vec![0; tenants],
            pairs: vec![0; tenants * kinds],
            held: BTreeSet::new(),
        }
    }

    fn is_on(&self) -> bool {
        !self.kinds.is_empty()
    }

    fn pair(&self, tenant: u32, kind: u32) -> usize {
        tenant as usize * self.kinds.len() + kind as usize
    }

    /// Whether one more request may go to the scheduler.
    pub(crate) fn allow(&self, tenant: u32, kind: u32) -> bool {
        let is_below = |count: u32, limit: Option<u32>| limit.is_none_or(|limit| count < limit);
        !self.is_on()
            || is_below(self.tenants[tenant as usize], self.tenant)
                && is_below(self.pairs[self.pair(tenant, kind)], self.kinds[kind as usize])
    }

    /// A request goes to a scheduler.
    pub(crate) fn enter(&mut self, tenant: u32, kind: u32) {
        if self.is_on() {
            let pair = self.pair(tenant, kind);
            self.tenants[tenant as usize] += 1;
            self.pairs[pair] += 1;
        }
    }

    /// A request has left its scheduler, by its end or withdrawn.
    pub(crate) fn leave(&mut self, tenant: u32, kind: u32) {
        if self.is_on() {
            let pair = self.pair(tenant, kind);
            self.tenants[tenant as usize] -= 1;
            self.pairs[pair] -= 1;
        }
    }

    pub(crate) fn hold(&mut self, tenant: u32, kind: u32, ticket: Ticket) {
        self.held.insert((tenant, kind, ticket));
    }

    /// A request is no longer held.
    pub(crate) fn let_go(&mut self, tenant: u32, kind: u32, ticket: Ticket) {
        self.held.remove(&(tenant, kind, ticket));
    }

    /// Whether no request is held.
    pub(crate) fn is_empty(&self) -> bool {
        self.held.is_empty()
    }

    /// The tenant's oldest held request that may go now.
    pub(crate) fn next(&self, tenant: u32) -> Option<Ticket> {
        let first_from = |kind: u32| {
            let (other, kind, ticket) = *self.held.range((tenant, kind, Ticket::FIRST)..).next()?;
            (other == tenant).then_some((kind, ticket))
        };
        let firsts = iter::successors(first_from(0), |(kind, _)| first_from(kind + 1));
        firsts.filter(|(kind, _)| self.allow(tenant, *kind)).map(|(_, ticket)| ticket).min()
    }
}
