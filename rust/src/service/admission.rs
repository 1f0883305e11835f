//! Admission of requests: refusals, slots for new tenants, and the submit or the hold.
use std::mem;

use super::cause::Cause;
use super::ids::{KindId, Tenant};
use super::requests::{Submitted, Ticket, Waiting};
use super::shared::Payload;
use super::state::State;
use super::trace::{Event, Owner, What};
use super::withdraw::Withdrawn;
use crate::config::{GREATEST_COST, GREATEST_WEIGHT};
use crate::Submit;

/// A request that asks for admission.
#[derive(Clone, Copy)]
pub(crate) struct Request<'a> {
    pub(crate) tenant: Tenant<'a>,
    pub(crate) kind: KindId,
    pub(crate) declared: u64,
    /// The last moment at which it may begin.
    pub(crate) deadline: Option<u64>,
}

impl<P: Payload> State<P> {
    /// The first cause against a request; `waiting` requests of its tenant wait.
    fn cause(&self, moment: u64, waiting: u32, request: &Request) -> Option<Cause> {
        let Request { kind, declared, deadline, .. } = *request;
        if kind.0 as usize >= self.rolling.settings.kinds.len() {
            return Some(Cause::Kind(kind));
        }
        if !(1..=GREATEST_COST).contains(&declared) {
            return Some(Cause::Cost(declared));
        }
        if deadline.is_some_and(|deadline| deadline < moment) {
            return Some(Cause::Late);
        }
        self.room.cause(self.waiting, waiting)
    }

    /// The slot of the request's tenant, where no cause is against it; `last` is a cause that counts after all others.
    /// A new tenant gets a slot.
    pub(crate) fn accept(&mut self, moment: u64, request: &Request, last: Option<Cause>) -> Result<u32, Cause> {
        let found = self.slots.find(request.tenant);
        if self.is_closed {
            return Err(self.refused(found.ok().flatten(), request, Cause::Closed));
        }
        let slot = found.map_err(|cause| self.refused(None, request, cause))?;
        let waiting = slot.map_or(0, |slot| self.counts[slot as usize].waiting);
        if let Some(cause) = self.cause(moment, waiting, request).or(last) {
            return Err(self.refused(slot, request, cause));
        }
        match (slot, request.tenant) {
            (None, Tenant::Name(name)) => self.settle(moment, name).map_err(|cause| self.refused(None, request, cause)),
            (slot, _) => slot.ok_or(Cause::NoTenant),
        }
    }

    /// Gives a new tenant a slot. The counts of the slot's last tenant go to `others`.
    fn settle(&mut self, moment: u64, name: &str) -> Result<u32, Cause> {
        let slot = self.slots.next().ok_or(Cause::NoSlot)?;
        let weight = self.slots.weight(name);
        if self.rolling.weights[slot as usize] != weight {
            self.rolling.weight(moment, slot, weight).map_err(Cause::of)?;
        }
        self.others.add(&mem::take(&mut self.counts[slot as usize]));
        self.slots.give(slot, name);
        Ok(slot)
    }

    /// Counts a refusal, and notes it for the hook.
    pub(crate) fn refused(&mut self, slot: Option<u32>, request: &Request, cause: Cause) -> Cause {
        slot.map_or(&mut self.others, |slot| &mut self.counts[slot as usize]).refuse(cause);
        let number = self.requests.next().number;
        let owner = |state: &Self| match (slot, request.tenant) {
            (Some(slot), _) => state.slots.owner(slot),
            (None, Tenant::Name(name)) => Owner::Other(name.into()),
            (None, Tenant::Id(_)) => Owner::Unknown,
        };
        self.note(|state| Event { number, owner: owner(state), kind: request.kind.0, what: What::Refused(cause) });
        cause
    }

    /// Admits a request. Its payload is made once its place is sure.
    pub(crate) fn admit(
        &mut self,
        moment: u64,
        request: &Request,
        payload: &mut dyn FnMut() -> P,
    ) -> Result<Ticket, Cause> {
        let slot = self.accept(moment, request, None)?;
        self.put(moment, slot, request, payload)
    }

    /// Submits or holds an accepted request.
    pub(crate) fn put(
        &mut self,
        came: u64,
        slot: u32,
        request: &Request,
        payload: &mut dyn FnMut() -> P,
    ) -> Result<Ticket, Cause> {
        let Request { kind: KindId(kind), declared, deadline, .. } = *request;
        let ticket = self.requests.next();
        let submitted = if self.limits.allow(slot, kind) {
            let submit = Submit { tenant: slot, kind, declared, label: ticket.label() };
            Some(self.submit(came, submit).map_err(|cause| self.refused(Some(slot), request, cause))?)
        } else {
            self.limits.hold(slot, kind, ticket);
            None
        };
        self.requests.put(Waiting { payload: payload(), tenant: slot, kind, declared, came, deadline, submitted });
        self.enter(slot);
        if let Some(deadline) = deadline {
            self.deadlines.insert((deadline, ticket));
            self.alarm(deadline + 1);
        }
        self.note_of(ticket.number, slot, kind, What::Submitted);
        Ok(ticket)
    }

    fn submit(&mut self, moment: u64, submit: Submit) -> Result<Submitted, Cause> {
        let submitted = self.rolling.submit(moment, submit).map_err(Cause::of)?;
        self.limits.enter(submit.tenant, submit.kind);
        self.fresh += 1;
        self.has_news = true;
        self.ahead = self.ahead.take().or_else(|| self.rolling.ahead());
        Ok(submitted)
    }

    /// Submits the tenant's held requests that may go now. Without memory for the next scheduler they are withdrawn.
    pub(crate) fn release(&mut self, moment: u64, tenant: u32) {
        while let Some(ticket) = self.limits.next(tenant) {
            let Some(&mut Waiting { kind, declared, .. }) = self.requests.get_mut(ticket) else { return };
            self.limits.let_go(tenant, kind, ticket);
            match self.submit(moment, Submit { tenant, kind, declared, label: ticket.label() }) {
                Ok(submitted) => {
                    if let Some(waiting) = self.requests.get_mut(ticket) {
                        waiting.submitted = Some(submitted);
                    }
                }
                Err(_) => {
                    let Some((_, waiting)) = self.leave(ticket.label()) else { return };
                    self.note_withdrawn(ticket, waiting, Withdrawn::NoMemory);
                }
            }
        }
    }

    /// Counts a request that waits.
    fn enter(&mut self, slot: u32) {
        self.waiting += 1;
        let count = &mut self.counts[slot as usize];
        if !count.is_open() {
            self.open_tenants += 1;
            self.slots.enter(slot);
        }
        self.room.enter(count.waiting);
        count.submitted += 1;
        count.waiting += 1;
    }

    /// Sets the tenant's weight. The weight of a tenant that comes by name is kept for its return.
    pub(crate) fn weight(&mut self, moment: u64, tenant: Tenant, weight: u32) -> Result<(), Cause> {
        match self.slots.find(tenant)? {
            Some(slot) => self.rolling.weight(moment, slot, weight).map_err(Cause::of)?,
            None if !(1..=GREATEST_WEIGHT).contains(&weight) => return Err(Cause::Weight(weight)),
            None => {}
        }
        self.slots.keep_weight(tenant, weight);
        Ok(())
    }
}
