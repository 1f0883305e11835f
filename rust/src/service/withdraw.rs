//! Withdrawals of requests that wait: they never begin, and cost nothing.
use std::time::Instant;

use super::cause::Cause;
use super::requests::{Ticket, Waiting};
use super::shared::Payload;
use super::state::State;
use super::trace::What;

/// Why a request was withdrawn.
#[derive(Clone, Copy, Debug, PartialEq, Eq)]
pub enum Withdrawn {
    /// Its caller cancelled it.
    Cancelled,
    /// Its deadline has passed.
    Late,
    /// It was held back by a limit, and there was no memory for the next scheduler when it might go.
    NoMemory,
}

impl<P: Payload> State<P> {
    /// Withdraws a request, where it still waits.
    pub(crate) fn withdraw(&mut self, moment: u64, ticket: Ticket, why: Withdrawn) -> bool {
        let waiting = self.remove(moment, ticket);
        let is_withdrawn = waiting.is_some();
        if let Some(waiting) = waiting {
            self.note_withdrawn(ticket, waiting, why);
        }
        is_withdrawn
    }

    /// Counts a withdrawn request, and notes it for its caller and for the hook.
    pub(crate) fn note_withdrawn(&mut self, ticket: Ticket, waiting: Waiting<P>, why: Withdrawn) {
        let Waiting { payload, tenant, kind, .. } = waiting;
        let count = &mut self.counts[tenant as usize];
        match why {
            Withdrawn::Cancelled => count.cancelled += 1,
            Withdrawn::Late => count.late += 1,
            Withdrawn::NoMemory => count.refuse(Cause::NoMemory),
        }
        self.note_of(ticket.number, tenant, kind, What::Withdrawn(why));
        self.withdrawn.push((payload, why));
    }

    /// Removes a request that still waits.
    pub(crate) fn remove(&mut self, moment: u64, ticket: Ticket) -> Option<Waiting<P>> {
        self.requests.get_mut(ticket)?;
        let (_, waiting) = self.leave(ticket.label())?;
        let Waiting { tenant, kind, submitted, .. } = waiting;
        self.has_news = true;
        match submitted {
            Some(submitted) => {
                self.rolling.withdraw(moment, submitted);
                self.limits.leave(tenant, kind);
                self.release(moment, tenant);
            }
            None => self.limits.let_go(tenant, kind, ticket),
        }
        self.rest(tenant);
        Some(waiting)
    }

    /// Withdraws the requests whose deadline has passed. Reads the clock, since the call may have waited for the lock.
    pub(crate) fn expire(&mut self) {
        if self.deadlines.is_empty() {
            return;
        }
        let now = self.clock.moment(Instant::now());
        while let Some(&(_, ticket)) = self.deadlines.first().filter(|(deadline, _)| *deadline < now) {
            self.withdraw(now, ticket, Withdrawn::Late);
        }
    }

    /// Wakes the timekeeper at this moment at the latest.
    pub(crate) fn alarm(&mut self, moment: u64) {
        self.alarm = Some(self.alarm.map_or(moment, |before| before.min(moment)));
    }

    /// The timekeeper's look.
    pub(crate) fn tick(&mut self) {
        self.expire();
        if let Some(&(deadline, _)) = self.deadlines.first() {
            self.alarm(deadline + 1);
        }
    }
}
