//! Grants of permits, and the charges of held permits.
//!
//! Each call ends by granting free permits to waiting requests. A grant goes to the lowest free number for which some
//! request is eligible. Where none is eligible for the highest free number, that permit waits for its patience, and is
//! then granted before the request's time. Costly requests are eligible for high numbers first, so they leave the low
//! ones to cheap requests.
use std::collections::BTreeSet;
use std::mem;
use std::sync::Arc;

use super::free::WorkerSet;
use super::Permit;
use crate::config::GREATEST_COST;
use crate::service::admission::Request;
use crate::service::cause::Cause;
use crate::service::clock::Reading;
use crate::service::patience::Free;
use crate::service::place::Place;
use crate::service::shared::{Payload, Shared};
use crate::service::state::{Ended, Run, Running, State};
use crate::service::withdraw::Withdrawn;

/// The place of a request's permit.
pub(crate) type Seat = Arc<Place<Result<Permit, Cause>>>;

/// A permit that is held.
struct Held {
    request: Running,
    /// The moment of the grant, or of the last report that it made by itself.
    last: u64,
    reported: u64,
}

enum Worker {
    Free(Free),
    Held(Held),
}

/// The workers, each of which is a permit.
pub(crate) struct Desk {
    workers: Vec<Worker>,
    free: WorkerSet,
    /// The held permits that report by themselves, by the moment of the grant or of the last report.
    reporting: BTreeSet<(u64, u32)>,
    /// The free worker that waits for its patience.
    patient: Option<u32>,
    /// In microseconds.
    refresh: u64,
    granted: Vec<(Seat, u32)>,
}

impl Desk {
    pub(crate) fn new(most_workers: u32, refresh: u64) -> Desk {
        let workers = (0..most_workers).map(|worker| Worker::Free(Free::new(worker, 0))).collect();
        let free = WorkerSet::below(most_workers);
        Desk { workers, free, reporting: BTreeSet::new(), patient: None, refresh, granted: Vec::new() }
    }

    fn held(&mut self, worker: u32) -> Option<&mut Held> {
        match &mut self.workers[worker as usize] {
            Worker::Held(held) => Some(held),
            Worker::Free(_) => None,
        }
    }
}

impl Payload for Seat {
    type Workers = Desk;
    type Signals = ();
    type Effects = Vec<(Seat, u32)>;

    fn serve(state: &mut State<Self>, moment: u64) -> Vec<(Seat, u32)> {
        state.fresh = 0; // no worker sleeps
        state.grant_all(moment);
        mem::take(&mut state.workers.granted)
    }

    fn carry_out(shared: &Arc<Shared<Self>>, granted: Vec<(Seat, u32)>) {
        for (seat, worker) in granted {
            if let Some(Ok(permit)) = seat.offer(Ok(Permit::new(shared.clone(), worker))) {
                permit.give_back_unseen();
            }
        }
    }

    fn withdraw(self, why: Withdrawn) {
        match why {
            Withdrawn::Late => self.put(Err(Cause::Late)),
            Withdrawn::NoMemory => self.put(Err(Cause::NoMemory)),
            Withdrawn::Cancelled => {} // the future is gone
        }
    }
}

impl State<Seat> {
    /// Admits a request only where it gets a permit at once.
    pub(crate) fn admit_at_once(
        &mut self,
        moment: u64,
        request: &Request,
        seat: &mut dyn FnMut() -> Seat,
    ) -> Result<(), Cause> {
        let none_free = self.workers.free.highest_below(self.rolling.workers).is_none();
        let slot = self.accept(moment, request, none_free.then_some(Cause::NoneFree))?;
        let ticket = self.put(moment, slot, request, seat)?;
        self.grant_all(moment);
        match self.remove(moment, ticket) {
            Some(_) => {
                self.counts[slot as usize].submitted -= 1;
                self.events.retain(|event| event.number != ticket.number);
                Err(self.refused(Some(slot), request, Cause::NoneFree))
            }
            None => Ok(()),
        }
    }

    /// Grants free permits to waiting requests.
    fn grant_all(&mut self, moment: u64) {
        if let Some(worker) = self.workers.patient.take() {
            if let Worker::Free(free) = &mut self.workers.workers[worker as usize] {
                self.patience.settle(free, moment);
            }
        }
        if self.free().is_none() {
            return;
        }
        self.expire();
        self.report_held(moment);
        while let Some(worker) = self.next_worker(moment) {
            let Some(run) = self.take(Reading::wall(moment), worker) else { return };
            self.grant(run, worker);
        }
    }

    /// The lowest and the highest free worker that may take from the oldest scheduler with a request for one.
    fn free(&self) -> Option<(u32, u32)> {
        let low = self.workers.free.lowest()?;
        let workers = self.rolling.served(low)?;
        Some((low, self.workers.free.highest_below(workers)?))
    }

    /// Which free worker takes next.
    fn next_worker(&mut self, moment: u64) -> Option<u32> {
        let (low, high) = self.free()?;
        if self.rolling.is_eligible(moment, low) {
            return Some(low);
        }
        if self.rolling.is_eligible(moment, high) {
            return Some(self.lowest_eligible(moment, low + 1, high));
        }
        let early = self.early(moment, high);
        let Worker::Free(worker) = &mut self.workers.workers[high as usize] else { return None };
        if let Some(until) = self.patience.wait(worker, moment, early) {
            self.workers.patient = Some(high);
            self.alarm(until);
            return None;
        }
        self.patience.early += u64::from(early.is_some());
        Some(high)
    }

    /// The lowest free worker from `least` on for which a request is eligible, as one is for the free worker `found`. What
    /// is eligible for a worker is eligible for all above it.
    fn lowest_eligible(&mut self, moment: u64, mut least: u32, mut found: u32) -> u32 {
        while least < found {
            let middle = least + (found - least) / 2;
            match self.workers.free.highest_below(middle + 1).filter(|worker| *worker >= least) {
                Some(worker) if self.rolling.is_eligible(moment, worker) => found = worker,
                _ => least = middle + 1,
            }
        }
        found
    }

    fn grant(&mut self, run: Run<Seat>, worker: u32) {
        let Run { payload, request, .. } = run;
        let desk = &mut self.workers;
        desk.workers[worker as usize] = Worker::Held(Held { request, last: request.begun, reported: 0 });
        desk.free.remove(worker);
        desk.reporting.insert((request.begun, worker));
        desk.granted.push((payload, worker));
    }

    /// Reports the time of each held permit that is due.
    fn report_held(&mut self, moment: u64) {
        let refresh = self.workers.refresh.max(1);
        while let Some(&(last, worker)) = self.workers.reporting.first() {
            let Some(held) = self.workers.held(worker).filter(|_| moment.saturating_sub(last) >= refresh) else {
                return;
            };
            held.last = moment;
            let used = moment - held.request.begun;
            self.workers.reporting.remove(&(last, worker));
            self.workers.reporting.insert((moment, worker));
            self.charge(moment, worker, used);
        }
    }

    /// The holder of a permit reports its use.
    pub(crate) fn used(&mut self, moment: u64, worker: u32, cost: u64) {
        let Some(&mut Held { last, .. }) = self.workers.held(worker) else { return };
        self.workers.reporting.remove(&(last, worker));
        self.charge(moment, worker, cost);
    }

    /// Reports a use, where it is above the last.
    fn charge(&mut self, moment: u64, worker: u32, used: u64) {
        let Some(held) = self.workers.held(worker) else { return };
        let used = used.min(GREATEST_COST);
        if used > held.reported {
            held.reported = used;
            let request = held.request;
            self.report(moment, worker, &request, used);
        }
    }

    /// A permit comes back.
    pub(crate) fn give_back(&mut self, moment: u64, worker: u32, cost: Option<u64>, panicked: bool) {
        let free = Worker::Free(Free::new(worker, moment));
        let Worker::Held(held) = mem::replace(&mut self.workers.workers[worker as usize], free) else { return };
        self.workers.free.insert(worker);
        self.workers.reporting.remove(&(held.last, worker));
        let cost = cost.unwrap_or(moment.saturating_sub(held.request.begun)).clamp(1, GREATEST_COST).max(held.reported);
        self.done(worker, &Ended { request: held.request, moment, cost, panicked });
    }
}

#[cfg(test)]
mod tests {
    use crate::{Estimator, KindId, Permit, Permits, Submit, TenantId};

    #[test]
    fn the_lowest_of_a_thousand_workers_with_an_eligible_request_is_found() {
        let builder = Permits::builder().workers(1000).tenant("acme", 1).tenant("globex", 3).patience(0.0);
        let permits = builder.estimator(Estimator::Declared).open_permits().unwrap();
        let take = |tenant| permits.try_acquire(TenantId::new(tenant), KindId::FIRST).unwrap();
        let mut held: Vec<Permit> = (0..999).map(|i| take(i % 2)).collect();
        let mut found = Vec::new();
        for step in 0..200 {
            (0..3).for_each(|i| drop(held.swap_remove((step * 37 + i * 101) % held.len())));
            let mut state = permits.shared().lock();
            let moment = permits.shared().moment();
            let request = Submit { tenant: step as u32 % 2, kind: 0, declared: 1_000_000, label: u64::MAX };
            let submitted = state.rolling.submit(moment, request).unwrap();
            let (low, high) = state.free().unwrap();
            let free: Vec<u32> = (low..=high).filter(|&worker| state.workers.held(worker).is_none()).collect();
            let wanted = free.into_iter().find(|&worker| state.rolling.is_eligible(moment, worker));
            if let Some(wanted) = wanted {
                assert_eq!(state.lowest_eligible(moment, low, high), wanted);
                found.push(wanted);
            }
            state.rolling.withdraw(moment, submitted);
        }
        found.dedup();
        assert!(found.len() > 10, "{found:?}");
    }
}
