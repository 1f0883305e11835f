//! The state that the threads of a pool, or the callers of permits, share under the lock.
use std::collections::BTreeSet;
use std::mem;

use super::cause::Cause;
use super::clock::{Clock, Reading};
use super::count::Count;
use super::limits::Limits;
use super::patience::Patience;
use super::requests::{Requests, Ticket, Waiting};
use super::rolling::{Dispatch, History, Rolling};
use super::room::Room;
use super::shared::Payload;
use super::slots::Slots;
use super::trace::{Event, What};
use super::withdraw::Withdrawn;

/// How many schedulers that are over wait for a journal that is slow.
const MOST_KEPT: usize = 4;

/// A request that runs.
#[derive(Clone, Copy)]
pub(crate) struct Running {
    pub(crate) number: u64,
    pub(crate) tenant: u32,
    pub(crate) kind: u32,
    pub(crate) history: u64,
    /// The moment of its take.
    pub(crate) begun: u64,
}

/// A request that a worker has taken.
pub(crate) struct Run<P> {
    pub(crate) payload: P,
    pub(crate) request: Running,
    pub(crate) begun: Reading,
}

/// A request that has ended.
pub(crate) struct Ended {
    pub(crate) request: Running,
    pub(crate) moment: u64,
    pub(crate) cost: u64,
    pub(crate) panicked: bool,
}

/// The effects of a call, which are carried out without the lock.
pub(crate) struct Effects<P: Payload> {
    pub(crate) wakes_journal: bool,
    pub(crate) ahead: Option<Vec<u32>>,
    /// The histories whose memory is given back.
    pub(crate) over: Vec<History>,
    /// The payloads of withdrawn requests, each with its reason.
    pub(crate) withdrawn: Vec<(P, Withdrawn)>,
    /// The events for the hook.
    pub(crate) events: Vec<Event>,
    /// When the timekeeper is to wake.
    pub(crate) alarm: Option<u64>,
    /// The effects on the workers.
    pub(crate) workers: P::Effects,
}

pub(crate) struct State<P: Payload> {
    pub(crate) rolling: Rolling,
    pub(crate) workers: P::Workers,
    pub(crate) clock: Clock,
    pub(crate) requests: Requests<P>,
    /// The requests that have a deadline, by these.
    pub(crate) deadlines: BTreeSet<(u64, Ticket)>,
    pub(crate) events: Vec<Event>,
    pub(crate) withdrawn: Vec<(P, Withdrawn)>,
    pub(crate) alarm: Option<u64>,
    pub(crate) room: Room,
    pub(crate) limits: Limits,
    pub(crate) slots: Slots,
    /// The counts of each slot's tenant,
    pub(crate) counts: Vec<Count>,
    /// and those of no present tenant: of tenants that have left, and of calls that name none.
    pub(crate) others: Count,
    pub(crate) waiting: u32,
    pub(crate) running: u32,
    /// How many tenants have requests that wait or run.
    pub(crate) open_tenants: u32,
    pub(crate) patience: Patience,
    /// Whether something has changed for the patient workers.
    pub(crate) has_news: bool,
    /// Whether something has changed for all workers.
    pub(crate) has_changed: bool,
    /// How many requests have come to the scheduler for which no worker was woken.
    pub(crate) fresh: u32,
    pub(crate) is_closed: bool,
    /// Whether the journal sleeps until there is news.
    pub(crate) journal_sleeps: bool,
    /// The weights of the scheduler that is to be opened ahead.
    pub(crate) ahead: Option<Vec<u32>>,
}

impl<P: Payload> State<P> {
    pub(crate) fn new(rolling: Rolling, workers: P::Workers, clock: Clock) -> State<P> {
        let counts = vec![Count::default(); rolling.weights.len()];
        let patience = Patience::new(rolling.settings.patience, rolling.workers);
        let settings = &rolling.settings;
        let room = Room::new(settings.room, counts.len() as u32, settings.room_per_tenant);
        let limits = Limits::new(settings);
        let slots = Slots::new(settings);
        State {
            rolling,
            workers,
            clock,
            requests: Requests::default(),
            deadlines: BTreeSet::new(),
            withdrawn: Vec::new(),
            events: Vec::new(),
            alarm: None,
            room,
            limits,
            slots,
            counts,
            others: Count::default(),
            waiting: 0,
            running: 0,
            open_tenants: 0,
            patience,
            has_news: false,
            has_changed: false,
            fresh: 0,
            is_closed: false,
            journal_sleeps: false,
            ahead: None,
        }
    }

    /// The request with this label waits no more.
    pub(crate) fn leave(&mut self, label: u64) -> Option<(Ticket, Waiting<P>)> {
        let (ticket, waiting) = self.requests.take(label)?;
        if let Some(deadline) = waiting.deadline {
            self.deadlines.remove(&(deadline, ticket));
        }
        self.waiting -= 1;
        let count = &mut self.counts[waiting.tenant as usize];
        count.waiting -= 1;
        self.room.leave(count.waiting);
        Some((ticket, waiting))
    }

    /// The worker's next request, which runs from this reading on.
    pub(crate) fn take(&mut self, begun: Reading, worker: u32) -> Option<Run<P>> {
        let Dispatch { history, label } = self.rolling.take(begun.moment, worker)?;
        let (ticket, waiting) = self.leave(label).expect("a label is that of a request which waits");
        let Waiting { payload, tenant, kind, came, .. } = waiting;
        self.fresh = self.fresh.saturating_sub(1);
        self.running += 1;
        let (number, waited) = (ticket.number, begun.moment.saturating_sub(came));
        let count = &mut self.counts[tenant as usize];
        count.running += 1;
        count.wait_times.add(waited);
        self.note_of(number, tenant, kind, What::Begun { waited });
        Some(Run { payload, request: Running { number, tenant, kind, history, begun: begun.moment }, begun })
    }

    pub(crate) fn report(&mut self, moment: u64, worker: u32, request: &Running, used: u64) {
        if self.rolling.report(moment, worker, request.history, used) {
            self.has_news = true;
            self.counts[request.tenant as usize].reports += 1;
        }
    }

    pub(crate) fn done(&mut self, worker: u32, ended: &Ended) {
        let &Ended { request, moment, cost, panicked } = ended;
        let Running { number, tenant, kind, history, begun } = request;
        self.rolling.done(moment, worker, history, cost);
        self.limits.leave(tenant, kind);
        self.release(moment, tenant);
        self.patience.earn(cost, self.rolling.workers);
        self.has_news = true;
        self.running -= 1;
        let count = &mut self.counts[tenant as usize];
        count.running -= 1;
        count.done += 1;
        count.panicked += u64::from(panicked);
        count.microseconds += cost;
        count.run_times.add(moment.saturating_sub(begun));
        self.rest(tenant);
        self.note_of(number, tenant, kind, What::Ended { cost, panicked });
    }

    /// Notes an event for the hook, where there is one.
    pub(crate) fn note(&mut self, event: impl FnOnce(&Self) -> Event) {
        if self.rolling.settings.hook.0.is_some() {
            let event = event(self);
            self.events.push(event);
        }
    }

    /// Notes an event of a tenant's request.
    pub(crate) fn note_of(&mut self, number: u64, tenant: u32, kind: u32, what: What) {
        self.note(|state| Event { number, owner: state.slots.owner(tenant), kind, what });
    }

    /// Notes that the tenant is idle, where its last open request has gone.
    pub(crate) fn rest(&mut self, slot: u32) {
        if !self.counts[slot as usize].is_open() {
            self.open_tenants -= 1;
            self.slots.leave(slot);
        }
    }

    /// Makes a change, which all workers learn.
    pub(crate) fn change(&mut self, change: impl FnOnce(&mut Self) -> Result<(), Cause>) -> Result<(), Cause> {
        let reply = if self.is_closed { Err(Cause::Closed) } else { change(self) };
        self.has_news = true;
        self.has_changed = true;
        reply
    }

    /// The effects of a call. The scheduler is closed once no request is held back from it.
    pub(crate) fn effects(&mut self, moment: u64) -> Effects<P> {
        if self.is_closed && self.limits.is_empty() {
            self.rolling.close(moment);
        }
        let workers = P::serve(self, moment);
        let wakes_journal = mem::take(&mut self.journal_sleeps);
        Effects {
            wakes_journal,
            ahead: self.ahead.take(),
            over: self.released(),
            withdrawn: mem::take(&mut self.withdrawn),
            events: mem::take(&mut self.events),
            alarm: self.alarm.take(),
            workers,
        }
    }

    /// The histories that are over and that no journal will read. Where a journal is too slow the oldest are among
    /// them, but for the history that it reads.
    fn released(&mut self) -> Vec<History> {
        let over = &mut self.rolling.over;
        let Some(at) = self.rolling.journal else { return mem::take(over) };
        let (kept, mut released): (Vec<History>, Vec<History>) =
            mem::take(over).into_iter().partition(|history| history.number >= at);
        *over = kept;
        while over.len() > MOST_KEPT {
            let oldest = (0..over.len()).filter(|&i| over[i].number != at).min_by_key(|&i| over[i].number);
            released.extend(oldest.map(|i| over.remove(i)));
        }
        released
    }
}
