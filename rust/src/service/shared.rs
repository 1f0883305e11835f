//! The part that the threads of a pool, or the callers of permits, share, and how a call is made.
use std::hint;
use std::io;
use std::sync::{Arc, Condvar, Mutex, MutexGuard, PoisonError, TryLockError};
use std::time::{Duration, Instant};

use super::admission::Request;
use super::cause::Cause;
use super::clock::{Clock, Reading};
use super::ids::{KindId, Tenant, TenantId, Terms};
use super::rolling::Spare;
use super::settings::Settings;
use super::state::{Effects, State};
use super::timer::Timer;
use super::withdraw::Withdrawn;

/// How often a thread looks whether the lock is free before it sleeps.
const LOOKS: u32 = 300;

/// The payload of a request, and with it how its workers are served: a job, whose workers are threads that come for it,
/// or the place of a permit.
pub(crate) trait Payload: Sized + Send + 'static {
    /// The state of the workers.
    type Workers: Send;
    /// The signals that the workers wait for.
    type Signals: Send + Sync;
    /// The effects of a call on the workers.
    type Effects: Send;

    /// Serves the workers that do not ask by themselves. It ends each call, under the lock.
    fn serve(state: &mut State<Self>, moment: u64) -> Self::Effects;

    /// Carries out the effects on the workers, without the lock.
    fn carry_out(shared: &Arc<Shared<Self>>, effects: Self::Effects);

    /// Gives the reason as the request's result, without the lock.
    fn withdraw(self, why: Withdrawn);
}

pub(crate) struct Shared<P: Payload> {
    state: Mutex<State<P>>,
    pub(crate) settings: Arc<Settings>,
    pub(crate) clock: Clock,
    /// The time after which a running request may report once more.
    pub(crate) refresh: Duration,
    pub(crate) signals: P::Signals,
    /// A journal that has written all entries sleeps here.
    pub(crate) written: Condvar,
    timer: Arc<Timer>,
}

impl<P: Payload> Drop for Shared<P> {
    fn drop(&mut self) {
        self.timer.end();
    }
}

impl<P: Payload> Shared<P> {
    pub(crate) fn new(state: State<P>, refresh: Duration, signals: P::Signals) -> Shared<P> {
        let (settings, clock) = (state.rolling.settings.clone(), state.clock);
        let (written, timer) = (Condvar::new(), Arc::default());
        Shared { state: Mutex::new(state), settings, clock, refresh, signals, written, timer }
    }

    /// Starts the timekeeper, where it does not run yet.
    pub(crate) fn start_timer(self: &Arc<Self>) -> io::Result<()> {
        self.timer.start(self)
    }

    /// A request by its terms.
    pub(crate) fn request<'a>(&self, tenant: Tenant<'a>, kind: KindId, terms: Terms) -> Request<'a> {
        let (tenant, declared) = (self.known(tenant), terms.declared.unwrap_or(self.settings.initial));
        Request { tenant, kind, declared, deadline: terms.deadline.and_then(|by| self.clock.deadline(by)) }
    }

    pub(crate) fn moment(&self) -> u64 {
        self.clock.moment(Instant::now())
    }

    pub(crate) fn reading(&self) -> Reading {
        self.clock.reading(Instant::now())
    }

    /// No caller's code runs under this lock, but for the allocator, so it is soon free: a thread that finds it taken
    /// looks again for about as long as a call takes, and only then sleeps, since sleep and wake cost several calls.
    pub(crate) fn lock(&self) -> MutexGuard<'_, State<P>> {
        for _ in 0..LOOKS {
            match self.state.try_lock() {
                Err(TryLockError::WouldBlock) => hint::spin_loop(),
                Ok(state) => return state,
                Err(TryLockError::Poisoned(poisoned)) => return poisoned.into_inner(),
            }
        }
        self.state.lock().unwrap_or_else(PoisonError::into_inner)
    }

    /// Makes a call at the present moment, and carries out its effects.
    pub(crate) fn call<R>(self: &Arc<Self>, call: impl FnOnce(&mut State<P>, u64) -> R) -> R {
        let moment = self.moment();
        let mut state = self.lock();
        let reply = call(&mut state, moment);
        let effects = state.effects(moment);
        drop(state);
        self.carry_out(effects);
        reply
    }

    /// Carries out the effects of a call, without the lock.
    pub(crate) fn carry_out(self: &Arc<Self>, effects: Effects<P>) {
        effects.events.iter().for_each(|event| event.trace(&self.settings));
        P::carry_out(self, effects.workers);
        if effects.wakes_journal {
            self.written.notify_one();
        }
        if let Some(at) = effects.alarm.and_then(|moment| self.clock.instant(moment)) {
            self.timer.wake_by(at);
        }
        effects.withdrawn.into_iter().for_each(|(payload, why)| payload.withdraw(why));
        if let Some(weights) = effects.ahead {
            self.open_ahead(weights);
        }
    }

    /// Opens the next scheduler while the present one still has room, so that no caller waits for its opening.
    fn open_ahead(&self, weights: Vec<u32>) {
        let spare = self.settings.open(&weights).ok().map(|scheduler| Spare { scheduler, weights });
        let mut state = self.lock();
        state.rolling.is_opening = false;
        if !state.rolling.is_closed {
            state.rolling.spare = spare;
        }
    }

    /// The tenant by its number, where it was named at the opening, so that the lock is not held for the search.
    fn known<'a>(&self, tenant: Tenant<'a>) -> Tenant<'a> {
        match tenant {
            Tenant::Name(name) => self.settings.tenant(name).map_or(tenant, Tenant::Id),
            Tenant::Id(_) => tenant,
        }
    }

    /// The number of the tenant of this name.
    pub(crate) fn tenant(&self, name: &str) -> Option<TenantId> {
        self.settings.tenant(name).or_else(|| self.lock().slots.id(name))
    }

    /// The number of the kind of this name.
    pub(crate) fn kind(&self, name: &str) -> Option<KindId> {
        self.settings.kinds.number(name).map(KindId)
    }

    pub(crate) fn weight(self: &Arc<Self>, tenant: Tenant, weight: u32) -> Result<(), Cause> {
        let tenant = self.known(tenant);
        self.call(|state, moment| state.change(|state| state.weight(moment, tenant, weight)))
    }

    pub(crate) fn workers(self: &Arc<Self>, count: u32) -> Result<(), Cause> {
        self.call(|state, moment| state.change(|state| state.rolling.workers(moment, count).map_err(Cause::of)))
    }

    pub(crate) fn close(self: &Arc<Self>) {
        // closed already, it has nothing to change
        let _ = self.call(|state, _| {
            state.change(|state| {
                state.is_closed = true;
                Ok(())
            })
        });
    }
}
