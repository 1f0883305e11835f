//! The life of a worker, and the reports of a running job.
use std::cell::RefCell;
use std::mem;
use std::sync::{Arc, Condvar, MutexGuard, PoisonError};
use std::time::{Duration, Instant};

use super::{BoxedJob, Job};
use crate::service::clock::Reading;
use crate::service::panics::caught;
use crate::service::patience::{Free, Step};
use crate::service::shared::{Payload, Shared};
use crate::service::state::{Effects, Ended, Run, Running, State};
use crate::service::withdraw::Withdrawn;

/// Where the threads of a pool wait.
#[derive(Default)]
pub(crate) struct Signals {
    /// Workers with nothing to do sleep here,
    news: Condvar,
    /// here workers that would take a job early,
    patient: Condvar,
    /// and here workers that are not wanted at present.
    change: Condvar,
}

/// How many workers sleep and were not woken since. The number may be too great, since a sleeper may wake by itself.
#[derive(Default)]
pub(crate) struct Sleeping(u32);

/// The workers that are woken after a call.
#[derive(PartialEq, Eq)]
pub(crate) enum Wakes {
    /// All that sleep, wanted or not.
    All,
    Some {
        workers: u32,
        patient: bool,
    },
}

impl Payload for BoxedJob {
    type Workers = Sleeping;
    type Signals = Signals;
    type Effects = Wakes;

    fn serve(state: &mut State<Self>, _: u64) -> Wakes {
        let patient = mem::take(&mut state.has_news) && state.patience.waiting > 0;
        let fresh = mem::take(&mut state.fresh) + u32::from(mem::take(&mut state.patience.passes_on));
        if mem::take(&mut state.has_changed) || state.is_closed && state.waiting == 0 {
            state.workers.0 = 0;
            return Wakes::All;
        }
        let workers = fresh.min(state.workers.0);
        state.workers.0 -= workers;
        Wakes::Some { workers, patient }
    }

    fn carry_out(shared: &Arc<Shared<Self>>, wakes: Wakes) {
        let signals = &shared.signals;
        match wakes {
            Wakes::All => {
                signals.news.notify_all();
                signals.patient.notify_all();
                signals.change.notify_all();
            }
            Wakes::Some { workers, patient } => {
                (0..workers).for_each(|_| signals.news.notify_one());
                if patient {
                    signals.patient.notify_all();
                }
            }
        }
    }

    fn withdraw(self, why: Withdrawn) {
        caught(|| Job::withdraw(self, why)); // a value of the job may panic as it is dropped
    }
}

impl Effects<BoxedJob> {
    fn is_none(&self) -> bool {
        let wakes = self.workers != Wakes::Some { workers: 0, patient: false } || self.wakes_journal;
        let is_kept = self.over.is_empty() && self.withdrawn.is_empty() && self.events.is_empty();
        !wakes && self.ahead.is_none() && self.alarm.is_none() && is_kept
    }
}

impl Shared<BoxedJob> {
    /// Notes the job that the worker has ended, and returns the next; none where the worker is to end. The worker
    /// sleeps while there is no job for it.
    fn next(self: &Arc<Self>, worker: u32, ended: Option<(Reading, Ended)>) -> Option<Run<BoxedJob>> {
        // the next job is taken at the end of the last
        let mut at = ended.as_ref().map_or_else(|| self.reading(), |(at, _)| *at);
        let mut free = Free::new(worker, at.moment);
        let mut state = self.lock();
        if let Some((_, ended)) = ended {
            state.done(worker, &ended);
        }
        loop {
            let step = state.step(at, &mut free);
            let effects = state.effects(at.moment);
            let until = match step {
                Step::Leave(run) => {
                    drop(state);
                    self.carry_out(effects);
                    return run;
                }
                Step::Wait(until) => Some(until),
                Step::Sleep => None,
            };
            if effects.is_none() {
                state = match until {
                    Some(until) => self.wait(state, until),
                    None => self.sleep(state, worker),
                };
            } else {
                drop(state);
                self.carry_out(effects);
                state = self.lock();
            }
            at = self.reading();
        }
    }

    fn sleep<'a>(&'a self, mut state: MutexGuard<'a, State<BoxedJob>>, worker: u32) -> MutexGuard<'a, State<BoxedJob>> {
        let is_wanted = worker < state.rolling.workers;
        state.workers.0 += u32::from(is_wanted);
        let news = if is_wanted { &self.signals.news } else { &self.signals.change };
        news.wait(state).unwrap_or_else(PoisonError::into_inner)
    }

    /// Waits until there is news, and until this moment at most. All news wakes all patient workers: they are few, and
    /// only the scheduler knows for which a job is eligible.
    fn wait<'a>(&'a self, mut state: MutexGuard<'a, State<BoxedJob>>, until: u64) -> MutexGuard<'a, State<BoxedJob>> {
        let left = Duration::from_micros(until.saturating_sub(self.moment()));
        state.patience.waiting += 1;
        let (mut state, _) = self.signals.patient.wait_timeout(state, left).unwrap_or_else(PoisonError::into_inner);
        state.patience.waiting -= 1;
        state
    }
}

/// A worker, and the job that its thread runs.
struct Course {
    shared: Arc<Shared<BoxedJob>>,
    worker: u32,
    job: Option<Current>,
}

struct Current {
    request: Running,
    begun: Reading,
    reported: u64,
    /// The moment of the take, or of the last report.
    last: u64,
}

thread_local! {
    static COURSE: RefCell<Option<Course>> = const { RefCell::new(None) };
}

/// Notes the job that the thread runs, and returns the job before.
fn exchange(job: Option<Current>) -> Option<Current> {
    COURSE.with_borrow_mut(|course| mem::replace(&mut course.as_mut()?.job, job))
}

/// Runs jobs until the pool has no more for this worker.
pub(crate) fn work(shared: Arc<Shared<BoxedJob>>, worker: u32) {
    COURSE.set(Some(Course { shared: shared.clone(), worker, job: None }));
    let mut ended = None;
    while let Some(run) = shared.next(worker, ended.take()) {
        ended = Some(perform(&shared, run));
    }
}

/// Runs a job, and measures it from its take on. So all the time between the ends of two jobs is charged, and a flood
/// of short jobs pays for all the time that it keeps its workers busy.
fn perform(shared: &Shared<BoxedJob>, run: Run<BoxedJob>) -> (Reading, Ended) {
    let Run { payload, request, begun } = run;
    exchange(Some(Current { request, begun, reported: 0, last: begun.moment }));
    // the job catches its own panic; its result or the panic's payload may panic too as it is dropped
    let panicked = caught(|| payload.run()).unwrap_or(true);
    let reported = exchange(None).map_or(0, |current| current.reported);
    let at = shared.reading();
    let cost = at.since(&begun).max(reported);
    (at, Ended { request, moment: at.moment, cost, panicked })
}

/// Reports the use so far of the job that calls it, so that a long job is charged while it runs and not only at its
/// end. A job may call it as often as it likes: most calls only read the clock (see `Builder::refresh`). Outside of a
/// job it does nothing.
///
/// ```
/// use twodfq::{KindId, Pool};
///
/// let pool = Pool::builder().tenant("acme", 1).open().unwrap();
/// let sum = pool.submit("acme", KindId::FIRST, || {
///     (0..1_000_000_u64).inspect(|i| if i % 1000 == 0 { twodfq::tick() }).sum::<u64>()
/// });
/// assert_eq!(sum.unwrap().join().unwrap(), 499_999_500_000);
/// ```
pub fn tick() {
    let report = COURSE.with_borrow_mut(|course| {
        let Course { shared, worker, job: Some(job) } = course.as_mut()? else { return None };
        let now = Instant::now();
        let moment = shared.clock.moment(now);
        if Duration::from_micros(moment - job.last) < shared.refresh {
            return None;
        }
        job.last = moment;
        job.reported = shared.clock.reading(now).since(&job.begun);
        Some((shared.clone(), *worker, job.request, job.reported))
    });
    if let Some((shared, worker, request, used)) = report {
        shared.call(|state, moment| state.report(moment, worker, &request, used));
    }
}
