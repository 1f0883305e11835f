//! Patience: a free worker that would have to take a job before its time waits a little, so that it takes a cheap job
//! that comes meanwhile.
use super::clock::Reading;
use super::shared::Payload;
use super::state::{Run, State};

/// How many microseconds longer a sleep lasts than it was asked to: the kernel's own slack of 50, and the waking.
/// No worker sleeps where less than that is left, and each asks for that much less. By measurement 55 to 70.
const SLEEP: u64 = 60;

/// For how many microseconds of every worker's work the pool saves up the time that its workers may wait.
const SAVED: f64 = 1e6;

/// A worker from the moment at which it became free.
pub(crate) struct Free {
    worker: u32,
    since: u64,
    /// Whether it has waited when it asked last,
    is_patient: bool,
    /// and then since when, and how long it may wait.
    wait: Option<(u64, u64)>,
}

impl Free {
    pub(crate) fn new(worker: u32, since: u64) -> Free {
        Free { worker, since, is_patient: false, wait: None }
    }
}

/// The next step of a free worker.
pub(crate) enum Step<P> {
    /// It runs a job, or ends where nothing more will come for it.
    Leave(Option<Run<P>>),
    /// It waits until this moment at most, for a job whose time has come.
    Wait(u64),
    /// It sleeps until there is a job for it.
    Sleep,
}

/// The patience of a pool's workers, and its counts since the opening.
#[derive(Clone, Copy)]
pub(crate) struct Patience {
    /// The part of its time that the pool may lose, and the part of a job's estimate that a worker waits before it
    /// takes the job early.
    part: f64,
    /// How long workers may still wait, in microseconds, without the time of the workers that wait now. Each job that
    /// ends adds its part.
    spare: f64,
    /// How many workers wait now.
    pub(crate) waiting: u32,
    /// Whether a worker began to wait in this call. Its wake-up then goes to another, which may find the job due.
    pub(crate) passes_on: bool,
    /// How many jobs were taken before their time.
    pub(crate) early: u64,
    pub(crate) waits: u64,
    /// How long workers have waited, in microseconds.
    pub(crate) microseconds: u64,
}

impl Patience {
    pub(crate) fn new(part: f64, workers: u32) -> Patience {
        let spare = part * SAVED * f64::from(workers);
        Patience { part, spare, waiting: 0, passes_on: false, early: 0, waits: 0, microseconds: 0 }
    }

    fn is_on(&self) -> bool {
        self.part > 0.0
    }

    /// A job of this cost has ended.
    pub(crate) fn earn(&mut self, cost: u64, workers: u32) {
        let most = self.part * SAVED * f64::from(workers);
        self.spare = most.min(self.spare + self.part * cost as f64);
    }

    /// How long the worker may wait from this moment on for another job than one of this estimate: none where that is
    /// not worth a sleep. It counts from the moment at which the worker became free, whatever jobs it finds meanwhile.
    fn allows(&self, moment: u64, since: u64, estimate: u64) -> Option<u64> {
        let last = since + (self.part * estimate as f64) as u64;
        let time = last.saturating_sub(moment).min(self.spare.max(0.0) as u64);
        (time > SLEEP).then_some(time)
    }

    /// Until when the worker waits, where it would take a job of this estimate early, and may wait.
    pub(crate) fn wait(&mut self, free: &mut Free, moment: u64, early: Option<u64>) -> Option<u64> {
        let time = early.and_then(|estimate| self.allows(moment, free.since, estimate));
        match time {
            Some(time) => self.begin(free, moment, time),
            None => free.is_patient = false,
        }
        time.map(|time| moment + time - SLEEP)
    }

    /// The worker begins to wait, or goes on.
    fn begin(&mut self, free: &mut Free, moment: u64, time: u64) {
        if !free.is_patient {
            self.waits += 1;
            self.passes_on = true;
        }
        self.spare -= time as f64;
        free.is_patient = true;
        free.wait = Some((moment, time));
    }

    /// Notes how long the worker has waited since it asked last, if it has.
    pub(crate) fn settle(&mut self, free: &mut Free, moment: u64) {
        let Some((begun, time)) = free.wait.take() else { return };
        let waited = moment.saturating_sub(begun);
        self.microseconds += waited;
        self.spare += time as f64 - waited as f64;
    }
}

impl<P: Payload> State<P> {
    /// The step of the free worker at this moment.
    pub(crate) fn step(&mut self, at: Reading, free: &mut Free) -> Step<P> {
        self.expire();
        self.patience.settle(free, at.moment);
        let is_wanted = free.worker < self.rolling.workers;
        let early = if is_wanted { self.early(at.moment, free.worker) } else { None };
        if let Some(until) = self.patience.wait(free, at.moment, early) {
            return Step::Wait(until);
        }
        let run = if is_wanted { self.take(at, free.worker) } else { None };
        self.patience.early += u64::from(early.is_some() && run.is_some());
        let is_over = self.is_closed && (self.waiting == 0 || !is_wanted);
        if run.is_some() || is_over {
            Step::Leave(run)
        } else {
            Step::Sleep
        }
    }

    /// The estimate of the job that the worker would take before its time, where a tenant may gain by its patience:
    /// none does where one tenant alone has jobs in the pool.
    pub(crate) fn early(&mut self, moment: u64, worker: u32) -> Option<u64> {
        let may_gain = self.patience.is_on() && self.open_tenants > 1 && !self.is_closed;
        if may_gain {
            self.rolling.early(moment, worker)
        } else {
            None
        }
    }
}
