//! Jobs on a pool of which everything changes: workers, weights, tenants, schedulers.
use std::hint;
use std::sync::atomic::{AtomicU32, Ordering};
use std::sync::Arc;
use std::thread;
use std::time::{Duration, Instant};

use twodfq::{tick, Cause, Handle, JoinError, KindId, Pool, Terms};

use crate::names::{Names, STAY};
use crate::random::Random;
use crate::tally::Tally;
use crate::{Fault, LOST_AFTER};

/// The number of threads that submit.
pub const THREADS: u64 = 16;

/// The greatest number of workers.
pub const MOST_WORKERS: u32 = 64;

/// The number of jobs that a thread submits before it checks their results.
const BATCH: usize = 32;

/// A pool whose schedulers last for some thousand jobs each, and that refuses some jobs.
pub fn open() -> Result<Pool, Fault> {
    let builder = STAY.iter().fold(Pool::builder(), |builder, (name, weight)| builder.tenant(name, *weight));
    let builder = builder.most_tenants(64).kind("get").kind("scan").most_running(40).kind_most_running("scan", 20);
    Ok(builder.workers(8).most_workers(MOST_WORKERS).room(400).entries(20_000).keep(0).open()?)
}

/// Submits jobs until the end, and checks the result of each.
pub fn submit(pool: &Pool, names: &Names, mut random: Random, end: Instant) -> Result<Tally, Fault> {
    let mut tally = Tally::default();
    while Instant::now() < end {
        let mut jobs = Vec::with_capacity(BATCH);
        for _ in 0..BATCH {
            jobs.extend(Job::submit(pool, &names.name(&mut random), &mut random, &mut tally)?);
        }
        jobs.iter_mut().filter(|_| random.percent(15)).for_each(Job::cancel);
        jobs.into_iter().try_for_each(|job| job.check(&mut tally))?;
        thread::sleep(random.microseconds(2000));
    }
    Ok(tally)
}

struct Job {
    handle: Handle<()>,
    /// The number of times it ran.
    runs: Arc<AtomicU32>,
    is_cancelled: bool,
}

impl Job {
    /// None where it is refused.
    fn submit(pool: &Pool, tenant: &str, random: &mut Random, tally: &mut Tally) -> Result<Option<Job>, Fault> {
        let runs = Arc::new(AtomicU32::new(0));
        let (kind, work, counter) = (KindId::new(random.below(2) as u32), random.below(100), runs.clone());
        let mut terms = Terms::default();
        if random.percent(10) {
            terms = terms.deadline(Instant::now() + random.microseconds(3000));
        }
        let submitted = pool.submit_with(tenant, kind, terms, move || {
            counter.fetch_add(1, Ordering::SeqCst);
            run(work);
        });
        match submitted.map_err(|rejected| rejected.cause) {
            Ok(handle) => return Ok(Some(Job { handle, runs, is_cancelled: false })),
            Err(Cause::Late) => tally.late += 1,
            Err(Cause::TenantFull(_) | Cause::TooManyWait(_) | Cause::NoSlot) => tally.refused += 1,
            Err(other) => return Err(other.into()),
        }
        Ok(None)
    }

    fn cancel(&mut self) {
        self.is_cancelled = self.handle.cancel();
    }

    /// Checks that it ran once, or was cancelled or late and never ran.
    fn check(self, tally: &mut Tally) -> Result<(), Fault> {
        let result = self.handle.join_timeout(LOST_AFTER).map_err(|handle| format!("a job waits on: {handle:?}"))?;
        let (count, wanted) = match result {
            Ok(()) => (&mut tally.done, 1),
            Err(JoinError::Panicked(_)) => (&mut tally.panicked, 1),
            Err(JoinError::Cancelled) => (&mut tally.cancelled, 0),
            Err(JoinError::Late) => (&mut tally.late, 0),
            Err(other) => return Err(other.into()),
        };
        *count += 1;
        let runs = self.runs.load(Ordering::SeqCst);
        if runs != wanted || self.is_cancelled != (result == Err(JoinError::Cancelled)) {
            return Err(
                format!("a job ran {runs} times, cancelled: {}, and ended as {result:?}", self.is_cancelled).into()
            );
        }
        Ok(())
    }
}

/// The work of a job, by a number below 100.
fn run(work: u64) {
    match work {
        0..70 => {}
        70..90 => spin(Duration::from_micros(100)),
        90..98 => thread::sleep(Duration::from_micros(500)),
        _ => panic!("{}", crate::PANIC),
    }
}

/// Keeps the processor busy, and reports on the way.
fn spin(time: Duration) {
    let begun = Instant::now();
    while begun.elapsed() < time {
        hint::spin_loop();
        tick();
    }
}
