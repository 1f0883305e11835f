//! The time that a job has used.
use std::time::{Duration, Instant};

use crate::config::GREATEST_COST;
use crate::ffi;

/// By which clock a job's cost is measured, from the moment at which its worker takes it: at least one microsecond, and
/// at most 1,000 seconds.
///
/// ```
/// use twodfq::{KindId, Measure, Pool};
///
/// let pool = Pool::builder().tenant("acme", 1).measure(Measure::Processor).open().unwrap();
/// pool.submit("acme", KindId::FIRST, || ()).unwrap().join().unwrap();
/// ```
#[derive(Clone, Copy, Debug, PartialEq, Eq)]
pub enum Measure {
    /// The time that passes, so that a job which sleeps pays for the worker that it holds.
    Wall,
    /// The processor time of the worker's thread, so that a job pays while it computes, and not while it sleeps.
    Processor,
}

/// A clock that began with its pool.
#[derive(Clone, Copy, Debug)]
pub(crate) struct Clock {
    pub(crate) start: Instant,
    pub(crate) measure: Measure,
}

impl Clock {
    /// The moment of a call, in microseconds since the pool was opened.
    pub(crate) fn moment(&self, now: Instant) -> u64 {
        now.duration_since(self.start).as_micros() as u64
    }

    /// The last moment by a deadline; none beyond the range of moments.
    pub(crate) fn deadline(&self, by: Instant) -> Option<u64> {
        u64::try_from(by.duration_since(self.start).as_micros()).ok().filter(|moment| *moment < u64::MAX)
    }

    /// The time of a moment, where the system's clock has it.
    pub(crate) fn instant(&self, moment: u64) -> Option<Instant> {
        self.start.checked_add(Duration::from_micros(moment))
    }

    pub(crate) fn reading(&self, now: Instant) -> Reading {
        let used = match self.measure {
            Measure::Wall => now.duration_since(self.start).as_nanos() as u64,
            Measure::Processor => ffi::thread_time(),
        };
        Reading { moment: self.moment(now), used }
    }
}

/// The moment, and the time that the calling thread has used by then, in nanoseconds by the pool's measure.
#[derive(Clone, Copy, Debug)]
pub(crate) struct Reading {
    pub(crate) moment: u64,
    used: u64,
}

impl Reading {
    /// A reading by the time that passes.
    pub(crate) fn wall(moment: u64) -> Reading {
        Reading { moment, used: moment * 1000 }
    }

    /// The use since an earlier reading of the thread, in microseconds: at least one, since a tenant whose work costs
    /// nothing would keep all others waiting.
    pub(crate) fn since(&self, begun: &Reading) -> u64 {
        self.used.saturating_sub(begun.used).div_ceil(1000).clamp(1, GREATEST_COST)
    }
}
