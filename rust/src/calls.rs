//! The requests, replies, entries and status of a scheduler.

/// A request that is submitted.
///
/// ```
/// use twodfq::{Config, Scheduler, Submit};
///
/// let mut scheduler = Scheduler::open(&Config { weights: &[1, 2], ..Config::default() }).unwrap();
/// assert_eq!(scheduler.submit(0, 0, Submit { tenant: 1, kind: 0, declared: 5, label: 42 }), Ok(0));
/// ```
#[derive(Clone, Copy, Debug, PartialEq, Eq)]
pub struct Submit {
    pub tenant: u32,
    pub kind: u32,
    /// The cost that its submitter names.
    pub declared: u64,
    /// Any number, which [`Taken::Run`] and [`Scheduler::withdraw`](crate::Scheduler::withdraw) return.
    pub label: u64,
}

/// The reply to a take.
///
/// ```
/// use twodfq::{Config, Scheduler, Taken};
///
/// let mut scheduler = Scheduler::open(&Config { weights: &[1, 2], ..Config::default() }).unwrap();
/// assert_eq!(scheduler.take(1, 0, 0), Ok(Taken::Idle));
/// ```
#[derive(Clone, Copy, Debug, PartialEq, Eq)]
pub enum Taken {
    /// The worker runs this request from now on.
    Run { request: u32, estimate: u64, label: u64 },
    /// No request waits; more may come.
    Idle,
    /// No request waits, and no more will come.
    Drained,
    /// The worker is not in the pool, which has this number of workers now; it may take again later.
    Retired { workers: u32 },
}

/// A take as [`Scheduler::foresee`](crate::Scheduler::foresee) foresees it.
///
/// ```
/// use twodfq::{Config, Foreseen, Scheduler};
///
/// let mut scheduler = Scheduler::open(&Config { weights: &[1, 2], ..Config::default() }).unwrap();
/// assert_eq!(scheduler.foresee(0, 0, 0), Ok(Foreseen::Nothing));
/// ```
#[derive(Clone, Copy, Debug, PartialEq, Eq)]
pub enum Foreseen {
    /// No request waits, whether or not more may come.
    Nothing,
    /// The worker would run this request, charged this estimate. Where it is not eligible for the worker no tenant's
    /// head is, and it would be taken early. `has_smaller` says whether the head of some tenant is eligible for the
    /// worker and has an estimate below the one that was asked about.
    Run { request: u32, tenant: u32, kind: u32, estimate: u64, is_eligible: bool, has_smaller: bool },
    /// The worker is not in the pool, which has this number of workers now.
    Retired { workers: u32 },
}

/// The act of an accepted call.
///
/// ```
/// use twodfq::{Config, Scheduler, Act};
///
/// let mut scheduler = Scheduler::open(&Config { weights: &[1, 2], ..Config::default() }).unwrap();
/// scheduler.weight(0, 0, 1, 7).unwrap();
/// assert_eq!(scheduler.entry(0).unwrap().act, Act::Weight { tenant: 1, weight: 7 });
/// ```
#[derive(Clone, Copy, Debug, PartialEq, Eq)]
pub enum Act {
    Submit { request: u32, tenant: u32, kind: u32, declared: u64, label: u64 },
    Take { worker: u32, request: u32, estimate: u64 },
    Report { worker: u32, request: u32, used: u64 },
    Done { worker: u32, request: u32, cost: u64 },
    Close,
    Weight { tenant: u32, weight: u32 },
    Workers { count: u32 },
    Withdraw { request: u32 },
}

/// An entry of the history: the caller, the moment at which its call took effect, and the act.
///
/// ```
/// use twodfq::{Config, Scheduler, Act, Entry};
///
/// let mut scheduler = Scheduler::open(&Config { weights: &[1, 2], ..Config::default() }).unwrap();
/// scheduler.close(9, 5).unwrap();
/// assert_eq!(scheduler.entry(0), Some(Entry { who: 9, moment: 5, act: Act::Close }));
/// ```
#[derive(Clone, Copy, Debug, PartialEq, Eq)]
pub struct Entry {
    pub who: u32,
    pub moment: u64,
    pub act: Act,
}

/// The status of a scheduler after its last entry.
///
/// ```
/// use twodfq::{Config, Scheduler, Standing};
///
/// let mut scheduler = Scheduler::open(&Config { weights: &[1, 2], ..Config::default() }).unwrap();
/// scheduler.close(0, 7).unwrap();
/// let standing = Standing { entries: 1, moment: 7, virtual_time: 0, waiting: 0, running: 0 };
/// assert_eq!(scheduler.status(), standing);
/// ```
#[derive(Clone, Copy, Debug, PartialEq, Eq)]
pub struct Standing {
    /// How many entries the history has.
    pub entries: u64,
    /// The moment of the last entry, or 0.
    pub moment: u64,
    /// Virtual time at that moment, in steps, of which a unit has 1,048,576.
    pub virtual_time: u128,
    /// How many requests wait.
    pub waiting: u32,
    /// How many requests run.
    pub running: u32,
}
