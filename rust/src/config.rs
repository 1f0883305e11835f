//! The configuration of a scheduler, and its limits.

/// The most workers of a scheduler.
pub(crate) const MOST_WORKERS: u32 = 4096;

/// The most tenants.
pub(crate) const MOST_TENANTS: u32 = 65_536;

/// The greatest weight of a tenant; the least is 1.
pub(crate) const GREATEST_WEIGHT: u32 = 100_000;

/// The most kinds.
pub(crate) const MOST_KINDS: u32 = 64;

/// The most pairs of a tenant and a kind.
pub(crate) const MOST_PAIRS: u32 = 1_048_576;

/// The least room that a history may have.
pub(crate) const LEAST_ENTRIES: u32 = 4;

/// The most entries of a history that is kept whole.
pub(crate) const MOST_WHOLE_ENTRIES: u32 = 4_194_304;

/// The most entries of a history of which the last are kept.
pub(crate) const MOST_ENTRIES: u32 = 4_000_000_000;

/// The most requests that may wait at once.
pub(crate) const MOST_REQUESTS: u32 = 1_048_576;

/// The greatest cost of a request, in microseconds.
pub(crate) const GREATEST_COST: u64 = 1_000_000_000;

/// Which waiting request a worker takes.
///
/// ```
/// use twodfq::{Config, Policy};
///
/// let config = Config { policy: Policy::Wf2q, ..Config::default() };
/// assert!(twodfq::Scheduler::open(&config).is_ok());
/// ```
#[derive(Clone, Copy, Debug, Default, PartialEq, Eq)]
pub enum Policy {
    /// The least finish tag.
    Wfq,
    /// The least finish tag of the heads that have started in virtual time.
    Wf2q,
    /// As `Wf2q`, with starts by the virtual charge and the idle time of a tenant.
    Msf2q,
    /// As `Wf2q`, with eligible keys that differ from worker to worker.
    TwoDfq,
    /// As `TwoDfq`, with a virtual time that counts a tenant as long as its start is above it, that has a cap, and that
    /// takes may lift.
    #[default]
    TwoDfqPlus,
}

/// The estimator of a request's cost.
///
/// ```
/// use twodfq::{Config, Estimator};
///
/// let config = Config { estimate: Estimator::Recent, ..Config::default() };
/// assert!(twodfq::Scheduler::open(&config).is_ok());
/// ```
#[derive(Clone, Copy, Debug, PartialEq, Eq)]
pub enum Estimator {
    /// The declared cost.
    Declared,
    /// The mean of the last eight costs of its tenant and kind.
    Recent,
    /// The greatest of the costs of its tenant and kind, which decay.
    Pessimistic,
}

/// The configuration of a scheduler.
///
/// ```
/// use twodfq::Config;
///
/// let config = Config { workers: 8, weights: &[1, 1, 5], ..Config::default() };
/// assert!(twodfq::Scheduler::open(&config).is_ok());
/// ```
#[derive(Clone, Copy, Debug)]
pub struct Config<'a> {
    /// 1 to 4,096.
    pub workers: u32,
    /// One weight a tenant, each 1 to 100,000; 1 to 65,536 tenants.
    pub weights: &'a [u32],
    /// 1 to 64; tenants times kinds is at most 1,048,576.
    pub kinds: u32,
    /// How many entries the history may have: 4 to 4,194,304, and up to 4,000,000,000 where `keep` is not 0. A request
    /// takes three, and each report one.
    pub entries: u32,
    /// How many requests may wait at once: 1 to 1,048,576.
    pub requests: u32,
    pub policy: Policy,
    pub estimate: Estimator,
    /// The estimate before any completion: 1 to 1,000,000,000.
    pub initial: u64,
    /// How many of the last entries can be read; 0, and any number above `entries`, keeps all.
    pub keep: u32,
}

/// Four workers, one tenant and kind, 1,000,000 entries, 10,000 requests, `Policy::default()`, `Pessimistic`, 1,000
/// microseconds; all entries are kept.
impl Default for Config<'_> {
    fn default() -> Self {
        Config {
            workers: 4,
            weights: &[1],
            kinds: 1,
            entries: 1_000_000,
            requests: 10_000,
            policy: Policy::default(),
            estimate: Estimator::Pessimistic,
            initial: 1000,
            keep: 0,
        }
    }
}
