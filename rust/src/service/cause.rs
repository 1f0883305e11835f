//! Why a pool refuses.
use std::error::Error;
use std::fmt;
use std::io;

use super::ids::KindId;
use crate::config::GREATEST_WEIGHT;
use crate::{OpenFault, Refusal};

/// Why a job or a change is refused. Nothing has changed then.
///
/// ```
/// use twodfq::{Cause, KindId, Pool};
///
/// let pool = Pool::builder().tenant("acme", 1).open().unwrap();
/// assert_eq!(pool.submit("globex", KindId::FIRST, || ()).unwrap_err().cause, Cause::NoTenant);
/// assert_eq!(pool.weight("acme", 0), Err(Cause::Weight(0)));
/// pool.close();
/// let cause = pool.submit("acme", KindId::FIRST, || ()).unwrap_err().cause;
/// assert_eq!(cause.to_string(), "the pool is closed");
/// ```
#[derive(Clone, Copy, Debug, PartialEq, Eq)]
#[non_exhaustive]
pub enum Cause {
    /// The pool is closed.
    Closed,
    /// As many requests wait as may, which is this number.
    TooManyWait(u32),
    /// This number of the tenant's requests wait, and no more may (see [`Builder::room`](crate::Builder::room)).
    TenantFull(u32),
    /// There is no tenant of this name or number, or its slot has gone to another tenant.
    NoTenant,
    /// All slots are in use, by tenants with requests (see [`Builder::most_tenants`](crate::Builder::most_tenants)).
    NoSlot,
    /// A name that is not 1 to 256 bytes long.
    Name,
    /// There is no kind of this number.
    Kind(KindId),
    /// A declared cost that is not 1 to 1,000,000,000.
    Cost(u64),
    /// A weight that is not 1 to 100,000.
    Weight(u32),
    /// A number of workers that is 0, or more than the pool may have.
    Workers(u32),
    /// The deadline has passed.
    Late,
    /// No permit is free for the request.
    NoneFree,
    /// There is no memory for the next scheduler.
    NoMemory,
    /// The thread that keeps deadlines was not started.
    NoThread,
}

/// The labels of the causes for which requests are refused, in the order of their counts.
pub(crate) const LABELS: [&str; 11] = [
    "closed",
    "too_many_wait",
    "tenant_full",
    "no_tenant",
    "no_slot",
    "name",
    "kind",
    "cost",
    "late",
    "none_free",
    "no_memory",
];

impl Cause {
    /// The value of the label `cause` in the text for Prometheus.
    ///
    /// ```
    /// assert_eq!(twodfq::Cause::TenantFull(20).label(), "tenant_full");
    /// ```
    pub fn label(&self) -> &'static str {
        match self {
            Cause::Closed => "closed",
            Cause::TooManyWait(_) => "too_many_wait",
            Cause::TenantFull(_) => "tenant_full",
            Cause::NoTenant => "no_tenant",
            Cause::NoSlot => "no_slot",
            Cause::Name => "name",
            Cause::Kind(_) => "kind",
            Cause::Cost(_) => "cost",
            Cause::Late => "late",
            Cause::NoneFree => "none_free",
            Cause::NoMemory => "no_memory",
            Cause::Weight(_) => "weight",
            Cause::Workers(_) => "workers",
            Cause::NoThread => "no_thread",
        }
    }

    /// The cause of a refusal by the library. The pool calls it in range, and keeps room for its calls.
    pub(crate) fn of(refusal: Refusal) -> Cause {
        match refusal {
            Refusal::Closed => Cause::Closed,
            Refusal::Tenant(_) => Cause::NoTenant,
            Refusal::Kind(kind) => Cause::Kind(KindId(kind)),
            Refusal::Cost(cost) => Cause::Cost(cost),
            Refusal::Slots(slots) => Cause::TooManyWait(slots),
            Refusal::Weight(weight) => Cause::Weight(weight),
            Refusal::Workers(count) => Cause::Workers(count),
            Refusal::Full(_) => Cause::NoMemory,
            other => unreachable!("a pool makes no call that is refused so: {other}"),
        }
    }
}

impl fmt::Display for Cause {
    fn fmt(&self, f: &mut fmt::Formatter<'_>) -> fmt::Result {
        match self {
            Cause::Closed => write!(f, "the pool is closed"),
            Cause::TooManyWait(room) => write!(f, "{room} requests wait, and no more may"),
            Cause::TenantFull(waiting) => write!(f, "{waiting} requests of the tenant wait, and no more of it may"),
            Cause::NoTenant => write!(f, "there is no such tenant"),
            Cause::NoSlot => write!(f, "as many tenants have requests as may"),
            Cause::Name => write!(f, "a name has 1 to 256 bytes"),
            Cause::Kind(KindId(kind)) => write!(f, "no kind has the number {kind}"),
            Cause::Cost(cost) => write!(f, "a declared cost of {cost} microseconds is out of its range"),
            Cause::Weight(weight) => write!(f, "a weight of {weight}, and it may be 1 to {GREATEST_WEIGHT}"),
            Cause::Workers(count) => write!(f, "{count} workers, and there may be 1 to as many as at the opening"),
            Cause::Late => write!(f, "the deadline has passed"),
            Cause::NoneFree => write!(f, "no permit is free"),
            Cause::NoMemory => write!(f, "no memory for the next scheduler"),
            Cause::NoThread => write!(f, "the thread that keeps deadlines was not started"),
        }
    }
}

impl Error for Cause {}

/// A job that was refused, and the cause.
///
/// ```
/// use twodfq::{KindId, Pool};
///
/// let pool = Pool::builder().tenant("acme", 1).open().unwrap();
/// pool.close();
/// let rejected = pool.submit("acme", KindId::FIRST, || 42).unwrap_err();
/// assert_eq!(rejected.to_string(), "the pool is closed");
/// assert_eq!((rejected.job)(), 42); // the job is the caller's again
/// ```
pub struct Rejected<F> {
    /// The job, as it was handed in.
    pub job: F,
    /// The cause of the refusal.
    pub cause: Cause,
}

impl<F> fmt::Debug for Rejected<F> {
    fn fmt(&self, f: &mut fmt::Formatter<'_>) -> fmt::Result {
        f.debug_struct("Rejected").field("cause", &self.cause).finish_non_exhaustive()
    }
}

impl<F> fmt::Display for Rejected<F> {
    fn fmt(&self, f: &mut fmt::Formatter<'_>) -> fmt::Result {
        self.cause.fmt(f)
    }
}

impl<F> Error for Rejected<F> {}

/// Why no pool is opened.
///
/// ```
/// use twodfq::{BuildFault, OpenFault, Pool};
///
/// let fault = Pool::builder().open().unwrap_err();
/// assert!(matches!(fault, BuildFault::Scheduler(OpenFault::Tenants)));
/// let fault = Pool::builder().tenant("a b", 1).open().unwrap_err();
/// assert_eq!(fault.to_string(), "`a b` is no name: 1 to 64 letters, digits, `_`, `-` and `.`");
/// ```
#[derive(Debug)]
#[non_exhaustive]
pub enum BuildFault {
    /// A text that is no name of a tenant or a kind.
    Name(String),
    /// The name of an earlier tenant, or of an earlier kind.
    Twice(String),
    /// Fewer entries than the 16 that a pool asks for.
    Entries(u32),
    /// More workers than there may be at most.
    Workers(u32),
    /// More tenants are named than there may be, which is this number.
    MostTenants(u32),
    /// A limit of 0, which would let no request through.
    Limit,
    /// A limit for a kind that is not named.
    NoKind(String),
    /// A patience that is not 0 to 1.
    Patience(f64),
    /// The first scheduler was not opened.
    Scheduler(OpenFault),
    /// Permits by the processor time of a thread: they measure the time that passes.
    Measure,
    /// A thread was not started.
    Thread(io::Error),
}

impl fmt::Display for BuildFault {
    fn fmt(&self, f: &mut fmt::Formatter<'_>) -> fmt::Result {
        match self {
            BuildFault::Name(name) => write!(f, "`{name}` is no name: 1 to 64 letters, digits, `_`, `-` and `.`"),
            BuildFault::Twice(name) => write!(f, "`{name}` is named twice"),
            BuildFault::Entries(entries) => write!(f, "{entries} entries, and a pool asks for 16 at least"),
            BuildFault::Workers(count) => write!(f, "{count} workers, and it may not have as many"),
            BuildFault::MostTenants(most) => write!(f, "more tenants are named than {most}, and no more may be"),
            BuildFault::NoKind(name) => write!(f, "a limit for `{name}`, and no kind has this name"),
            BuildFault::Limit => write!(f, "a limit of 0, which lets no request through"),
            BuildFault::Patience(part) => write!(f, "a patience of {part}, and it may be 0 to 1"),
            BuildFault::Measure => write!(f, "permits measure the time that passes, and no processor time"),
            BuildFault::Scheduler(fault) => fault.fmt(f),
            BuildFault::Thread(fault) => write!(f, "a thread was not started: {fault}"),
        }
    }
}

impl Error for BuildFault {
    fn source(&self) -> Option<&(dyn Error + 'static)> {
        match self {
            BuildFault::Scheduler(fault) => Some(fault),
            BuildFault::Thread(fault) => Some(fault),
            _ => None,
        }
    }
}
