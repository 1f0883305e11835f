//! Why a call is refused, and why no scheduler is opened.
use std::error::Error;
use std::fmt;

use crate::config::{
    GREATEST_COST, GREATEST_WEIGHT, LEAST_ENTRIES, MOST_ENTRIES, MOST_KINDS, MOST_PAIRS, MOST_REQUESTS, MOST_TENANTS,
    MOST_WHOLE_ENTRIES, MOST_WORKERS,
};
use crate::ffi::Reply;

/// Why a call is refused, with the numbers concerned. Nothing has changed then.
///
/// ```
/// use twodfq::{Config, Scheduler, Refusal};
///
/// let mut scheduler = Scheduler::open(&Config::default()).unwrap();
/// let refusal = scheduler.take(0, 0, 9).unwrap_err();
/// assert_eq!(refusal, Refusal::Worker(9));
/// assert_eq!(refusal.to_string(), "no worker has the number 9");
/// ```
#[derive(Clone, Copy, Debug, PartialEq, Eq)]
pub enum Refusal {
    /// The history is closed.
    Closed,
    /// No tenant has this number.
    Tenant(u32),
    /// No kind has this number.
    Kind(u32),
    /// A cost or a use that is above 1,000,000,000, or a declared one of 0.
    Cost(u64),
    /// As many requests wait as may, which is this number.
    Slots(u32),
    /// The history, which may have this many entries, lacks room for the call and all that must follow it.
    Full(u32),
    /// No worker has this number.
    Worker(u32),
    /// The worker runs this request already.
    Busy(u32),
    /// The worker runs no request.
    NotRunning,
    /// The use or cost `given` is less than `last`, the greatest use reported so far.
    Falling { last: u64, given: u64 },
    /// A weight that is not 1 to 100,000.
    Weight(u32),
    /// A number of workers that is 0, or more than the scheduler was opened with.
    Workers(u32),
    /// No request of this number waits: it was never submitted, or is taken or withdrawn.
    NotWaiting(u32),
}

impl Refusal {
    /// The reply as a refusal, if it is one.
    pub(crate) fn of_reply(reply: &Reply) -> Option<Refusal> {
        let Reply { kind, request, first, second, .. } = *reply;
        Some(match kind {
            0..=9 => return None,
            16 => Refusal::Closed,
            17 => Refusal::Tenant(first as u32),
            18 => Refusal::Kind(first as u32),
            19 => Refusal::Cost(first),
            20 => Refusal::Slots(first as u32),
            21 => Refusal::Full(first as u32),
            22 => Refusal::Worker(first as u32),
            23 => Refusal::Busy(request),
            24 => Refusal::NotRunning,
            25 => Refusal::Falling { last: first, given: second },
            26 => Refusal::Weight(first as u32),
            27 => Refusal::Workers(first as u32),
            28 => Refusal::NotWaiting(request),
            _ => unreachable!("a scheduler that was opened gives no reply of kind {kind}"),
        })
    }
}

impl fmt::Display for Refusal {
    fn fmt(&self, f: &mut fmt::Formatter<'_>) -> fmt::Result {
        match self {
            Refusal::Closed => write!(f, "the history is closed"),
            Refusal::Tenant(tenant) => write!(f, "no tenant has the number {tenant}"),
            Refusal::Kind(kind) => write!(f, "no kind has the number {kind}"),
            Refusal::Cost(cost) => write!(f, "a cost or use of {cost} microseconds is out of its range"),
            Refusal::Slots(slots) => write!(f, "{slots} requests wait, and no more may"),
            Refusal::Full(entries) => write!(f, "the history may have {entries} entries, and lacks room"),
            Refusal::Worker(worker) => write!(f, "no worker has the number {worker}"),
            Refusal::Busy(request) => write!(f, "the worker runs request {request} already"),
            Refusal::NotRunning => write!(f, "the worker runs nothing"),
            Refusal::Falling { last, given } => {
                write!(f, "a use or cost of {given} microseconds, after a use of {last} was reported")
            }
            Refusal::Weight(weight) => write!(f, "a weight of {weight}, and it may be 1 to {GREATEST_WEIGHT}"),
            Refusal::Workers(count) => write!(f, "{count} workers, and there may be 1 to as many as at the opening"),
            Refusal::NotWaiting(request) => write!(f, "request {request} does not wait"),
        }
    }
}

impl Error for Refusal {}

/// Why no scheduler is opened: the first number that is out of its limits, or the lack of memory.
///
/// ```
/// use twodfq::{Config, Scheduler, OpenFault};
///
/// let fault = Scheduler::open(&Config { kinds: 65, ..Config::default() }).unwrap_err();
/// assert_eq!(fault, OpenFault::Kinds);
/// assert_eq!(fault.to_string(), "there may be 1 to 64 kinds");
/// ```
#[derive(Clone, Copy, Debug, PartialEq, Eq)]
pub enum OpenFault {
    NoMemory,
    Workers,
    Tenants,
    Weight,
    Kinds,
    Pairs,
    Entries,
    Requests,
    Initial,
}

impl OpenFault {
    /// The status as a fault, if it is one.
    pub(crate) fn of_status(status: u32) -> Option<OpenFault> {
        Some(match status {
            0 => return None,
            4 => OpenFault::NoMemory,
            16 => OpenFault::Workers,
            17 => OpenFault::Tenants,
            18 => OpenFault::Weight,
            19 => OpenFault::Kinds,
            20 => OpenFault::Pairs,
            21 => OpenFault::Entries,
            22 => OpenFault::Requests,
            23 => OpenFault::Initial,
            _ => unreachable!("an empty handle, a policy and an estimator give no status {status}"),
        })
    }
}

impl fmt::Display for OpenFault {
    fn fmt(&self, f: &mut fmt::Formatter<'_>) -> fmt::Result {
        match self {
            OpenFault::NoMemory => write!(f, "out of memory"),
            OpenFault::Workers => write!(f, "there may be 1 to {MOST_WORKERS} workers"),
            OpenFault::Tenants => write!(f, "there may be 1 to {MOST_TENANTS} tenants"),
            OpenFault::Weight => write!(f, "a weight may be 1 to {GREATEST_WEIGHT}"),
            OpenFault::Kinds => write!(f, "there may be 1 to {MOST_KINDS} kinds"),
            OpenFault::Pairs => write!(f, "there may be {MOST_PAIRS} pairs of a tenant and a kind"),
            OpenFault::Entries => {
                let (least, whole) = (LEAST_ENTRIES, MOST_WHOLE_ENTRIES);
                write!(f, "there may be {least} to {whole} entries, and up to {MOST_ENTRIES} where keep is not 0")
            }
            OpenFault::Requests => write!(f, "there may be 1 to {MOST_REQUESTS} requests that wait"),
            OpenFault::Initial => write!(f, "the initial estimate may be 1 to {GREATEST_COST} microseconds"),
        }
    }
}

impl Error for OpenFault {}
