//! Events of requests, for a hook.
use std::fmt;
use std::sync::Arc;
use std::time::Duration;

use super::cause::Cause;
use super::panics::caught;
use super::settings::Settings;
use super::withdraw::Withdrawn;

/// A request, as a hook sees it.
///
/// ```
/// use twodfq::{Hook, Traced};
///
/// struct Prints;
///
/// impl Hook for Prints {
///     fn submitted(&self, request: Traced) {
///         println!("request {} of {}, a {}", request.number, request.tenant, request.kind);
///     }
/// }
/// ```
#[derive(Clone, Copy, Debug, PartialEq, Eq)]
#[non_exhaustive]
pub struct Traced<'a> {
    /// How many requests were accepted before it. A refused request has the number of the next accepted one.
    pub number: u64,
    /// The name of its tenant; empty for a number that no tenant has.
    pub tenant: &'a str,
    /// The name of its kind; empty for a number that no kind has.
    pub kind: &'a str,
}

/// A hook for the events of requests, for tracing. The thread that causes an event calls the hook, and waits for it.
/// Calls of two threads may come in another order than their events. A hook may call the pool itself. Its panic is
/// printed, as any, and goes no further.
///
/// ```
/// use std::sync::atomic::{AtomicU64, Ordering};
/// use std::sync::Arc;
/// use twodfq::{Cause, Hook, KindId, Pool, Traced};
///
/// struct Refusals(Arc<AtomicU64>);
///
/// impl Hook for Refusals {
///     fn refused(&self, request: Traced, cause: Cause) {
///         eprintln!("{}: {cause}", request.tenant);
///         self.0.fetch_add(1, Ordering::Relaxed);
///     }
/// }
///
/// let refusals = Arc::new(AtomicU64::new(0));
/// let pool = Pool::builder().tenant("acme", 1).hook(Refusals(refusals.clone())).open().unwrap();
/// assert!(pool.submit("globex", KindId::FIRST, || ()).is_err());
/// assert_eq!(refusals.load(Ordering::Relaxed), 1);
/// ```
pub trait Hook: Send + Sync {
    /// A request was accepted.
    fn submitted(&self, _request: Traced) {}

    /// A request was refused.
    fn refused(&self, _request: Traced, _cause: Cause) {}

    /// A request begins, after it waited for this time. A pool runs the job after the call.
    fn begun(&self, _request: Traced, _waited: Duration) {}

    /// A request has ended, at this cost in microseconds.
    fn ended(&self, _request: Traced, _cost: u64, _panicked: bool) {}

    /// A request was withdrawn while it waited.
    fn withdrawn(&self, _request: Traced, _why: Withdrawn) {}
}

/// The hook, where there is one.
#[derive(Clone, Default)]
pub(crate) struct Hooked(pub(crate) Option<Arc<dyn Hook>>);

impl fmt::Debug for Hooked {
    fn fmt(&self, f: &mut fmt::Formatter<'_>) -> fmt::Result {
        f.write_str(if self.0.is_some() { "a hook" } else { "none" })
    }
}

/// The name of a request's tenant.
pub(crate) enum Owner {
    /// By its slot, which it keeps.
    Named(u32),
    Other(Arc<str>),
    Unknown,
}

pub(crate) enum What {
    Submitted,
    Refused(Cause),
    Begun { waited: u64 },
    Ended { cost: u64, panicked: bool },
    Withdrawn(Withdrawn),
}

pub(crate) struct Event {
    pub(crate) number: u64,
    pub(crate) owner: Owner,
    pub(crate) kind: u32,
    pub(crate) what: What,
}

impl Event {
    /// Calls the hook, without the lock.
    pub(crate) fn trace(&self, settings: &Settings) {
        let Hooked(Some(hook)) = &settings.hook else { return };
        let tenant = match &self.owner {
            Owner::Named(slot) => settings.tenants.get(*slot).unwrap_or_default(),
            Owner::Other(name) => name,
            Owner::Unknown => "",
        };
        let request = Traced { number: self.number, tenant, kind: settings.kinds.get(self.kind).unwrap_or_default() };
        caught(|| match self.what {
            What::Submitted => hook.submitted(request),
            What::Refused(cause) => hook.refused(request, cause),
            What::Begun { waited } => hook.begun(request, Duration::from_micros(waited)),
            What::Ended { cost, panicked } => hook.ended(request, cost, panicked),
            What::Withdrawn(why) => hook.withdrawn(request, why),
        });
    }
}
