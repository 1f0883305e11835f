//! Permits: leave to run, for callers that run their requests themselves.
mod acquire;
mod desk;
mod free;
mod permit;

use std::fmt;
use std::io::{self, Write};
use std::sync::Arc;
use std::time::{Duration, Instant};

pub use acquire::Acquire;
pub use permit::Permit;

pub(crate) use desk::{Desk, Seat};

use crate::service::builder::Builder;
use crate::service::cause::Cause;
use crate::service::ids::{KindId, Tenant, TenantId, Terms};
use crate::service::journal::Journal;
use crate::service::place::Place;
use crate::service::requests::Ticket;
use crate::service::shared::Shared;
use crate::service::status::Status;
use crate::service::withdraw::Withdrawn;

/// Permits to run, shared fairly among tenants: a request asks for a permit, waits for its tenant's turn, runs where
/// its caller runs it, and gives the permit back. They take the place of a semaphore in an asynchronous service. A
/// [`Scheduler`](crate::Scheduler) decides whose turn it is, as in a [`Pool`](crate::Pool), and like a pool they have
/// no end.
///
/// Any runtime serves. The only thread is a timekeeper, for deadlines and for the patience (see [`Builder::patience`]).
/// Clones share the permits, and dropping the last clone closes them.
///
/// Permits are numbered. Cheap requests stay on low numbers and costly requests on high ones, so that a tenant with
/// costly requests does not take all permits at once.
///
/// ```
/// use twodfq::{Cause, KindId, Permits};
///
/// async fn handle(permits: Permits, tenant: &str) -> Result<(), Cause> {
///     let permit = permits.acquire(tenant, KindId::FIRST).await?;
///     // the request is run here
///     drop(permit); // it is charged the time for which it was held
///     Ok(())
/// }
///
/// let permits = Permits::builder().workers(8).tenant("acme", 1).tenant("globex", 2).open_permits().unwrap();
/// let answer = handle(permits.clone(), "globex"); // for a runtime to poll
/// # drop(answer);
/// ```
#[derive(Clone)]
pub struct Permits {
    owner: Arc<Owner>,
}

/// All clones share it. A permit that is held does not need it.
struct Owner {
    shared: Arc<Shared<Seat>>,
}

impl Drop for Owner {
    fn drop(&mut self) {
        self.shared.close();
    }
}

impl Permits {
    /// A builder of permits, for [`Builder::open_permits`]. Its number of workers is the number of permits.
    ///
    /// ```
    /// let permits = twodfq::Permits::builder().workers(1000).tenant("acme", 1).open_permits().unwrap();
    /// assert_eq!(permits.status().workers, 1000);
    /// ```
    pub fn builder() -> Builder {
        Builder::new()
    }

    pub(crate) fn start(shared: Arc<Shared<Seat>>) -> io::Result<Permits> {
        if shared.settings.patience > 0.0 {
            shared.start_timer()?;
        }
        Ok(Permits { owner: Arc::new(Owner { shared }) })
    }

    fn shared(&self) -> &Arc<Shared<Seat>> {
        &self.owner.shared
    }

    /// Asks for a permit for a tenant's request of a kind. It declares the initial estimate as its cost.
    ///
    /// ```
    /// use twodfq::{Cause, KindId, Permits};
    ///
    /// let permits = Permits::builder().tenant("acme", 1).open_permits().unwrap();
    /// let permit = permits.acquire("acme", KindId::FIRST).wait().unwrap();
    /// assert_eq!(permits.status().running, 1);
    /// drop(permit);
    /// assert_eq!(permits.acquire("globex", KindId::FIRST).wait().unwrap_err(), Cause::NoTenant);
    /// ```
    pub fn acquire<'a>(&self, tenant: impl Into<Tenant<'a>>, kind: KindId) -> Acquire {
        self.acquire_with(tenant, kind, Terms::default())
    }

    /// Asks for a permit, for a request with a declared cost or a deadline.
    ///
    /// ```
    /// use twodfq::{Estimator, KindId, Permits, Terms};
    ///
    /// let permits = Permits::builder().tenant("acme", 1).estimator(Estimator::Declared).open_permits().unwrap();
    /// let permit = permits.acquire_with("acme", KindId::FIRST, Terms::default().declared(250)).wait().unwrap();
    /// permit.finish(240);
    /// ```
    pub fn acquire_with<'a>(&self, tenant: impl Into<Tenant<'a>>, kind: KindId, terms: Terms) -> Acquire {
        Acquire::new(self.clone(), tenant.into(), kind, terms)
    }

    /// Asks for a permit by this time; after it the request ends as [`Cause::Late`].
    ///
    /// ```
    /// use std::time::{Duration, Instant};
    /// use twodfq::{Cause, KindId, Permits};
    ///
    /// let permits = Permits::builder().workers(1).tenant("acme", 1).open_permits().unwrap();
    /// let _held = permits.acquire("acme", KindId::FIRST).wait().unwrap();
    /// let soon = Instant::now() + Duration::from_millis(5);
    /// assert_eq!(permits.acquire_by("acme", KindId::FIRST, soon).wait().unwrap_err(), Cause::Late);
    /// ```
    pub fn acquire_by<'a>(&self, tenant: impl Into<Tenant<'a>>, kind: KindId, deadline: Instant) -> Acquire {
        self.acquire_with(tenant, kind, Terms::default().deadline(deadline))
    }

    /// Waits for a permit, and blocks the thread meanwhile.
    ///
    /// ```
    /// use twodfq::{KindId, Permits};
    ///
    /// let permits = Permits::builder().tenant("acme", 1).open_permits().unwrap();
    /// let permit = permits.acquire_blocking("acme", KindId::FIRST).unwrap();
    /// ```
    pub fn acquire_blocking<'a>(&self, tenant: impl Into<Tenant<'a>>, kind: KindId) -> Result<Permit, Cause> {
        self.block(tenant.into(), kind, Terms::default())
    }

    /// Waits for a permit for this time at most, and blocks the thread meanwhile; then it ends as [`Cause::Late`].
    ///
    /// ```
    /// use std::time::Duration;
    /// use twodfq::{Cause, KindId, Permits};
    ///
    /// let permits = Permits::builder().workers(1).tenant("acme", 1).open_permits().unwrap();
    /// let _held = permits.acquire_timeout("acme", KindId::FIRST, Duration::from_secs(60)).unwrap();
    /// let late = permits.acquire_timeout("acme", KindId::FIRST, Duration::from_millis(5));
    /// assert_eq!(late.unwrap_err(), Cause::Late);
    /// ```
    pub fn acquire_timeout<'a>(
        &self,
        tenant: impl Into<Tenant<'a>>,
        kind: KindId,
        time: Duration,
    ) -> Result<Permit, Cause> {
        let deadline = Instant::now().checked_add(time); // none beyond the clock's range
        let terms = deadline.map_or(Terms::default(), |deadline| Terms::default().deadline(deadline));
        self.block(tenant.into(), kind, terms)
    }

    /// A permit at once, or [`Cause::NoneFree`]. It never waits. It refuses a costly request too while a free permit
    /// waits for a cheap one (see [`Builder::patience`]).
    ///
    /// ```
    /// use twodfq::{Cause, KindId, Permits};
    ///
    /// let permits = Permits::builder().workers(1).tenant("acme", 1).open_permits().unwrap();
    /// let held = permits.try_acquire("acme", KindId::FIRST).unwrap();
    /// assert_eq!(permits.try_acquire("acme", KindId::FIRST).unwrap_err(), Cause::NoneFree);
    /// drop(held);
    /// assert!(permits.try_acquire("acme", KindId::FIRST).is_ok());
    /// ```
    pub fn try_acquire<'a>(&self, tenant: impl Into<Tenant<'a>>, kind: KindId) -> Result<Permit, Cause> {
        let seat: Seat = Arc::new(Place::new());
        let request = self.shared().request(tenant.into(), kind, Terms::default());
        self.shared().call(|state, moment| state.admit_at_once(moment, &request, &mut || seat.clone()))?;
        seat.wait() // the permit is there
    }

    /// Hands a request in. Its permit is put at the seat.
    fn hand_in(&self, tenant: Tenant, kind: KindId, terms: Terms) -> Result<(Seat, Ticket), Cause> {
        let seat: Seat = Arc::new(Place::new());
        let request = self.shared().request(tenant, kind, terms);
        let ticket = self.shared().call(|state, moment| state.admit(moment, &request, &mut || seat.clone()))?;
        Ok((seat, ticket))
    }

    /// Waits in this thread, which keeps the time of the deadline itself.
    fn block(&self, tenant: Tenant, kind: KindId, terms: Terms) -> Result<Permit, Cause> {
        let (seat, ticket) = self.hand_in(tenant, kind, terms)?;
        let Some(deadline) = terms.deadline else { return seat.wait() };
        if let Some(reply) = seat.wait_until(deadline) {
            return reply;
        }
        self.shared().call(|state, moment| state.withdraw(moment, ticket, Withdrawn::Late));
        seat.wait() // the cause is there, or a permit came just before
    }

    /// The number of the tenant of this name.
    ///
    /// ```
    /// let permits = twodfq::Permits::builder().tenant("acme", 1).open_permits().unwrap();
    /// assert!(permits.tenant("acme").is_some() && permits.tenant("globex").is_none());
    /// ```
    pub fn tenant(&self, name: &str) -> Option<TenantId> {
        self.shared().tenant(name)
    }

    /// The number of the kind of this name.
    ///
    /// ```
    /// use twodfq::{KindId, Permits};
    ///
    /// let permits = Permits::builder().tenant("acme", 1).kind("get").kind("scan").open_permits().unwrap();
    /// assert_eq!(permits.kind("scan"), Some(KindId::new(1)));
    /// ```
    pub fn kind(&self, name: &str) -> Option<KindId> {
        self.shared().kind(name)
    }

    /// The tenant has this weight from now on, 1 to 100,000, as by [`Pool::weight`](crate::Pool::weight).
    ///
    /// ```
    /// let permits = twodfq::Permits::builder().tenant("acme", 1).open_permits().unwrap();
    /// permits.weight("acme", 5).unwrap();
    /// assert_eq!(permits.status().tenants[0].weight, 5);
    /// ```
    pub fn weight<'a>(&self, tenant: impl Into<Tenant<'a>>, weight: u32) -> Result<(), Cause> {
        self.shared().weight(tenant.into(), weight)
    }

    /// The number of permits from now on: 1 to [`Builder::most_workers`]. Where more are held, the highest numbers are
    /// not granted again.
    ///
    /// ```
    /// use twodfq::{KindId, Permits};
    ///
    /// let permits = Permits::builder().tenant("acme", 1).workers(1).most_workers(2).open_permits().unwrap();
    /// let _first = permits.try_acquire("acme", KindId::FIRST).unwrap();
    /// permits.workers(2).unwrap();
    /// assert!(permits.try_acquire("acme", KindId::FIRST).is_ok());
    /// ```
    pub fn workers(&self, count: u32) -> Result<(), Cause> {
        self.shared().workers(count)
    }

    /// Refuses further requests. Those that wait still get their permits.
    ///
    /// ```
    /// use twodfq::{Cause, KindId, Permits};
    ///
    /// let permits = Permits::builder().tenant("acme", 1).open_permits().unwrap();
    /// permits.close();
    /// assert_eq!(permits.try_acquire("acme", KindId::FIRST).unwrap_err(), Cause::Closed);
    /// ```
    pub fn close(&self) {
        self.shared().close();
    }

    /// The waiting and running requests now, and the counts since the opening.
    ///
    /// ```
    /// use twodfq::{KindId, Permits};
    ///
    /// let permits = Permits::builder().tenant("acme", 1).open_permits().unwrap();
    /// drop(permits.try_acquire("acme", KindId::FIRST));
    /// assert_eq!(permits.status().tenants[0].done, 1);
    /// ```
    pub fn status(&self) -> Status {
        Status::of(self.shared())
    }

    /// Writes the journals of the schedulers, as [`Pool::journal`](crate::Pool::journal) does. The last ends when the
    /// permits are closed and all are back.
    ///
    /// ```
    /// use twodfq::{KindId, Permits};
    ///
    /// let permits = Permits::builder().tenant("acme", 1).open_permits().unwrap();
    /// let journal = permits.journal(std::io::sink()).unwrap();
    /// drop(permits.try_acquire("acme", KindId::FIRST));
    /// drop(permits);
    /// assert_eq!(journal.join().unwrap().journals, 1);
    /// ```
    pub fn journal(&self, to: impl Write + Send + 'static) -> io::Result<Journal> {
        Journal::start(self.shared(), to).map(|(journal, _)| journal)
    }
}

impl fmt::Debug for Permits {
    fn fmt(&self, f: &mut fmt::Formatter<'_>) -> fmt::Result {
        f.debug_struct("Permits").field("settings", &self.shared().settings).finish_non_exhaustive()
    }
}
