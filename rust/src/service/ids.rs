//! Tenants and kinds by number or name, and the terms of a request.
use std::time::Instant;

/// A tenant by its number, from [`Pool::tenant`](crate::Pool::tenant). The number of a tenant that came by name is
/// refused after its slot went to another (see [`Builder::most_tenants`](crate::Builder::most_tenants)).
///
/// ```
/// use twodfq::{Pool, TenantId};
///
/// let pool = Pool::builder().tenant("acme", 1).tenant("globex", 2).open().unwrap();
/// assert_eq!(pool.tenant("globex"), Some(TenantId::new(1)));
/// ```
#[derive(Clone, Copy, Debug, PartialEq, Eq, Hash)]
pub struct TenantId {
    pub(crate) slot: u32,
    /// How many tenants have had the slot, with this one; 0 for a tenant of the opening, which keeps its slot.
    pub(crate) generation: u64,
}

impl TenantId {
    /// The tenant that was named at this place at the opening, from 0.
    ///
    /// ```
    /// use twodfq::{KindId, Pool, TenantId};
    ///
    /// let pool = Pool::builder().tenant("acme", 1).open().unwrap();
    /// pool.submit(TenantId::new(0), KindId::FIRST, || ()).unwrap();
    /// ```
    pub const fn new(number: u32) -> TenantId {
        TenantId { slot: number, generation: 0 }
    }
}

/// A kind of requests by its number: [`Pool::kind`](crate::Pool::kind). Costs are estimated for each tenant and kind.
///
/// ```
/// use twodfq::{KindId, Pool};
///
/// let pool = Pool::builder().tenant("acme", 1).kind("get").kind("scan").open().unwrap();
/// assert_eq!(pool.kind("scan"), Some(KindId::new(1)));
/// ```
#[derive(Clone, Copy, Debug, PartialEq, Eq, Hash)]
pub struct KindId(pub(crate) u32);

impl KindId {
    /// The first kind, which there is always.
    pub const FIRST: KindId = KindId(0);

    /// The kind that was named at this place at the opening, from 0.
    ///
    /// ```
    /// use twodfq::{KindId, Pool};
    ///
    /// let pool = Pool::builder().tenant("acme", 1).kind("get").open().unwrap();
    /// pool.submit("acme", KindId::new(0), || ()).unwrap();
    /// ```
    pub const fn new(number: u32) -> KindId {
        KindId(number)
    }
}

/// A tenant by number or by name. A number is found faster.
///
/// ```
/// use twodfq::{KindId, Pool};
///
/// let pool = Pool::builder().tenant("acme", 1).open().unwrap();
/// let (number, name) = (pool.tenant("acme").unwrap(), String::from("acme"));
/// pool.submit(number, KindId::FIRST, || ()).unwrap();
/// pool.submit("acme", KindId::FIRST, || ()).unwrap();
/// pool.submit(&name, KindId::FIRST, || ()).unwrap();
/// ```
#[derive(Clone, Copy, Debug, PartialEq, Eq)]
pub enum Tenant<'a> {
    Id(TenantId),
    Name(&'a str),
}

impl From<TenantId> for Tenant<'_> {
    fn from(id: TenantId) -> Self {
        Tenant::Id(id)
    }
}

impl<'a> From<&'a str> for Tenant<'a> {
    fn from(name: &'a str) -> Self {
        Tenant::Name(name)
    }
}

impl<'a> From<&'a String> for Tenant<'a> {
    fn from(name: &'a String) -> Self {
        Tenant::Name(name)
    }
}

/// The declared cost and the deadline of a request. By default it declares the initial estimate, and has no deadline.
///
/// ```
/// use twodfq::{Estimator, KindId, Pool, Terms};
///
/// let pool = Pool::builder().tenant("acme", 1).estimator(Estimator::Declared).open().unwrap();
/// pool.submit_with("acme", KindId::FIRST, Terms::default().declared(250), || ()).unwrap();
/// ```
#[derive(Clone, Copy, Debug, Default, PartialEq, Eq)]
pub struct Terms {
    pub(crate) declared: Option<u64>,
    pub(crate) deadline: Option<Instant>,
}

impl Terms {
    /// Declares this cost in microseconds, 1 to 1,000,000,000, for [`Estimator::Declared`](crate::Estimator::Declared).
    ///
    /// ```
    /// use twodfq::{Cause, KindId, Pool, Terms};
    ///
    /// let pool = Pool::builder().tenant("acme", 1).open().unwrap();
    /// let rejected = pool.submit_with("acme", KindId::FIRST, Terms::default().declared(0), || ()).unwrap_err();
    /// assert_eq!(rejected.cause, Cause::Cost(0));
    /// ```
    pub fn declared(mut self, cost: u64) -> Terms {
        self.declared = Some(cost);
        self
    }

    /// The request must begin by this time. After it the request is withdrawn: it never runs, and its handle or future
    /// returns `Late`. A request whose deadline has passed already is refused.
    ///
    /// ```
    /// use std::time::{Duration, Instant};
    /// use twodfq::{Cause, KindId, Pool, Terms};
    ///
    /// let pool = Pool::builder().tenant("acme", 1).open().unwrap();
    /// let soon = Terms::default().deadline(Instant::now() + Duration::from_secs(60));
    /// assert_eq!(pool.submit_with("acme", KindId::FIRST, soon, || 42).unwrap().join(), Ok(42));
    /// let late = Terms::default().deadline(Instant::now() - Duration::from_millis(1));
    /// assert_eq!(pool.submit_with("acme", KindId::FIRST, late, || 42).unwrap_err().cause, Cause::Late);
    /// ```
    pub fn deadline(mut self, by: Instant) -> Terms {
        self.deadline = Some(by);
        self
    }
}
