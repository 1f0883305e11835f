//! A permit that is held.
use std::fmt;
use std::sync::Arc;
use std::thread;

use super::Seat;
use crate::service::shared::Shared;

/// Leave to run. Dropping it ends the request and charges the time it was held: at least one microsecond, and at most
/// 1,000 seconds. Dropped by a panic, the request counts as panicked.
///
/// A permit that is held long reports on the way: before each grant, every permit that was held for
/// [`Builder::refresh`](crate::Builder::refresh) since its last report reports the time it is held.
///
/// ```
/// use twodfq::{KindId, Permit, Permits};
///
/// let permits = Permits::builder().tenant("acme", 1).open_permits().unwrap();
/// let permit: Permit = permits.try_acquire("acme", KindId::FIRST).unwrap();
/// drop(permit);
/// assert!(permits.status().tenants[0].microseconds >= 1);
/// ```
#[must_use = "dropped, it ends the request at once"]
pub struct Permit {
    shared: Arc<Shared<Seat>>,
    worker: u32,
    /// The caller's cost in microseconds, in place of the time.
    cost: Option<u64>,
    /// Whether its caller was gone before the grant.
    is_unseen: bool,
}

impl Permit {
    pub(crate) fn new(shared: Arc<Shared<Seat>>, worker: u32) -> Permit {
        Permit { shared, worker, cost: None, is_unseen: false }
    }

    /// Reports the request's use so far, in microseconds. From then on the permit does not report by itself. A use not
    /// above the last is ignored.
    ///
    /// ```
    /// use twodfq::{KindId, Permits};
    ///
    /// let permits = Permits::builder().tenant("acme", 1).open_permits().unwrap();
    /// let permit = permits.try_acquire("acme", KindId::FIRST).unwrap();
    /// permit.used(500);
    /// permit.finish(700);
    /// assert_eq!((permits.status().tenants[0].reports, permits.status().tenants[0].microseconds), (1, 700));
    /// ```
    pub fn used(&self, cost: u64) {
        self.shared.call(|state, moment| state.used(moment, self.worker, cost));
    }

    /// Ends the request at this cost in microseconds, in place of the time it was held. The charge is at least the last
    /// reported use, and 1 to 1,000,000,000.
    ///
    /// ```
    /// use twodfq::{KindId, Permits};
    ///
    /// let permits = Permits::builder().tenant("acme", 1).open_permits().unwrap();
    /// permits.try_acquire("acme", KindId::FIRST).unwrap().finish(250);
    /// assert_eq!(permits.status().tenants[0].microseconds, 250);
    /// ```
    pub fn finish(mut self, cost: u64) {
        self.cost = Some(cost);
    }

    /// Gives back a permit that no caller got. A panic of this thread is not one of the request.
    pub(crate) fn give_back_unseen(mut self) {
        self.is_unseen = true;
    }
}

impl Drop for Permit {
    fn drop(&mut self) {
        let (worker, cost, panicked) = (self.worker, self.cost, !self.is_unseen && thread::panicking());
        self.shared.call(|state, moment| state.give_back(moment, worker, cost, panicked));
    }
}

impl fmt::Debug for Permit {
    fn fmt(&self, f: &mut fmt::Formatter<'_>) -> fmt::Result {
        f.debug_struct("Permit").field("worker", &self.worker).finish_non_exhaustive()
    }
}
