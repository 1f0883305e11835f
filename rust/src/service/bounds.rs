//! The builder's bounds on how many requests wait and run.
use super::builder::Builder;

impl Builder {
    /// How many requests may wait at once: 1 to 1,048,576, by default 10,000.
    ///
    /// Each of `n` tenants has `room / (2 * n)` of these places for itself, and at least one where the room has one for
    /// each. All tenants share the rest, and a tenant takes at most as many shared places as it leaves free. So one
    /// flood leaves half of the shared places to the others. A request beyond its tenant's part is refused with
    /// [`Cause::TenantFull`](crate::Cause::TenantFull). A single tenant has the whole room.
    ///
    /// ```
    /// use twodfq::{KindId, Pool};
    ///
    /// let pool = Pool::builder().tenant("acme", 1).workers(1).room(1).open().unwrap();
    /// let accepted = (0..1000).filter(|_| pool.submit("acme", KindId::FIRST, || ()).is_ok()).count();
    /// assert_eq!(pool.join().tenants[0].refused, 1000 - accepted as u64);
    /// ```
    pub fn room(mut self, jobs: u32) -> Builder {
        self.settings.room = jobs;
        self
    }

    /// How many requests of each tenant may wait, in place of its part of [`Builder::room`], which bounds the sum.
    ///
    /// ```
    /// use twodfq::{Cause, KindId, Pool};
    ///
    /// let pool = Pool::builder().tenant("acme", 1).workers(1).room_per_tenant(20).open().unwrap();
    /// let (sender, receiver) = std::sync::mpsc::channel::<()>();
    /// pool.submit("acme", KindId::FIRST, move || receiver.recv().is_ok()).unwrap();
    /// let full = (0..22).find_map(|_| pool.submit("acme", KindId::FIRST, || ()).err()).unwrap();
    /// assert_eq!(full.cause, Cause::TenantFull(20));
    /// # drop(sender);
    /// ```
    pub fn room_per_tenant(mut self, requests: u32) -> Builder {
        self.settings.room_per_tenant = Some(requests);
        self
    }

    /// How many requests of each tenant may run at once; by default as many as there are workers. A request beyond that
    /// is held back until another of its tenant ends. It counts as waiting, and held requests go in order of arrival.
    ///
    /// The scheduler sees a held request as arriving when it may go.
    ///
    /// ```
    /// use twodfq::{KindId, Permits};
    ///
    /// let permits = Permits::builder().tenant("acme", 1).tenant("globex", 1).most_running(1).open_permits().unwrap();
    /// let _held = permits.try_acquire("acme", KindId::FIRST).unwrap();
    /// assert!(permits.try_acquire("acme", KindId::FIRST).is_err());
    /// assert!(permits.try_acquire("globex", KindId::FIRST).is_ok());
    /// ```
    pub fn most_running(mut self, requests: u32) -> Builder {
        self.settings.most_running = Some(requests);
        self
    }

    /// How many requests of this kind each tenant may run at once, as by [`Builder::most_running`]. Of several kinds
    /// that may go, the oldest request goes first.
    ///
    /// ```
    /// use twodfq::{KindId, Permits};
    ///
    /// let builder = Permits::builder().tenant("acme", 1).kind("get").kind("scan").kind_most_running("scan", 1);
    /// let permits = builder.open_permits().unwrap();
    /// let scan = permits.kind("scan").unwrap();
    /// let _held = permits.try_acquire("acme", scan).unwrap();
    /// assert!(permits.try_acquire("acme", scan).is_err());
    /// assert!(permits.try_acquire("acme", KindId::FIRST).is_ok());
    /// ```
    pub fn kind_most_running(mut self, kind: &str, requests: u32) -> Builder {
        self.limits.push((kind.to_string(), requests));
        self
    }
}
