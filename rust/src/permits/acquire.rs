//! A request for a permit, as a future.
use std::fmt;
use std::future::Future;
use std::mem;
use std::pin::Pin;
use std::task::{Context, Poll};

use super::{Permit, Permits, Seat};
use crate::service::cause::Cause;
use crate::service::ids::{KindId, Tenant, TenantId, Terms};
use crate::service::requests::Ticket;
use crate::service::withdraw::Withdrawn;

/// The tenant of the request.
enum Owner {
    Id(TenantId),
    Name(Box<str>),
}

impl Owner {
    fn tenant(&self) -> Tenant<'_> {
        match self {
            Owner::Id(id) => Tenant::Id(*id),
            Owner::Name(name) => Tenant::Name(name),
        }
    }
}

enum Stage {
    New { owner: Owner, kind: KindId, terms: Terms },
    Waits { seat: Seat, ticket: Ticket },
    Over,
}

/// A request for a permit, for any runtime. The first poll hands it in. Dropping it withdraws the request: its place is
/// free at once, and a permit granted meanwhile goes back at once.
///
/// ```
/// use twodfq::{Acquire, KindId, Permits};
///
/// let permits = Permits::builder().tenant("acme", 1).open_permits().unwrap();
/// let acquire: Acquire = permits.acquire("acme", KindId::FIRST);
/// assert_eq!(permits.status().tenants[0].submitted, 0); // it was not polled
/// let permit = acquire.wait().unwrap();
/// assert_eq!(permits.status().tenants[0].submitted, 1);
/// ```
#[must_use = "it asks for nothing unless it is polled"]
pub struct Acquire {
    permits: Permits,
    stage: Stage,
}

impl Acquire {
    pub(crate) fn new(permits: Permits, tenant: Tenant, kind: KindId, terms: Terms) -> Acquire {
        let owner = match tenant {
            Tenant::Id(id) => Owner::Id(id),
            Tenant::Name(name) => Owner::Name(name.into()),
        };
        Acquire { permits, stage: Stage::New { owner, kind, terms } }
    }

    /// Waits for the permit, and blocks the thread meanwhile. Panics after a poll gave the permit.
    ///
    /// ```
    /// use twodfq::{KindId, Permits};
    ///
    /// let permits = Permits::builder().tenant("acme", 1).open_permits().unwrap();
    /// let permit = permits.acquire("acme", KindId::FIRST).wait().unwrap();
    /// ```
    pub fn wait(mut self) -> Result<Permit, Cause> {
        match mem::replace(&mut self.stage, Stage::Over) {
            Stage::New { owner, kind, terms } => self.permits.block(owner.tenant(), kind, terms),
            Stage::Waits { seat, .. } => seat.wait(),
            Stage::Over => panic!("the permit was given to a poll"),
        }
    }

    /// The seat where the permit will be put. The first call hands the request in.
    fn seat(&mut self) -> Result<&Seat, Cause> {
        if let Stage::New { owner, kind, terms } = &self.stage {
            if terms.deadline.is_some() {
                self.permits.shared().start_timer().map_err(|_| Cause::NoThread)?;
            }
            let (seat, ticket) = self.permits.hand_in(owner.tenant(), *kind, *terms)?;
            self.stage = Stage::Waits { seat, ticket };
        }
        match &self.stage {
            Stage::Waits { seat, .. } => Ok(seat),
            _ => panic!("the permit was given to a poll"),
        }
    }
}

impl Future for Acquire {
    type Output = Result<Permit, Cause>;

    fn poll(mut self: Pin<&mut Self>, context: &mut Context<'_>) -> Poll<Self::Output> {
        let polled = match self.seat() {
            Ok(seat) => seat.poll(context),
            Err(cause) => Poll::Ready(Err(cause)),
        };
        if polled.is_ready() {
            self.stage = Stage::Over;
        }
        polled
    }
}

impl Drop for Acquire {
    fn drop(&mut self) {
        let Stage::Waits { seat, ticket } = &self.stage else { return };
        match seat.abandon() {
            Some(Ok(permit)) => permit.give_back_unseen(),
            Some(Err(_)) => {}
            // a permit on its way to the seat finds it abandoned, and goes back
            None => {
                self.permits.shared().call(|state, moment| state.withdraw(moment, *ticket, Withdrawn::Cancelled));
            }
        }
    }
}

impl fmt::Debug for Acquire {
    fn fmt(&self, f: &mut fmt::Formatter<'_>) -> fmt::Result {
        f.debug_struct("Acquire").finish_non_exhaustive()
    }
}
