//! Jobs, and how they are run.
use std::panic::{self, AssertUnwindSafe};
use std::sync::Arc;

use super::handle::JoinError;
use crate::service::panics::{caught, panic_message};
use crate::service::place::Place;
use crate::service::withdraw::Withdrawn;

/// A job, as a worker runs it.
pub(crate) trait Job: Send {
    /// Runs the job and puts its result in the place of its handle. Whether it panicked.
    fn run(self: Box<Self>) -> bool;

    /// Drops the job, and gives its handle the reason.
    fn withdraw(self: Box<Self>, why: Withdrawn);
}

pub(crate) type BoxedJob = Box<dyn Job>;

/// A closure, and the place of its result.
pub(crate) struct Work<T, F> {
    pub(crate) closure: F,
    pub(crate) place: Arc<Place<Result<T, JoinError>>>,
}

impl<T: Send, F: FnOnce() -> T + Send> Job for Work<T, F> {
    fn run(self: Box<Self>) -> bool {
        let Work { closure, place } = *self;
        match panic::catch_unwind(AssertUnwindSafe(closure)) {
            Ok(result) => {
                place.put(Ok(result));
                false
            }
            Err(payload) => {
                // put before the payload is dropped, since that may panic too
                place.put(Err(JoinError::Panicked(panic_message(&*payload))));
                true
            }
        }
    }

    fn withdraw(self: Box<Self>, why: Withdrawn) {
        let Work { closure, place } = *self;
        caught(|| drop(closure));
        place.put(Err(why.into()));
    }
}
