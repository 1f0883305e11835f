//! The result of a job, for its submitter.
use std::error::Error;
use std::fmt;
use std::future::Future;
use std::pin::Pin;
use std::sync::{Arc, Weak};
use std::task::{Context, Poll};
use std::time::{Duration, Instant};

use super::BoxedJob;
use crate::service::place::Place;
use crate::service::requests::Ticket;
use crate::service::shared::Shared;
use crate::service::withdraw::Withdrawn;

/// Why a job has no result.
///
/// ```
/// use twodfq::{JoinError, KindId, Pool};
///
/// let pool = Pool::builder().tenant("acme", 1).open().unwrap();
/// let handle = pool.submit("acme", KindId::FIRST, || panic!("no such file")).unwrap();
/// let error = handle.join().unwrap_err();
/// assert_eq!(error, JoinError::Panicked("no such file".to_string()));
/// assert_eq!(error.to_string(), "the job panicked: no such file");
/// ```
#[derive(Clone, Debug, PartialEq, Eq)]
#[non_exhaustive]
pub enum JoinError {
    /// It ended by a panic with this message.
    Panicked(String),
    /// It was cancelled before it began.
    Cancelled,
    /// Its deadline passed before it began.
    Late,
    /// It was held back by a limit, and there was no memory for the next scheduler when it might go.
    NoMemory,
}

impl From<Withdrawn> for JoinError {
    fn from(why: Withdrawn) -> JoinError {
        match why {
            Withdrawn::Cancelled => JoinError::Cancelled,
            Withdrawn::Late => JoinError::Late,
            Withdrawn::NoMemory => JoinError::NoMemory,
        }
    }
}

impl fmt::Display for JoinError {
    fn fmt(&self, f: &mut fmt::Formatter<'_>) -> fmt::Result {
        match self {
            JoinError::Panicked(message) => write!(f, "the job panicked: {message}"),
            JoinError::Cancelled => write!(f, "the job was cancelled"),
            JoinError::Late => write!(f, "the job's deadline passed before it began"),
            JoinError::NoMemory => write!(f, "no memory for the next scheduler"),
        }
    }
}

impl Error for JoinError {}

/// A job that was accepted. It is run whether its handle is kept or dropped, unless it is cancelled or too late.
///
/// A handle is a future too, which any runtime may poll: it is woken by the worker. Once a poll has given the result,
/// every other call that asks for it panics, as one more poll does.
///
/// ```
/// use twodfq::{Handle, KindId, Pool};
///
/// let pool = Pool::builder().tenant("acme", 1).open().unwrap();
/// let handle: Handle<u32> = pool.submit("acme", KindId::FIRST, || 6 * 7).unwrap();
/// assert_eq!(handle.join().unwrap(), 42);
/// ```
pub struct Handle<T> {
    place: Arc<Place<Result<T, JoinError>>>,
    pool: Weak<Shared<BoxedJob>>,
    ticket: Ticket,
}

impl<T> Handle<T> {
    pub(crate) fn new(
        place: Arc<Place<Result<T, JoinError>>>,
        pool: Weak<Shared<BoxedJob>>,
        ticket: Ticket,
    ) -> Handle<T> {
        Handle { place, pool, ticket }
    }

    /// Withdraws the job, if it waits: it never runs, costs its tenant nothing, and ends as [`JoinError::Cancelled`].
    /// Returns false, and changes nothing, where the job has begun or was withdrawn before.
    ///
    /// ```
    /// use twodfq::{JoinError, KindId, Pool};
    ///
    /// let pool = Pool::builder().tenant("acme", 1).workers(1).open().unwrap();
    /// let (sender, receiver) = std::sync::mpsc::channel::<()>();
    /// let _first = pool.submit("acme", KindId::FIRST, move || receiver.recv().is_ok()).unwrap();
    /// let second = pool.submit("acme", KindId::FIRST, || 42).unwrap();
    /// assert!(second.cancel());
    /// assert_eq!(second.join(), Err(JoinError::Cancelled));
    /// drop(sender);
    /// ```
    pub fn cancel(&self) -> bool {
        let cancel = |pool: Arc<Shared<BoxedJob>>| {
            pool.call(|state, moment| state.withdraw(moment, self.ticket, Withdrawn::Cancelled))
        };
        self.pool.upgrade().is_some_and(cancel)
    }

    /// Waits for the job's end. A job that waits for another job of its pool holds a worker meanwhile.
    ///
    /// ```
    /// use twodfq::{KindId, Pool};
    ///
    /// let pool = Pool::builder().tenant("acme", 1).open().unwrap();
    /// assert_eq!(pool.submit("acme", KindId::FIRST, || "done").unwrap().join().unwrap(), "done");
    /// ```
    pub fn join(self) -> Result<T, JoinError> {
        self.place.wait()
    }

    /// The result where the job has ended, else the handle again.
    ///
    /// ```
    /// use twodfq::{KindId, Pool};
    ///
    /// let pool = Pool::builder().tenant("acme", 1).open().unwrap();
    /// let mut handle = pool.submit("acme", KindId::FIRST, || 42).unwrap();
    /// let result = loop {
    ///     match handle.try_join() {
    ///         Ok(result) => break result,
    ///         Err(again) => handle = again,
    ///     }
    /// };
    /// assert_eq!(result.unwrap(), 42);
    /// ```
    pub fn try_join(self) -> Result<Result<T, JoinError>, Handle<T>> {
        self.place.get().ok_or(self)
    }

    /// Waits for the job's end for this time at most. Gives the handle back where the job has not ended by then.
    ///
    /// ```
    /// use std::time::Duration;
    /// use twodfq::{KindId, Pool};
    ///
    /// let pool = Pool::builder().tenant("acme", 1).open().unwrap();
    /// let handle = pool.submit("acme", KindId::FIRST, || 42).unwrap();
    /// assert_eq!(handle.join_timeout(Duration::from_secs(60)).unwrap(), Ok(42));
    /// ```
    pub fn join_timeout(self, time: Duration) -> Result<Result<T, JoinError>, Handle<T>> {
        match Instant::now().checked_add(time) {
            Some(until) => self.place.wait_until(until).ok_or(self),
            None => Ok(self.place.wait()), // beyond the clock's range
        }
    }

    /// Whether the job has ended, or was withdrawn.
    ///
    /// ```
    /// use twodfq::{KindId, Pool};
    ///
    /// let pool = Pool::builder().tenant("acme", 1).open().unwrap();
    /// let handle = pool.submit("acme", KindId::FIRST, || ()).unwrap();
    /// pool.join();
    /// assert!(handle.is_done());
    /// ```
    pub fn is_done(&self) -> bool {
        self.place.is_done()
    }

    /// Has the callback called with the result: by the worker at the job's end, as a part of the job, or here and at
    /// once where the job has ended. Where it is withdrawn, the withdrawing thread calls it. A panic of the callback is
    /// printed, as any, and goes no further: neither the worker nor the caller panics.
    ///
    /// ```
    /// use std::sync::mpsc;
    /// use twodfq::{KindId, Pool};
    ///
    /// let pool = Pool::builder().tenant("acme", 1).open().unwrap();
    /// let (sender, results) = mpsc::channel();
    /// pool.submit("acme", KindId::FIRST, || 42).unwrap().then(move |result| sender.send(result).unwrap());
    /// assert_eq!(results.recv().unwrap(), Ok(42));
    /// ```
    pub fn then(self, callback: impl FnOnce(Result<T, JoinError>) + Send + 'static) {
        self.place.then(callback);
    }
}

impl<T> Drop for Handle<T> {
    fn drop(&mut self) {
        self.place.forget_waker();
    }
}

impl<T> Future for Handle<T> {
    type Output = Result<T, JoinError>;

    fn poll(self: Pin<&mut Self>, context: &mut Context<'_>) -> Poll<Self::Output> {
        self.place.poll(context)
    }
}

impl<T> fmt::Debug for Handle<T> {
    fn fmt(&self, f: &mut fmt::Formatter<'_>) -> fmt::Result {
        f.debug_struct("Handle").field("is_done", &self.is_done()).finish()
    }
}
