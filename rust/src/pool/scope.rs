//! Jobs that borrow.
use std::fmt;

use super::jobs::{Job, Work};
use super::{Handle, Pool};
use crate::ffi::{self, Lender};
use crate::service::cause::Rejected;
use crate::service::ids::{KindId, Tenant, Terms};

/// A scope for jobs that borrow: all of them have ended when [`Pool::scope`] returns.
///
/// ```
/// use twodfq::{KindId, Pool};
///
/// let pool = Pool::builder().tenant("acme", 1).open().unwrap();
/// let words = vec!["two", "three", "four"];
/// let total: usize = pool.scope(|scope: twodfq::Scope| {
///     let lengths: Vec<_> = words.iter().map(|word| scope.submit("acme", KindId::FIRST, move || word.len()).unwrap()).collect();
///     lengths.into_iter().map(|length| length.join().unwrap()).sum()
/// });
/// assert_eq!(total, 12);
/// ```
///
/// A borrowed value has to outlive the scope:
///
/// ```compile_fail
/// use twodfq::{KindId, Pool};
///
/// let pool = Pool::builder().tenant("acme", 1).open().unwrap();
/// pool.scope(|scope| {
///     let inner = 42;
///     scope.submit("acme", KindId::FIRST, || inner + 1).unwrap();
/// });
/// ```
#[derive(Clone, Copy)]
pub struct Scope<'scope, 'env: 'scope> {
    pool: &'env Pool,
    lender: &'scope Lender<'scope, 'env>,
}

impl fmt::Debug for Scope<'_, '_> {
    fn fmt(&self, f: &mut fmt::Formatter<'_>) -> fmt::Result {
        f.debug_struct("Scope").field("pool", self.pool).finish_non_exhaustive()
    }
}

impl Pool {
    /// Calls the body, whose jobs may borrow from around it, and waits for the end of all of them. The pool serves
    /// other jobs meanwhile. The panic of a job goes to its handle, and no further.
    ///
    /// A job of the pool that waits here for others holds its worker. With all workers held, none is left for them.
    ///
    /// ```
    /// use twodfq::{KindId, Pool};
    ///
    /// let pool = Pool::builder().tenant("acme", 1).open().unwrap();
    /// let mut numbers = [1, 2, 3, 4];
    /// pool.scope(|scope| {
    ///     for number in &mut numbers {
    ///         scope.submit("acme", KindId::FIRST, || *number *= 10).unwrap();
    ///     }
    /// });
    /// assert_eq!(numbers, [10, 20, 30, 40]);
    /// ```
    pub fn scope<'env, R>(&'env self, body: impl for<'scope> FnOnce(Scope<'scope, 'env>) -> R) -> R {
        ffi::lending(|lender| body(Scope { pool: self, lender }))
    }
}

impl<'scope> Scope<'scope, '_> {
    /// Hands in a job that may borrow, as [`Pool::submit`] does.
    ///
    /// ```
    /// use twodfq::{KindId, Pool};
    ///
    /// let pool = Pool::builder().tenant("acme", 1).open().unwrap();
    /// let text = String::from("borrowed");
    /// let first = pool.scope(|scope| scope.submit("acme", KindId::FIRST, || &text[..1]).unwrap().join().unwrap());
    /// assert_eq!(first, "b");
    /// ```
    pub fn submit<'a, T, F>(
        &self,
        tenant: impl Into<Tenant<'a>>,
        kind: KindId,
        job: F,
    ) -> Result<Handle<T>, Rejected<F>>
    where
        T: Send + 'scope,
        F: FnOnce() -> T + Send + 'scope,
    {
        self.submit_with(tenant, kind, Terms::default(), job)
    }

    /// Hands in a job that may borrow, with a declared cost or a deadline, as [`Pool::submit_with`] does.
    ///
    /// ```
    /// use twodfq::{KindId, Pool, Terms};
    ///
    /// let pool = Pool::builder().tenant("acme", 1).open().unwrap();
    /// let (text, terms) = (String::from("borrowed"), Terms::default().declared(5));
    /// let length = pool.scope(|scope| {
    ///     scope.submit_with("acme", KindId::FIRST, terms, || text.len()).unwrap().join().unwrap()
    /// });
    /// assert_eq!(length, 8);
    /// ```
    pub fn submit_with<'a, T, F>(
        &self,
        tenant: impl Into<Tenant<'a>>,
        kind: KindId,
        terms: Terms,
        job: F,
    ) -> Result<Handle<T>, Rejected<F>>
    where
        T: Send + 'scope,
        F: FnOnce() -> T + Send + 'scope,
    {
        let lend = |work: Box<Work<T, F>>| self.lender.lend(work as Box<dyn Job + 'scope>);
        self.pool.hand_in((tenant.into(), kind, terms), job, lend)
    }
}
