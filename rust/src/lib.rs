//! A request scheduler that shares workers fairly among tenants (Two-Dimensional Fair Queuing, Mace and others, 2016),
//! for Rust: safe calls over the library for C (`c/twodfq.h`), whose contracts are proved. This crate is not proved.
//!
//! A service that wants a thread pool takes a [`Pool`], and an asynchronous one takes [`Permits`]. Neither makes the
//! scheduler's calls itself.
//!
//! A [`Scheduler`] goes from thread to thread and is not shared: threads keep it in a `Mutex`, and workers with nothing
//! to do wait at a `Condvar`.
//!
//! Moments and costs are in microseconds. Moments are by the caller's clock: a call takes effect at its moment, but not
//! before that of the last entry. `who` is a number that the caller gives itself; the entry has it, and no reply
//! depends on it. Tenants, kinds, workers and requests are numbered from 0.
//!
//! ```
//! use twodfq::{Config, Estimator, Policy, Scheduler, Submit, Taken};
//!
//! let config = Config {
//!     workers: 1,
//!     weights: &[1, 2],
//!     kinds: 1,
//!     entries: 100,
//!     requests: 10,
//!     policy: Policy::TwoDfq,
//!     estimate: Estimator::Declared,
//!     initial: 1000,
//!     keep: 0, // all entries
//! };
//! let mut scheduler = Scheduler::open(&config).unwrap();
//! scheduler.submit(0, 0, Submit { tenant: 1, kind: 0, declared: 5, label: 42 }).unwrap();
//! let taken = scheduler.take(1, 3, 0);
//! assert_eq!(taken, Ok(Taken::Run { request: 0, estimate: 5, label: 42 }));
//! scheduler.done(1, 8, 0, 5).unwrap(); // after the job is run: its measured cost
//! ```

mod calls;
mod config;
mod ffi;
mod permits;
mod pool;
mod refusal;
mod scheduler;
mod service;

pub use calls::{Act, Entry, Foreseen, Standing, Submit, Taken};
pub use config::{Config, Estimator, Policy};
pub use permits::{Acquire, Permit, Permits};
pub use pool::{tick, Handle, JoinError, Pool, Scope};
pub use refusal::{OpenFault, Refusal};
pub use scheduler::Scheduler;
pub use service::builder::Builder;
pub use service::cause::{BuildFault, Cause, Rejected};
pub use service::clock::Measure;
pub use service::histogram::Histogram;
pub use service::ids::{KindId, Tenant, TenantId, Terms};
pub use service::journal::{Journal, Written};
pub use service::status::{Status, TenantStatus};
pub use service::trace::{Hook, Traced};
pub use service::withdraw::Withdrawn;
