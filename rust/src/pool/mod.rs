//! A pool of threads that runs the jobs of many tenants, each in its turn.
mod handle;
mod jobs;
mod scope;
mod worker;

use std::fmt;
use std::io::{self, Write};
use std::mem;
use std::sync::{Arc, Mutex, PoisonError};
use std::thread::{self, JoinHandle};

pub use handle::{Handle, JoinError};
pub use scope::Scope;
pub use worker::tick;

pub(crate) use jobs::{BoxedJob, Job};
pub(crate) use worker::{Signals, Sleeping};

use crate::service::builder::Builder;
use crate::service::cause::{Cause, Rejected};
use crate::service::ids::{KindId, Tenant, TenantId, Terms};
use crate::service::journal::Journal;
use crate::service::place::Place;
use crate::service::shared::Shared;
use crate::service::status::Status;
use jobs::Work;

/// A thread pool that shares its workers fairly among tenants: each is served in its turn, however many jobs the others
/// hand in and however long these take. A [`Scheduler`](crate::Scheduler) decides which job a worker takes next.
///
/// The pool has no end: before the room of its scheduler ends it opens the next, and workers take from the old
/// scheduler until that is drained. Unless [`Builder::entries`] sets less room, the next takes over after 3,500,000,000
/// entries at the earliest, of which a job makes three.
///
/// Dropped, it closes, and waits until all accepted jobs are done. Dropped by a job of its own, or by its journal's
/// writer, it closes and does not wait, since the dropping thread would wait for itself.
///
/// ```
/// use twodfq::Pool;
///
/// # fn search(part: &&str) -> u64 { part.len() as u64 }
/// # fn main() -> Result<(), Box<dyn std::error::Error>> {
/// # let parts = vec!["one", "three"];
/// let pool = Pool::builder().workers(8).tenant("acme", 1).tenant("globex", 2).kind("get").kind("scan").open()?;
/// let (globex, scan) = (pool.tenant("globex").unwrap(), pool.kind("scan").unwrap());
/// let handle = pool.submit(globex, scan, move || {
///     parts.iter().inspect(|_| twodfq::tick()).map(search).sum::<u64>() // a long job tells what it has used so far
/// })?;
/// let found = handle.join()?;
/// println!("{}", pool.status().prometheus());
/// pool.join();
/// # assert_eq!(found, 8);
/// # Ok(())
/// # }
/// ```
pub struct Pool {
    shared: Arc<Shared<BoxedJob>>,
    threads: Mutex<Vec<JoinHandle<()>>>,
}

impl Pool {
    /// A builder of a pool, for [`Builder::open`].
    ///
    /// ```
    /// let pool = twodfq::Pool::builder().tenant("acme", 1).open().unwrap();
    /// ```
    pub fn builder() -> Builder {
        Builder::new()
    }

    pub(crate) fn start(shared: Arc<Shared<BoxedJob>>) -> io::Result<Pool> {
        let pool = Pool { shared, threads: Mutex::default() };
        for worker in 0..pool.shared.settings.most_workers {
            let shared = pool.shared.clone();
            let name = format!("twodfq-{worker}");
            let thread = thread::Builder::new().name(name).spawn(move || worker::work(shared, worker))?;
            pool.keep(thread);
        }
        Ok(pool)
    }

    /// Notes a thread to wait for at the end.
    fn keep(&self, thread: JoinHandle<()>) {
        self.threads.lock().unwrap_or_else(PoisonError::into_inner).push(thread);
    }

    /// Hands in a job for a tenant, of a kind. It declares the initial estimate as its cost.
    ///
    /// ```
    /// use twodfq::{Cause, KindId, Pool};
    ///
    /// let pool = Pool::builder().tenant("acme", 1).open().unwrap();
    /// let handle = pool.submit("acme", KindId::FIRST, || "hello".len()).unwrap();
    /// assert_eq!(handle.join().unwrap(), 5);
    /// let rejected = pool.submit("globex", KindId::FIRST, || 42).unwrap_err();
    /// assert_eq!(rejected.cause, Cause::NoTenant);
    /// assert_eq!((rejected.job)(), 42);
    /// ```
    pub fn submit<'a, T, F>(
        &self,
        tenant: impl Into<Tenant<'a>>,
        kind: KindId,
        job: F,
    ) -> Result<Handle<T>, Rejected<F>>
    where
        T: Send + 'static,
        F: FnOnce() -> T + Send + 'static,
    {
        self.submit_with(tenant, kind, Terms::default(), job)
    }

    /// Hands in a job with a declared cost or a deadline.
    ///
    /// ```
    /// use twodfq::{Estimator, KindId, Pool, Terms};
    ///
    /// let pool = Pool::builder().tenant("acme", 1).estimator(Estimator::Declared).open().unwrap();
    /// let handle = pool.submit_with("acme", KindId::FIRST, Terms::default().declared(250), || 42).unwrap();
    /// assert_eq!(handle.join().unwrap(), 42);
    /// ```
    pub fn submit_with<'a, T, F>(
        &self,
        tenant: impl Into<Tenant<'a>>,
        kind: KindId,
        terms: Terms,
        job: F,
    ) -> Result<Handle<T>, Rejected<F>>
    where
        T: Send + 'static,
        F: FnOnce() -> T + Send + 'static,
    {
        self.hand_in((tenant.into(), kind, terms), job, |work| work as BoxedJob)
    }

    /// Hands in a job, boxed by `boxed` once it is accepted.
    fn hand_in<T, F, B>(
        &self,
        (tenant, kind, terms): (Tenant, KindId, Terms),
        closure: F,
        boxed: B,
    ) -> Result<Handle<T>, Rejected<F>>
    where
        T: Send,
        F: FnOnce() -> T + Send,
        B: Fn(Box<Work<T, F>>) -> BoxedJob,
    {
        let place = Arc::new(Place::new());
        let mut work = Some(Box::new(Work { closure, place: place.clone() }));
        let mut job = || boxed(work.take().expect("a job is asked for once"));
        let request = self.shared.request(tenant, kind, terms);
        let is_kept = request.deadline.is_none() || self.shared.start_timer().is_ok();
        let mut admit = || self.shared.call(|state, moment| state.admit(moment, &request, &mut job));
        match if is_kept { admit() } else { Err(Cause::NoThread) } {
            Ok(ticket) => Ok(Handle::new(place, Arc::downgrade(&self.shared), ticket)),
            Err(cause) => Err(Rejected { job: work.expect("a refused job was not asked for").closure, cause }),
        }
    }

    /// The number of the tenant of this name.
    ///
    /// ```
    /// use twodfq::{Pool, TenantId};
    ///
    /// let pool = Pool::builder().tenant("acme", 1).tenant("globex", 2).open().unwrap();
    /// assert_eq!(pool.tenant("globex"), Some(TenantId::new(1)));
    /// assert_eq!(pool.tenant("initech"), None);
    /// ```
    pub fn tenant(&self, name: &str) -> Option<TenantId> {
        self.shared.tenant(name)
    }

    /// The number of the kind of this name.
    ///
    /// ```
    /// use twodfq::{KindId, Pool};
    ///
    /// let pool = Pool::builder().tenant("acme", 1).kind("get").kind("scan").open().unwrap();
    /// assert_eq!(pool.kind("scan"), Some(KindId::new(1)));
    /// ```
    pub fn kind(&self, name: &str) -> Option<KindId> {
        self.shared.kind(name)
    }

    /// The tenant has this weight from now on, 1 to 100,000. A scheduler that drains keeps the weights it has where it
    /// has no room for another entry.
    ///
    /// ```
    /// let pool = twodfq::Pool::builder().tenant("acme", 1).open().unwrap();
    /// pool.weight("acme", 5).unwrap();
    /// assert_eq!(pool.weight("globex", 5), Err(twodfq::Cause::NoTenant));
    /// ```
    pub fn weight<'a>(&self, tenant: impl Into<Tenant<'a>>, weight: u32) -> Result<(), Cause> {
        self.shared.weight(tenant.into(), weight)
    }

    /// The number of workers from now on: 1 to [`Builder::most_workers`]. A worker that is no longer wanted ends its
    /// job, and then sleeps.
    ///
    /// ```
    /// let pool = twodfq::Pool::builder().tenant("acme", 1).workers(2).most_workers(8).open().unwrap();
    /// pool.workers(8).unwrap();
    /// assert_eq!(pool.workers(9), Err(twodfq::Cause::Workers(9)));
    /// ```
    pub fn workers(&self, count: u32) -> Result<(), Cause> {
        self.shared.workers(count)
    }

    /// Refuses further jobs. Accepted jobs are still run.
    ///
    /// ```
    /// use twodfq::{Cause, KindId, Pool};
    ///
    /// let pool = Pool::builder().tenant("acme", 1).open().unwrap();
    /// let handle = pool.submit("acme", KindId::FIRST, || 42).unwrap();
    /// pool.close();
    /// assert_eq!(pool.submit("acme", KindId::FIRST, || 43).unwrap_err().cause, Cause::Closed);
    /// assert_eq!(handle.join().unwrap(), 42);
    /// ```
    pub fn close(&self) {
        self.shared.close();
    }

    /// The waiting and running jobs now, and the counts since the opening.
    ///
    /// ```
    /// use twodfq::{KindId, Pool};
    ///
    /// let pool = Pool::builder().tenant("acme", 1).open().unwrap();
    /// pool.submit("acme", KindId::FIRST, || ()).unwrap();
    /// assert_eq!(pool.status().tenants[0].submitted, 1);
    /// ```
    pub fn status(&self) -> Status {
        Status::of(&self.shared)
    }

    /// Has the journals of the pool's schedulers written while it runs, in the format of `docs/FORMATS.md`: one after
    /// another, each from its line `journal 3` on, and each to be judged by `twodfq check`. The first is that of the
    /// oldest scheduler that is not over, with its head alone where its first entries are kept no longer. The last ends
    /// with the pool. The writer has a thread of its own, and no worker ever waits for it.
    ///
    /// `check` reads no more than 64 workers, 4,096 tenants, 65,536 pairs of a tenant and a kind, a room of 262,144 and
    /// weights up to 1,000. The journals of a pool beyond that are written all the same, and any other reader of the
    /// format may take them. `check` names the first number out of its range (`line 2: field 2 is out of range` where
    /// there are more than 64 workers), and where that is an entry's weight it finds this entry not legal. In each entry
    /// `who` is the number of the worker that made it, or 4096, which no worker has.
    ///
    /// A journal has at most 1,048,576 entries, so that `check` can read it, or four for each place of a room above
    /// 262,144, less those that waiting jobs may need. A little before that, at the first submit at which no job waits, the next scheduler takes over, and has the next
    /// journal. Where jobs always wait the journal ends early, and the next begins at the first submit at which none
    /// waits. It ends early too where its writer is so slow that it finds an entry kept no longer (see
    /// [`Builder::keep`]). Where five schedulers are over before the writer has come to them, the oldest is left out.
    ///
    /// Fails where a journal is being written already, or its thread does not start.
    ///
    /// ```no_run
    /// use std::fs::File;
    /// use twodfq::{KindId, Pool};
    ///
    /// let pool = Pool::builder().tenant("acme", 1).open().unwrap();
    /// let journal = pool.journal(File::create("acme.journal").unwrap()).unwrap();
    /// pool.submit("acme", KindId::FIRST, || ()).unwrap();
    /// pool.join();
    /// assert_eq!(journal.join().unwrap().missed, 0);
    /// ```
    pub fn journal(&self, to: impl Write + Send + 'static) -> io::Result<Journal> {
        let (journal, thread) = Journal::start(&self.shared, to)?;
        self.keep(thread);
        Ok(journal)
    }

    /// Closes the pool, waits until all accepted jobs are done, and returns the status. Dropping the pool waits too. In
    /// a job of the pool's own neither waits.
    ///
    /// ```
    /// use twodfq::{KindId, Pool};
    ///
    /// let pool = Pool::builder().tenant("acme", 1).open().unwrap();
    /// let handle = pool.submit("acme", KindId::FIRST, || 42).unwrap();
    /// let status = pool.join();
    /// assert_eq!((status.waiting, status.tenants[0].done), (0, 1));
    /// assert_eq!(handle.join().unwrap(), 42);
    /// ```
    pub fn join(self) -> Status {
        self.end();
        self.status()
    }

    fn end(&self) {
        self.close();
        let threads = mem::take(&mut *self.threads.lock().unwrap_or_else(PoisonError::into_inner));
        let here = thread::current().id();
        // a job that ends its pool would wait for itself, and so would the journal's thread, which waits for all jobs
        if threads.iter().all(|thread| thread.thread().id() != here) {
            threads.into_iter().for_each(|thread| drop(thread.join()));
        }
    }
}

impl Drop for Pool {
    fn drop(&mut self) {
        self.end();
    }
}

impl fmt::Debug for Pool {
    fn fmt(&self, f: &mut fmt::Formatter<'_>) -> fmt::Result {
        f.debug_struct("Pool").field("settings", &self.shared.settings).finish_non_exhaustive()
    }
}
