//! The builder of a pool and of permits.
use std::sync::Arc;
use std::time::Duration;

use super::clock::Measure;
use super::names::Names;
use super::settings::Settings;
use super::trace::{Hook, Hooked};
use crate::config::MOST_ENTRIES;
use crate::{Estimator, Policy};

/// The most entries of a history whose journal `twodfq check` reads.
const MOST_JUDGED: u32 = 1_048_576;

/// Of the journals whose numbers `twodfq check` reads, that with the longest head and the longest lines fits in the bytes
/// that it reads at most.
const _: () = {
    const READ: usize = 64 << 20;
    const ENTRY: usize = "submit 4096 1000000000000000 1048576 4095 63 1000000000 262143\n".len();
    const TENANT: usize = "tenant  1000\n".len() + 64;
    const KIND: usize = "kind \n".len() + 64;
    const FIRST: usize = 100;
    assert!(FIRST + 4096 * TENANT + 64 * KIND + MOST_JUDGED as usize * ENTRY <= READ);
};

/// The options of a pool or of permits. All but the tenants have a default.
///
/// ```
/// use std::time::Duration;
/// use twodfq::{Estimator, KindId, Measure, Policy, Pool, TenantId};
///
/// let pool = Pool::builder()
///     .workers(4)
///     .most_workers(8)
///     .tenant("acme", 1)
///     .tenant("globex", 2)
///     .kind("get")
///     .kind("scan")
///     .policy(Policy::TwoDfq)
///     .estimator(Estimator::Pessimistic)
///     .initial(1000)
///     .patience(0.02)
///     .measure(Measure::Wall)
///     .refresh(Duration::from_millis(10))
///     .room(10_000)
///     .entries(1_000_000)
///     .keep(100_000)
///     .open()
///     .unwrap();
/// assert_eq!(pool.tenant("globex"), Some(TenantId::new(1)));
/// assert_eq!(pool.kind("scan"), Some(KindId::new(1)));
/// ```
#[derive(Clone, Debug)]
pub struct Builder {
    pub(crate) workers: u32,
    pub(crate) weights: Vec<u32>,
    pub(crate) entries: Option<u32>,
    pub(crate) settings: Settings,
    /// How many requests of some kinds of a tenant may run at once.
    pub(crate) limits: Vec<(String, u32)>,
    pub(crate) most_tenants: Option<u32>,
    pub(crate) measure: Measure,
    pub(crate) refresh: Duration,
}

impl Builder {
    pub(crate) fn new() -> Builder {
        let settings = Settings {
            most_workers: 0,
            tenants: Names::default(),
            named: 0,
            default_weight: 1,
            kinds: Names::default(),
            entries: MOST_ENTRIES,
            keep: 65_536,
            judged: MOST_JUDGED,
            room: 10_000,
            room_per_tenant: None,
            most_running: None,
            kinds_running: Vec::new(),
            policy: Policy::default(),
            estimator: Estimator::Pessimistic,
            initial: 1000,
            patience: 0.02,
            hook: Hooked::default(),
        };
        let refresh = Duration::from_millis(10);
        Builder {
            workers: 4,
            weights: Vec::new(),
            entries: None,
            settings,
            limits: Vec::new(),
            most_tenants: None,
            measure: Measure::Wall,
            refresh,
        }
    }

    /// How many workers run jobs at first, or how many permits there are: 1 to 4,096, by default 4.
    ///
    /// ```
    /// let pool = twodfq::Pool::builder().tenant("acme", 1).workers(8).open().unwrap();
    /// assert_eq!(pool.status().workers, 8);
    /// ```
    pub fn workers(mut self, count: u32) -> Builder {
        self.workers = count;
        self
    }

    /// How many workers or permits there may ever be; by default as many as at first. Each worker of a pool has a
    /// thread from the opening on.
    ///
    /// ```
    /// let pool = twodfq::Pool::builder().tenant("acme", 1).workers(1).most_workers(8).open().unwrap();
    /// pool.workers(8).unwrap();
    /// ```
    pub fn most_workers(mut self, count: u32) -> Builder {
        self.settings.most_workers = count;
        self
    }

    /// One more tenant, of a weight from 1 to 100,000; 1 to 65,536 tenants. They are numbered from 0. A name has 1 to
    /// 64 ASCII letters, digits, `_`, `-` and `.`.
    ///
    /// ```
    /// use twodfq::{Pool, TenantId};
    ///
    /// let pool = Pool::builder().tenant("acme", 1).tenant("globex", 7).open().unwrap();
    /// assert_eq!(pool.tenant("globex"), Some(TenantId::new(1)));
    /// ```
    pub fn tenant(mut self, name: &str, weight: u32) -> Builder {
        self.settings.tenants.push(name);
        self.weights.push(weight);
        self
    }

    /// How many tenants there may be at once, 1 to 65,536, with the tenants of the opening; by default these alone.
    ///
    /// Further tenants come by name, any text of 1 to 256 bytes. A new tenant gets a free slot, or the slot of the
    /// tenant that has been idle longest. Where every slot's tenant has a request that waits or runs, the call is
    /// refused with [`Cause::NoSlot`](crate::Cause::NoSlot). So memory stays flat over any number of names,
    /// but for an entry for each name whose weight was set.
    ///
    /// A new tenant inherits the slot's estimates of costs and its place in virtual time. Under the default policy that
    /// place is close to where a new tenant would begin. The counts of a tenant that left go to
    /// [`Status::others`](crate::Status::others). Journals name such a slot by its number, `slot.17`.
    ///
    /// ```
    /// use twodfq::{KindId, Permits};
    ///
    /// let permits = Permits::builder().most_tenants(100).open_permits().unwrap();
    /// for number in 0..1000 {
    ///     permits.try_acquire(&format!("tenant {number}"), KindId::FIRST).unwrap();
    /// }
    /// assert!(permits.tenant("tenant 900").is_some() && permits.tenant("tenant 899").is_none());
    /// ```
    pub fn most_tenants(mut self, tenants: u32) -> Builder {
        self.most_tenants = Some(tenants);
        self
    }

    /// The weight of tenants that come by name, 1 to 100,000; by default 1. A weight set later, by `weight`, is kept for
    /// the tenant's return.
    ///
    /// ```
    /// use twodfq::{KindId, Permits};
    ///
    /// let permits = Permits::builder().most_tenants(1).default_weight(10).open_permits().unwrap();
    /// permits.weight("acme", 50).unwrap();
    /// for (name, weight) in [("acme", 50), ("globex", 10), ("acme", 50)] {
    ///     permits.try_acquire(name, KindId::FIRST).unwrap();
    ///     assert_eq!(permits.status().tenants[0].weight, weight);
    /// }
    /// ```
    pub fn default_weight(mut self, weight: u32) -> Builder {
        self.settings.default_weight = weight;
        self
    }

    /// One more kind of jobs, numbered from 0; by default there is one, `-`. At most 64, and 1,048,576 pairs of a
    /// tenant and a kind. Costs are estimated for each tenant and kind.
    ///
    /// ```
    /// use twodfq::{KindId, Pool};
    ///
    /// let pool = Pool::builder().tenant("acme", 1).kind("get").kind("scan").open().unwrap();
    /// assert_eq!(pool.kind("scan"), Some(KindId::new(1)));
    /// ```
    pub fn kind(mut self, name: &str) -> Builder {
        self.settings.kinds.push(name);
        self
    }

    /// Which waiting job a worker takes; by default `Policy::default()`.
    ///
    /// ```
    /// use twodfq::{KindId, Pool};
    ///
    /// let pool = Pool::builder().tenant("acme", 1).policy(twodfq::Policy::Wf2q).open().unwrap();
    /// pool.submit("acme", KindId::FIRST, || ()).unwrap();
    /// ```
    pub fn policy(mut self, policy: Policy) -> Builder {
        self.settings.policy = policy;
        self
    }

    /// The estimator of a job's cost; by default [`Estimator::Pessimistic`].
    ///
    /// ```
    /// use twodfq::{KindId, Pool};
    ///
    /// let pool = Pool::builder().tenant("acme", 1).estimator(twodfq::Estimator::Recent).open().unwrap();
    /// pool.submit("acme", KindId::FIRST, || ()).unwrap();
    /// ```
    pub fn estimator(mut self, estimator: Estimator) -> Builder {
        self.settings.estimator = estimator;
        self
    }

    /// The estimate before any completion, which `submit` declares: 1 to 1,000,000,000 microseconds, by default 1000.
    ///
    /// ```
    /// use twodfq::{KindId, Pool};
    ///
    /// let pool = Pool::builder().tenant("acme", 1).initial(20_000).open().unwrap();
    /// pool.submit("acme", KindId::FIRST, || ()).unwrap();
    /// ```
    pub fn initial(mut self, microseconds: u64) -> Builder {
        self.settings.initial = microseconds;
        self
    }

    /// The part of its time that the pool may lose so that cheap jobs find a free worker: 0 to 1, by default 0.02. 0
    /// turns patience off.
    ///
    /// Where cheap tenants ask for less than their share there are moments at which no cheap job waits. Without
    /// patience every worker then takes a costly job before its time, and the next cheap job waits until one of these
    /// ends. A patient worker waits a little before that, and takes the cheap job that comes meanwhile.
    ///
    /// A wait ends at the latest when `part` times the estimate of the job that would be taken has passed since the
    /// worker became free, by its last job's end or its start. The worker asks again whenever something changes, since
    /// then there may be a job whose time has come. All waits together last at most `part` of the jobs' cost so far,
    /// and of a second of every worker besides. So in the long run the pool keeps at least 1 / (1 + `part`) of its
    /// time. By the first bound alone it would not, since a worker may wait anew after each cheap job.
    ///
    /// No worker waits where one tenant alone has jobs in the pool, where a sleep would take longer than the wait
    /// (about 60 microseconds), while an older scheduler has jobs that wait (see [`Builder::entries`]), or once the
    /// pool is closed.
    ///
    /// ```
    /// use twodfq::{BuildFault, KindId, Pool};
    ///
    /// let pool = Pool::builder().tenant("acme", 1).tenant("globex", 1).patience(0.05).open().unwrap();
    /// pool.submit("acme", KindId::FIRST, || ()).unwrap();
    /// assert!(matches!(Pool::builder().tenant("acme", 1).patience(1.5).open(), Err(BuildFault::Patience(1.5))));
    /// ```
    pub fn patience(mut self, part: f64) -> Builder {
        self.settings.patience = part;
        self
    }

    /// By which clock costs are measured; by default [`Measure::Wall`], which is the only one for permits.
    ///
    /// ```
    /// use twodfq::{KindId, Pool};
    ///
    /// let pool = Pool::builder().tenant("acme", 1).measure(twodfq::Measure::Processor).open().unwrap();
    /// pool.submit("acme", KindId::FIRST, || ()).unwrap();
    /// ```
    pub fn measure(mut self, measure: Measure) -> Builder {
        self.measure = measure;
        self
    }

    /// The time after which a running job reports once more where it calls [`tick`](crate::tick), and a held permit
    /// before the next grant; by default 10 milliseconds.
    ///
    /// ```
    /// use std::time::Duration;
    /// use twodfq::{KindId, Pool};
    ///
    /// let pool = Pool::builder().tenant("acme", 1).refresh(Duration::ZERO).open().unwrap();
    /// pool.submit("acme", KindId::FIRST, twodfq::tick).unwrap();
    /// assert_eq!(pool.join().tenants[0].reports, 1);
    /// ```
    pub fn refresh(mut self, time: Duration) -> Builder {
        self.refresh = time;
        self
    }

    /// After how many entries the next scheduler takes over: 16 to 4,194,304, and up to 4,000,000,000 where `keep` is
    /// not 0; by default 4,000,000,000, or 1,000,000 where `keep` is 0. A job makes three, and each report and change
    /// one. An entry that is not kept takes no memory. The jobs of the next scheduler wait for the older waiting jobs.
    ///
    /// ```
    /// use twodfq::{KindId, Pool};
    ///
    /// let pool = Pool::builder().tenant("acme", 1).entries(16).open().unwrap();
    /// for _ in 0..100 {
    ///     pool.submit("acme", KindId::FIRST, || ()).unwrap();
    /// }
    /// assert!(pool.join().schedulers > 10);
    /// ```
    pub fn entries(mut self, entries: u32) -> Builder {
        self.entries = Some(entries);
        self
    }

    /// How many of a scheduler's last entries are kept, for a journal to read: by default 65,536. Each takes 48 bytes.
    /// 0, and any number above `entries`, keeps all, so that no journal ends early because its writer is slow.
    ///
    /// ```
    /// use twodfq::{KindId, Pool};
    ///
    /// let pool = Pool::builder().tenant("acme", 1).keep(1024).open().unwrap();
    /// pool.submit("acme", KindId::FIRST, || ()).unwrap();
    /// ```
    pub fn keep(mut self, entries: u32) -> Builder {
        self.settings.keep = entries;
        self
    }

    /// A hook for the events of requests; by default there is none.
    ///
    /// ```
    /// use twodfq::{Hook, Pool};
    ///
    /// struct Nothing;
    /// impl Hook for Nothing {}
    /// let pool = Pool::builder().tenant("acme", 1).hook(Nothing).open().unwrap();
    /// ```
    pub fn hook(mut self, hook: impl Hook + 'static) -> Builder {
        self.settings.hook = Hooked(Some(Arc::new(hook)));
        self
    }

    /// Has journals end as if `twodfq check` read no more entries than these, for tests.
    #[doc(hidden)]
    pub fn judged(mut self, entries: u32) -> Builder {
        self.settings.judged = entries;
        self
    }
}
