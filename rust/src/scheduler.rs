//! The calls of the library, safe for Rust.
use std::ptr;

use crate::calls::{Entry, Foreseen, Standing, Submit, Taken};
use crate::config::Config;
use crate::ffi;
use crate::refusal::{OpenFault, Refusal};

/// A scheduler. No call but [`Scheduler::open`] takes memory.
///
/// ```
/// use twodfq::{Config, Scheduler};
///
/// let mut scheduler = Scheduler::open(&Config { weights: &[1, 2], ..Config::default() }).unwrap();
/// scheduler.close(0, 0).unwrap();
/// ```
#[derive(Debug)]
pub struct Scheduler {
    handle: ffi::Handle,
}

// It owns plain data on the heap, and `&mut` gives it to one call at a time. That a handle may be sent is proved.
unsafe impl Send for Scheduler {}

impl Scheduler {
    /// Takes all the memory that the scheduler will use.
    ///
    /// ```
    /// use twodfq::{Config, Scheduler, OpenFault};
    ///
    /// assert!(Scheduler::open(&Config::default()).is_ok());
    /// let fault = Scheduler::open(&Config { workers: 4097, ..Config::default() }).unwrap_err();
    /// assert_eq!(fault, OpenFault::Workers);
    /// ```
    pub fn open(config: &Config) -> Result<Scheduler, OpenFault> {
        let opening = ffi::Opening {
            workers: config.workers,
            kinds: config.kinds,
            entries: config.entries,
            requests: config.requests,
            policy: config.policy as u32,
            estimate: config.estimate as u32,
            initial: config.initial,
            keep: config.keep,
        };
        let mut scheduler = Scheduler { handle: ffi::Handle { hidden: ptr::null_mut(), is_open: false } };
        let weights = config.weights;
        let status = unsafe { ffi::twodfq_open(&mut scheduler.handle, &opening, weights.as_ptr(), weights.len()) };
        OpenFault::of_status(status).map_or(Ok(scheduler), Err)
    }

    /// A request is submitted; it gets the next number.
    ///
    /// ```
    /// use twodfq::{Config, Scheduler, Refusal, Submit};
    ///
    /// let mut scheduler = Scheduler::open(&Config { weights: &[1, 2], ..Config::default() }).unwrap();
    /// let request = Submit { tenant: 1, kind: 0, declared: 5, label: 42 };
    /// assert_eq!(scheduler.submit(0, 0, request), Ok(0));
    /// assert_eq!(scheduler.submit(0, 0, Submit { tenant: 2, ..request }), Err(Refusal::Tenant(2)));
    /// ```
    pub fn submit(&mut self, who: u32, moment: u64, request: Submit) -> Result<u32, Refusal> {
        let Submit { tenant, kind, declared, label } = request;
        let reply = unsafe { ffi::twodfq_submit(&mut self.handle, who, moment, tenant, kind, declared, label) };
        Ok(reply.accepted()?.request)
    }

    /// A worker asks for work.
    ///
    /// ```
    /// use twodfq::{Config, Scheduler, Submit, Taken};
    ///
    /// let mut scheduler = Scheduler::open(&Config { weights: &[1, 2], ..Config::default() }).unwrap();
    /// scheduler.submit(0, 0, Submit { tenant: 1, kind: 0, declared: 5, label: 42 }).unwrap();
    /// assert_eq!(scheduler.take(1, 3, 0), Ok(Taken::Run { request: 0, estimate: 1000, label: 42 }));
    /// ```
    pub fn take(&mut self, who: u32, moment: u64, worker: u32) -> Result<Taken, Refusal> {
        Ok(unsafe { ffi::twodfq_take(&mut self.handle, who, moment, worker) }.accepted()?.taken())
    }

    /// The use of the worker's request so far; it runs on.
    ///
    /// ```
    /// use twodfq::{Config, Scheduler, Refusal};
    ///
    /// let mut scheduler = Scheduler::open(&Config { weights: &[1, 2], ..Config::default() }).unwrap();
    /// assert_eq!(scheduler.report(1, 5, 0, 2), Err(Refusal::NotRunning));
    /// ```
    pub fn report(&mut self, who: u32, moment: u64, worker: u32, used: u64) -> Result<(), Refusal> {
        unsafe { ffi::twodfq_report(&mut self.handle, who, moment, worker, used) }.accepted().map(drop)
    }

    /// The worker's request has ended, at this measured cost. A tenant whose requests cost 0 may be taken for ever
    /// while others wait, so count at least 1.
    ///
    /// ```
    /// use twodfq::{Config, Scheduler, Submit};
    ///
    /// let mut scheduler = Scheduler::open(&Config { weights: &[1, 2], ..Config::default() }).unwrap();
    /// scheduler.submit(0, 0, Submit { tenant: 1, kind: 0, declared: 5, label: 42 }).unwrap();
    /// scheduler.take(1, 3, 0).unwrap();
    /// assert_eq!(scheduler.done(1, 8, 0, 5), Ok(()));
    /// ```
    pub fn done(&mut self, who: u32, moment: u64, worker: u32, cost: u64) -> Result<(), Refusal> {
        unsafe { ffi::twodfq_done(&mut self.handle, who, moment, worker, cost) }.accepted().map(drop)
    }

    /// Refuses further requests. The caller has to wake the workers that wait.
    ///
    /// ```
    /// use twodfq::{Config, Scheduler, Refusal, Taken};
    ///
    /// let mut scheduler = Scheduler::open(&Config { weights: &[1, 2], ..Config::default() }).unwrap();
    /// scheduler.close(0, 0).unwrap();
    /// assert_eq!(scheduler.close(0, 0), Err(Refusal::Closed));
    /// assert_eq!(scheduler.take(1, 0, 0), Ok(Taken::Drained));
    /// ```
    pub fn close(&mut self, who: u32, moment: u64) -> Result<(), Refusal> {
        unsafe { ffi::twodfq_close(&mut self.handle, who, moment) }.accepted().map(drop)
    }

    /// The tenant has this weight from now on, 1 to 100,000.
    ///
    /// ```
    /// use twodfq::{Config, Scheduler, Refusal};
    ///
    /// let mut scheduler = Scheduler::open(&Config { weights: &[1, 2], ..Config::default() }).unwrap();
    /// assert_eq!(scheduler.weight(0, 0, 1, 7), Ok(()));
    /// assert_eq!(scheduler.weight(0, 0, 1, 0), Err(Refusal::Weight(0)));
    /// ```
    pub fn weight(&mut self, who: u32, moment: u64, tenant: u32, weight: u32) -> Result<(), Refusal> {
        unsafe { ffi::twodfq_weight(&mut self.handle, who, moment, tenant, weight) }.accepted().map(drop)
    }

    /// The number of workers from now on, 1 to that of the opening; the workers with the least numbers stay.
    ///
    /// ```
    /// use twodfq::{Config, Scheduler, Taken};
    ///
    /// let mut scheduler = Scheduler::open(&Config { weights: &[1, 2], ..Config::default() }).unwrap();
    /// scheduler.workers(0, 0, 1).unwrap();
    /// assert_eq!(scheduler.take(1, 0, 3), Ok(Taken::Retired { workers: 1 }));
    /// ```
    pub fn workers(&mut self, who: u32, moment: u64, count: u32) -> Result<(), Refusal> {
        unsafe { ffi::twodfq_workers(&mut self.handle, who, moment, count) }.accepted().map(drop)
    }

    /// A request that waits is withdrawn: it is never taken, and costs nothing. Returns its label. A withdraw may come
    /// after a close, too.
    ///
    /// ```
    /// use twodfq::{Config, Refusal, Scheduler, Submit, Taken};
    ///
    /// let mut scheduler = Scheduler::open(&Config { weights: &[1, 2], ..Config::default() }).unwrap();
    /// let request = scheduler.submit(0, 0, Submit { tenant: 1, kind: 0, declared: 5, label: 42 }).unwrap();
    /// assert_eq!(scheduler.withdraw(0, 3, request), Ok(42));
    /// assert_eq!(scheduler.withdraw(0, 4, request), Err(Refusal::NotWaiting(request)));
    /// assert_eq!(scheduler.take(1, 5, 0), Ok(Taken::Idle));
    /// ```
    pub fn withdraw(&mut self, who: u32, moment: u64, request: u32) -> Result<u64, Refusal> {
        Ok(unsafe { ffi::twodfq_withdraw(&mut self.handle, who, moment, request) }.accepted()?.second)
    }

    /// Foresees a take by the worker at this moment, and whether a head that is eligible for the worker then has an
    /// estimate below `below`, in microseconds. The call changes nothing, and calls after it may be at earlier moments.
    /// Refused as a take would be.
    ///
    /// ```
    /// use twodfq::{Config, Estimator, Foreseen, Policy, Refusal, Scheduler, Submit};
    ///
    /// let (policy, estimate) = (Policy::TwoDfq, Estimator::Declared);
    /// let config = Config { weights: &[1], workers: 2, policy, estimate, ..Config::default() };
    /// let mut scheduler = Scheduler::open(&config).unwrap();
    /// for label in [42, 43] {
    ///     scheduler.submit(0, 0, Submit { tenant: 0, kind: 0, declared: 10, label }).unwrap();
    /// }
    /// assert!(matches!(scheduler.foresee(0, 0, 0), Ok(Foreseen::Run { request: 0, is_eligible: true, .. })));
    /// scheduler.take(1, 0, 0).unwrap();
    /// assert_eq!(scheduler.foresee(0, 0, 0), Err(Refusal::Busy(0)));
    /// // the second starts at 10, where virtual time comes at 2 units a microsecond, and worker 1 may begin it half its
    /// // length before
    /// let second = |is_eligible, has_smaller| {
    ///     Ok(Foreseen::Run { request: 1, tenant: 0, kind: 0, estimate: 10, is_eligible, has_smaller })
    /// };
    /// assert_eq!(scheduler.foresee(2, 1, 11), second(false, false));
    /// assert_eq!(scheduler.foresee(3, 1, 11), second(true, true));
    /// assert_eq!(scheduler.foresee(3, 1, 10), second(true, false));
    /// scheduler.workers(0, 0, 1).unwrap();
    /// assert_eq!(scheduler.foresee(0, 1, 0), Ok(Foreseen::Retired { workers: 1 }));
    /// ```
    pub fn foresee(&mut self, moment: u64, worker: u32, below: u64) -> Result<Foreseen, Refusal> {
        Ok(unsafe { ffi::twodfq_foresee(&mut self.handle, moment, worker, below) }.accepted()?.foreseen())
    }

    /// The entry of the history with this index, in order of time, the first with 0, if there is one and it is kept.
    ///
    /// ```
    /// use twodfq::{Config, Scheduler};
    ///
    /// let mut scheduler = Scheduler::open(&Config { weights: &[1, 2], ..Config::default() }).unwrap();
    /// scheduler.close(0, 7).unwrap();
    /// assert_eq!(scheduler.entry(0).map(|entry| entry.moment), Some(7));
    /// assert_eq!(scheduler.entry(1), None);
    /// ```
    pub fn entry(&mut self, index: u64) -> Option<Entry> {
        unsafe { ffi::twodfq_entry(&mut self.handle, index) }.entry()
    }

    /// The least index of the entries that are kept, and how many entries there are where none is kept.
    ///
    /// ```
    /// use twodfq::{Config, Scheduler};
    ///
    /// let mut scheduler = Scheduler::open(&Config { weights: &[1, 2], keep: 1, ..Config::default() }).unwrap();
    /// scheduler.workers(0, 0, 1).unwrap();
    /// scheduler.close(0, 7).unwrap();
    /// assert_eq!(scheduler.first_kept(), 1);
    /// ```
    pub fn first_kept(&mut self) -> u64 {
        unsafe { ffi::twodfq_entry(&mut self.handle, u64::MAX) }.first_kept() // no history has this entry
    }

    /// The status after the last entry, whatever the length of the history.
    ///
    /// ```
    /// use twodfq::{Config, Scheduler, Submit};
    ///
    /// let mut scheduler = Scheduler::open(&Config { weights: &[1, 2], ..Config::default() }).unwrap();
    /// scheduler.submit(0, 5, Submit { tenant: 1, kind: 0, declared: 5, label: 42 }).unwrap();
    /// assert_eq!((scheduler.status().waiting, scheduler.status().moment), (1, 5));
    /// ```
    pub fn status(&mut self) -> Standing {
        unsafe { ffi::twodfq_status(&mut self.handle) }.standing()
    }

    /// The entries that are kept, in order of time.
    ///
    /// ```
    /// use twodfq::{Config, Scheduler};
    ///
    /// let mut scheduler = Scheduler::open(&Config { weights: &[1, 2], ..Config::default() }).unwrap();
    /// scheduler.workers(0, 0, 1).unwrap();
    /// scheduler.close(0, 7).unwrap();
    /// assert_eq!(scheduler.entries().map(|entry| entry.moment).collect::<Vec<_>>(), [0, 7]);
    /// ```
    pub fn entries(&mut self) -> impl Iterator<Item = Entry> + '_ {
        (self.first_kept()..).map_while(|index| self.entry(index))
    }

    /// The entries from this index on, in order of time. Where the entry with this index is kept no longer, the least
    /// index that is kept.
    ///
    /// ```
    /// use twodfq::{Config, Scheduler};
    ///
    /// let mut scheduler = Scheduler::open(&Config { weights: &[1, 2], keep: 1, ..Config::default() }).unwrap();
    /// scheduler.workers(0, 0, 1).unwrap();
    /// scheduler.close(0, 7).unwrap();
    /// assert_eq!(scheduler.entries_from(1).unwrap().map(|entry| entry.moment).collect::<Vec<_>>(), [7]);
    /// assert_eq!(scheduler.entries_from(0).err(), Some(1));
    /// ```
    pub fn entries_from(&mut self, index: u64) -> Result<impl Iterator<Item = Entry> + '_, u64> {
        let first = self.first_kept();
        if index < first {
            return Err(first);
        }
        Ok((index..).map_while(|index| self.entry(index)))
    }
}

impl Drop for Scheduler {
    fn drop(&mut self) {
        unsafe { ffi::twodfq_free(&mut self.handle) }
    }
}
