//! The code that Rust can't judge: the library for C, as its header has it, and its numbers as Rust's types; the
//! processor time of a thread; and jobs that borrow.
use std::ffi::{c_int, c_long, c_void};
use std::marker::PhantomData;
use std::mem;
use std::panic::{self, AssertUnwindSafe};
use std::sync::{Arc, Condvar, Mutex, PoisonError};

use crate::pool::Job;
use crate::service::withdraw::Withdrawn;
use crate::{Act, Entry, Foreseen, Refusal, Taken};

#[repr(C)]
#[derive(Debug)]
pub(crate) struct Handle {
    pub(crate) hidden: *mut c_void,
    pub(crate) is_open: bool,
}

#[repr(C)]
pub(crate) struct Opening {
    pub(crate) workers: u32,
    pub(crate) kinds: u32,
    pub(crate) entries: u32,
    pub(crate) requests: u32,
    pub(crate) policy: u32,
    pub(crate) estimate: u32,
    pub(crate) initial: u64,
    pub(crate) keep: u32,
}

#[repr(C)]
pub(crate) struct Reply {
    pub(crate) kind: u32,
    pub(crate) request: u32,
    pub(crate) first: u64,
    pub(crate) second: u64,
    pub(crate) tenant: u32,
    pub(crate) request_kind: u32,
    pub(crate) is_eligible: u32,
    pub(crate) has_smaller: u32,
}

#[repr(C)]
pub(crate) struct Line {
    kind: u32,
    who: u32,
    moment: u64,
    request: u32,
    tenant: u32,
    request_kind: u32,
    worker: u32,
    amount: u64,
    label: u64,
}

#[repr(C)]
pub(crate) struct Standing {
    /// 0, since the handle holds a scheduler.
    _kind: u32,
    waiting: u32,
    running: u32,
    virtual_steps: u32,
    virtual_units: u64,
    entries: u64,
    moment: u64,
}

extern "C" {
    pub(crate) fn twodfq_open(handle: *mut Handle, opening: *const Opening, weights: *const u32, tenants: usize)
        -> u32;
    pub(crate) fn twodfq_submit(
        handle: *mut Handle,
        who: u32,
        moment: u64,
        tenant: u32,
        kind: u32,
        declared: u64,
        label: u64,
    ) -> Reply;
    pub(crate) fn twodfq_take(handle: *mut Handle, who: u32, moment: u64, worker: u32) -> Reply;
    pub(crate) fn twodfq_report(handle: *mut Handle, who: u32, moment: u64, worker: u32, used: u64) -> Reply;
    pub(crate) fn twodfq_done(handle: *mut Handle, who: u32, moment: u64, worker: u32, cost: u64) -> Reply;
    pub(crate) fn twodfq_close(handle: *mut Handle, who: u32, moment: u64) -> Reply;
    pub(crate) fn twodfq_weight(handle: *mut Handle, who: u32, moment: u64, tenant: u32, weight: u32) -> Reply;
    pub(crate) fn twodfq_workers(handle: *mut Handle, who: u32, moment: u64, count: u32) -> Reply;
    pub(crate) fn twodfq_withdraw(handle: *mut Handle, who: u32, moment: u64, request: u32) -> Reply;
    pub(crate) fn twodfq_foresee(handle: *mut Handle, moment: u64, worker: u32, below: u64) -> Reply;
    pub(crate) fn twodfq_entry(handle: *mut Handle, index: u64) -> Line;
    pub(crate) fn twodfq_status(handle: *mut Handle) -> Standing;
    pub(crate) fn twodfq_free(handle: *mut Handle);
    fn clock_gettime(clock: c_int, time: *mut Time) -> c_int;
}

/// `struct timespec` of 64-bit Linux.
#[repr(C)]
struct Time {
    seconds: i64,
    nanoseconds: c_long,
}

/// `CLOCK_THREAD_CPUTIME_ID` of Linux.
const THREAD_TIME: c_int = 3;

/// The processor time that the calling thread has used, in nanoseconds.
pub(crate) fn thread_time() -> u64 {
    let mut time = Time { seconds: 0, nanoseconds: 0 };
    // The call writes the struct and nothing else, and a thread may always read its own clock.
    unsafe { clock_gettime(THREAD_TIME, &mut time) };
    time.seconds as u64 * 1_000_000_000 + time.nanoseconds as u64
}

impl Reply {
    /// The reply, where it is not a refusal.
    pub(crate) fn accepted(self) -> Result<Reply, Refusal> {
        Refusal::of_reply(&self).map_or(Ok(self), Err)
    }

    /// The reply to an accepted take.
    pub(crate) fn taken(self) -> Taken {
        match self.kind {
            1 => Taken::Run { request: self.request, estimate: self.first, label: self.second },
            3 => Taken::Idle,
            4 => Taken::Drained,
            5 => Taken::Retired { workers: self.first as u32 },
            kind => unreachable!("a take gets no reply of kind {kind}"),
        }
    }

    /// The reply to a `foresee` that is not refused.
    pub(crate) fn foreseen(self) -> Foreseen {
        let Reply { request, tenant, request_kind: kind, first: estimate, .. } = self;
        let (is_eligible, has_smaller) = (self.is_eligible == 1, self.has_smaller == 1);
        match self.kind {
            5 => Foreseen::Retired { workers: self.first as u32 },
            7 => Foreseen::Nothing,
            8 => Foreseen::Run { request, tenant, kind, estimate, is_eligible, has_smaller },
            kind => unreachable!("nothing of kind {kind} is foreseen"),
        }
    }
}

impl Line {
    /// The least index of the entries that are kept, in a line that is no entry.
    pub(crate) fn first_kept(&self) -> u64 {
        self.amount
    }

    /// The entry, where there is one.
    pub(crate) fn entry(self) -> Option<Entry> {
        let Line { request, tenant, worker, amount, label, .. } = self;
        let act = match self.kind {
            0 => Act::Submit { request, tenant, kind: self.request_kind, declared: amount, label },
            1 => Act::Take { worker, request, estimate: amount },
            2 => Act::Report { worker, request, used: amount },
            3 => Act::Done { worker, request, cost: amount },
            4 => Act::Close,
            5 => Act::Weight { tenant, weight: amount as u32 },
            6 => Act::Workers { count: amount as u32 },
            7 => Act::Withdraw { request },
            255 => return None,
            kind => unreachable!("no history has an entry of kind {kind}"),
        };
        Some(Entry { who: self.who, moment: self.moment, act })
    }
}

/// How many steps of virtual time a unit has.
const STEPS: u128 = 1 << 20;

impl Standing {
    pub(crate) fn standing(self) -> crate::Standing {
        let Standing { waiting, running, entries, moment, .. } = self;
        let virtual_time = u128::from(self.virtual_units) * STEPS + u128::from(self.virtual_steps);
        crate::Standing { entries, moment, virtual_time, waiting, running }
    }
}

/// How many jobs are lent.
#[derive(Default)]
struct Lent {
    count: Mutex<usize>,
    change: Condvar,
}

impl Lent {
    fn change(&self, change: impl FnOnce(&mut usize)) {
        change(&mut self.count.lock().unwrap_or_else(PoisonError::into_inner));
        self.change.notify_all();
    }

    fn wait_until_none(&self) {
        let count = self.count.lock().unwrap_or_else(PoisonError::into_inner);
        drop(self.change.wait_while(count, |count| *count > 0).unwrap_or_else(PoisonError::into_inner));
    }
}

/// Turns jobs that borrow for `'scope` into jobs of type `'static`.
pub(crate) struct Lender<'scope, 'env: 'scope> {
    lent: Arc<Lent>,
    /// As in `std::thread::Scope`: neither time may be taken for another.
    scope: PhantomData<&'scope mut &'scope ()>,
    env: PhantomData<&'env mut &'env ()>,
}

impl<'scope> Lender<'scope, '_> {
    pub(crate) fn lend(&'scope self, job: Box<dyn Job + 'scope>) -> Box<dyn Job> {
        // `lending` makes every lender, and does not end, by return or by panic, before each job that was lent has been
        // dropped, with its borrows: the job is gone before its guard counts it down. `'scope` outlives `lending`.
        let job = unsafe { mem::transmute::<Box<dyn Job + 'scope>, Box<dyn Job + 'static>>(job) };
        self.lent.change(|count| *count += 1);
        Box::new(LentJob { job: Some(job), guard: Guard(self.lent.clone()) })
    }
}

/// Fields are dropped in this order.
struct LentJob {
    job: Option<Box<dyn Job>>,
    guard: Guard,
}

struct Guard(Arc<Lent>);

impl Drop for Guard {
    fn drop(&mut self) {
        self.0.change(|count| *count -= 1);
    }
}

impl Job for LentJob {
    fn run(self: Box<Self>) -> bool {
        let LentJob { job, guard } = *self;
        // by return or by panic, the job is gone when this call ends, and then the guard is dropped
        let panicked = job.is_none_or(|job| job.run());
        drop(guard);
        panicked
    }

    fn withdraw(self: Box<Self>, why: Withdrawn) {
        let LentJob { job, guard } = *self;
        if let Some(job) = job {
            job.withdraw(why);
        }
        drop(guard);
    }
}

/// Calls the body with a lender, and waits until all lent jobs are gone.
pub(crate) fn lending<'env, R>(body: impl for<'scope> FnOnce(&'scope Lender<'scope, 'env>) -> R) -> R {
    let lender = Lender { lent: Arc::default(), scope: PhantomData, env: PhantomData };
    let reply = panic::catch_unwind(AssertUnwindSafe(|| body(&lender)));
    lender.lent.wait_until_none();
    reply.unwrap_or_else(|payload| panic::resume_unwind(payload))
}

#[cfg(test)]
mod tests {
    use super::*;

    fn accepted() -> Reply {
        let (tenant, request_kind, is_eligible, has_smaller) = (0, 0, 0, 0);
        Reply { kind: 2, request: 0, first: 0, second: 0, tenant, request_kind, is_eligible, has_smaller }
    }

    #[test]
    #[should_panic = "no reply of kind 2"]
    fn a_take_that_is_answered_otherwise() {
        accepted().taken();
    }

    #[test]
    #[should_panic = "nothing of kind 2 is foreseen"]
    fn a_take_that_is_foreseen_otherwise() {
        accepted().foreseen();
    }

    #[test]
    #[should_panic = "no history has an entry of kind 8"]
    fn an_entry_of_another_kind() {
        let numbers =
            Line { kind: 8, who: 0, moment: 0, request: 0, tenant: 0, request_kind: 0, worker: 0, amount: 0, label: 0 };
        numbers.entry();
    }
}
