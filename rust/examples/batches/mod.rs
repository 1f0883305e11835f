//! Empty and short jobs, handed in by one thread in batches.
use std::hint;
use std::sync::atomic::{AtomicUsize, Ordering};
use std::sync::Arc;
use std::thread;
use std::time::{Duration, Instant};

use twodfq::{Builder, KindId, Pool, TenantId};

const BATCH: usize = 5000;
const TENANTS: u32 = 16;

/// A way to hand in a job with a number.
pub type Submit<'a> = &'a dyn Fn(u32, Box<dyn FnOnce() + Send>);

/// The builder of a pool of sixteen tenants.
pub fn builder(workers: u32) -> Builder {
    (0..TENANTS).fold(Pool::builder(), |builder, i| builder.tenant(&format!("t{i}"), 1)).workers(workers)
}

/// Hands a job in for a tenant of such a pool.
pub fn submit(pool: &Pool, number: u32, job: Box<dyn FnOnce() + Send>) {
    drop(pool.submit(TenantId::new(number % TENANTS), KindId::FIRST, job));
}

fn work(time: Duration) {
    let begun = Instant::now();
    while begun.elapsed() < time {
        hint::spin_loop();
    }
}

/// Nanoseconds a job from its submit to its end, in the mean of the batches, of which each waits for the end of the
/// last.
pub fn nanoseconds(submit: Submit, time: Duration, batches: usize) -> u64 {
    let done = Arc::new(AtomicUsize::new(0));
    let waits = thread::current();
    let begun = Instant::now();
    for batch in 1..=batches {
        for number in 0..BATCH {
            let (done, waits) = (done.clone(), waits.clone());
            let job = move || {
                if !time.is_zero() {
                    work(time);
                }
                if (done.fetch_add(1, Ordering::AcqRel) + 1) % BATCH == 0 {
                    waits.unpark();
                }
            };
            submit(number as u32, Box::new(job));
        }
        while done.load(Ordering::Acquire) < batch * BATCH {
            thread::park();
        }
    }
    begun.elapsed().as_nanos() as u64 / (batches * BATCH) as u64
}
