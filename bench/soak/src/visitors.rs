//! Visitors with a request now and then, beside floods, on a pool where nothing changes; and the bound of their wait.
use std::collections::VecDeque;
use std::sync::atomic::{AtomicU64, Ordering};
use std::sync::Arc;
use std::thread;
use std::time::{Duration, Instant};

use twodfq::{Handle, KindId, Pool, TenantId};

use crate::random::Random;
use crate::tally::Tally;
use crate::{Fault, LOST_AFTER};

const WORKERS: u32 = 4;
const FLOODS: u32 = 3;

/// The number of threads that make floods: two for each flood.
pub const FLOOD_THREADS: u64 = 2 * FLOODS as u64;

/// The number of threads that are visitors, each with a tenant of its own.
pub const VISITORS: u64 = 2;

const TENANTS: u32 = FLOODS + VISITORS as u32;

/// The number of requests that a thread of a flood has in the pool.
const BACKLOG: usize = 1000;

/// The longest delay of a thread that is woken.
const WAKE: Duration = Duration::from_millis(20);

/// Four workers, and tenants of equal weight.
pub fn open() -> Result<Pool, Fault> {
    let names = (0..TENANTS).map(|tenant| format!("tenant-{tenant}"));
    let builder = names.fold(Pool::builder().workers(WORKERS), |builder, name| builder.tenant(&name, 1));
    Ok(builder.keep(16_384).open()?)
}

/// The longest wait of a visitor, if no request is longer than `greatest`.
///
/// Under `2dfq+`, on n workers, a tenant that waits is behind no other by floor(3n/2) + 2 requests of the greatest
/// length. So while the one request of a visitor waits, each other tenant gets twice that at most: it was behind by
/// that, and gets ahead by that. All workers serve them meanwhile. One length more is for the requests that run at first.
pub fn bound(greatest: Duration) -> Duration {
    let lead = 3 * WORKERS / 2 + 2;
    greatest * (2 * lead * (TENANTS - 1) / WORKERS + 1) + WAKE
}

/// The greatest times of the requests.
#[derive(Default)]
pub struct Times {
    greatest: AtomicU64,
    wait: AtomicU64,
}

impl Times {
    /// The longest request, by its own clock.
    pub fn greatest(&self) -> Duration {
        Duration::from_micros(self.greatest.load(Ordering::Relaxed))
    }

    /// The longest wait of a visitor.
    pub fn wait(&self) -> Duration {
        Duration::from_micros(self.wait.load(Ordering::Relaxed))
    }
}

/// Submits a request that sleeps for a while. Its result is its wait.
fn submit(pool: &Pool, tenant: u32, time: Duration, times: &Arc<Times>) -> Result<Handle<Duration>, Fault> {
    let (asked, times) = (Instant::now(), times.clone());
    let job = move || {
        let (waited, begun) = (asked.elapsed(), Instant::now());
        thread::sleep(time);
        times.greatest.fetch_max(begun.elapsed().as_micros() as u64, Ordering::Relaxed);
        waited
    };
    Ok(pool.submit(TenantId::new(tenant), KindId::FIRST, job)?)
}

fn join(handle: Handle<Duration>, tally: &mut Tally) -> Result<Duration, Fault> {
    let waited = handle.join_timeout(LOST_AFTER).map_err(|handle| format!("a request waits on: {handle:?}"))??;
    tally.done += 1;
    Ok(waited)
}

/// Has many requests in the pool until the end.
pub fn flood(pool: &Pool, thread: u64, times: &Arc<Times>, mut random: Random, end: Instant) -> Result<Tally, Fault> {
    let mut tally = Tally::default();
    let mut handles = VecDeque::with_capacity(BACKLOG);
    while Instant::now() < end {
        let time = Duration::from_millis(1) + random.microseconds(1000);
        handles.push_back(submit(pool, thread as u32 % FLOODS, time, times)?);
        let oldest = if handles.len() < BACKLOG { None } else { handles.pop_front() };
        if let Some(handle) = oldest {
            join(handle, &mut tally)?;
        }
    }
    for handle in handles {
        join(handle, &mut tally)?;
    }
    Ok(tally)
}

/// Has one request in the pool, again and again until the end, once the floods are there.
pub fn visit(pool: &Pool, visitor: u64, times: &Arc<Times>, mut random: Random, end: Instant) -> Result<Tally, Fault> {
    let mut tally = Tally::default();
    while Instant::now() < end {
        thread::sleep(random.microseconds(20_000));
        let handle = submit(pool, FLOODS + visitor as u32, random.microseconds(1000), times)?;
        let waited = join(handle, &mut tally)?;
        times.wait.fetch_max(waited.as_micros() as u64, Ordering::Relaxed);
    }
    Ok(tally)
}
