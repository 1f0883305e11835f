//! Permits that are asked for in every way, and held by the threads that asked for them.
use std::future::Future;
use std::panic::{self, AssertUnwindSafe};
use std::pin::Pin;
use std::sync::atomic::{AtomicU32, Ordering};
use std::task::{Context, Poll, Waker};
use std::thread;
use std::time::Instant;

use twodfq::{Cause, KindId, Permit, Permits};

use crate::names::{Names, STAY};
use crate::random::Random;
use crate::tally::Tally;
use crate::Fault;

/// The number of threads that ask for permits.
pub const THREADS: u64 = 8;

/// The greatest number of permits, fewer than threads, so that some threads wait.
pub const MOST_PERMITS: u32 = 6;

pub fn open() -> Result<Permits, Fault> {
    let builder = STAY.iter().fold(Permits::builder(), |builder, (name, weight)| builder.tenant(name, *weight));
    let builder = builder.workers(2).most_workers(MOST_PERMITS).most_tenants(12).kind("get").kind("scan");
    Ok(builder.entries(20_000).keep(0).open_permits()?)
}

/// Asks for permits until the end.
pub fn ask(
    permits: &Permits,
    names: &Names,
    held: &AtomicU32,
    mut random: Random,
    end: Instant,
) -> Result<Tally, Fault> {
    let mut tally = Tally::default();
    while Instant::now() < end {
        match ask_once(permits, &names.name(&mut random), &mut random) {
            Ok(Some(permit)) => hold(permit, held, &mut random, &mut tally)?,
            Ok(None) => tally.dropped += 1,
            Err(Cause::Late) => tally.late += 1,
            Err(Cause::NoneFree | Cause::TenantFull(_) | Cause::TooManyWait(_) | Cause::NoSlot) => tally.refused += 1,
            Err(other) => return Err(other.into()),
        }
    }
    Ok(tally)
}

/// None where the request was dropped while it waited.
fn ask_once(permits: &Permits, tenant: &str, random: &mut Random) -> Result<Option<Permit>, Cause> {
    let (kind, time) = (KindId::new(random.below(2) as u32), random.microseconds(3000));
    match random.below(6) {
        0 => permits.acquire_blocking(tenant, kind).map(Some),
        1 => permits.acquire_timeout(tenant, kind, time).map(Some),
        2 => permits.try_acquire(tenant, kind).map(Some),
        3 => permits.acquire_by(tenant, kind, Instant::now() + time).wait().map(Some),
        way => {
            let mut acquire = permits.acquire(tenant, kind);
            match Pin::new(&mut acquire).poll(&mut Context::from_waker(Waker::noop())) {
                Poll::Ready(result) => result.map(Some),
                Poll::Pending if way == 4 => acquire.wait().map(Some),
                Poll::Pending => Ok(None),
            }
        }
    }
}

/// Holds a permit for a while, and ends it in one of its ways.
fn hold(permit: Permit, held: &AtomicU32, random: &mut Random, tally: &mut Tally) -> Result<(), Fault> {
    let others = held.fetch_add(1, Ordering::SeqCst);
    if others >= MOST_PERMITS {
        return Err(format!("{} permits are held, and there are {MOST_PERMITS}", others + 1).into());
    }
    if random.percent(50) {
        thread::sleep(random.microseconds(300));
    }
    held.fetch_sub(1, Ordering::SeqCst);
    match random.below(10) {
        0 => permit.finish(1 + random.below(1000)),
        1 => {
            permit.used(1 + random.below(500));
            permit.finish(1 + random.below(1000));
        }
        2 => {
            let panics = move || {
                let _permit = permit;
                panic!("{}", crate::PANIC)
            };
            _ = panic::catch_unwind(AssertUnwindSafe(panics));
            tally.panicked += 1;
            return Ok(());
        }
        _ => drop(permit),
    }
    tally.done += 1;
    Ok(())
}
