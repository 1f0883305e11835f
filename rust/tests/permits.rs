//! Permits: which request gets one, and when, and that none is lost.
use std::future::Future;
use std::hint;
use std::panic;
use std::pin::Pin;
use std::sync::atomic::{AtomicUsize, Ordering};
use std::sync::Arc;
use std::task::{Context, Poll, Wake, Waker};
use std::thread;
use std::time::{Duration, Instant};

use twodfq::{Acquire, Builder, Cause, KindId, Permit, Permits, TenantId};

mod executor;

use executor::block_on;

/// The time limit of a call that ends at once on a processor of its own.
const LIMIT: Duration = Duration::from_secs(20);

fn builder() -> Builder {
    Permits::builder().workers(4).tenant("acme", 1).tenant("globex", 2).tenant("hooli", 3).kind("get").kind("scan")
}

/// A waker that counts.
#[derive(Default)]
struct Counts(AtomicUsize);

impl Wake for Counts {
    fn wake(self: Arc<Self>) {
        self.0.fetch_add(1, Ordering::SeqCst);
    }
}

fn poll(acquire: &mut Acquire, counts: &Arc<Counts>) -> Poll<Result<Permit, Cause>> {
    Pin::new(acquire).poll(&mut Context::from_waker(&Waker::from(counts.clone())))
}

/// A request that waits.
fn waiting(permits: &Permits, tenant: &str) -> (Acquire, Arc<Counts>) {
    let (mut acquire, counts) = (permits.acquire(tenant, KindId::FIRST), Arc::default());
    assert!(poll(&mut acquire, &counts).is_pending());
    (acquire, counts)
}

/// Takes this number of permits, each of which comes soon; then none is free.
fn take_all(permits: &Permits, count: u32) {
    let take = |i| permits.acquire_timeout(TenantId::new(i % 3), KindId::FIRST, LIMIT).unwrap();
    let held: Vec<Permit> = (0..count).map(take).collect();
    assert_eq!(permits.try_acquire("acme", KindId::FIRST).unwrap_err(), Cause::NoneFree);
    drop(held);
}

#[test]
fn nothing_is_asked_for_before_a_poll() {
    let permits = builder().open_permits().unwrap();
    let acquire = permits.acquire("acme", KindId::FIRST);
    assert_eq!(permits.status().tenants[0].submitted, 0);
    assert!(block_on(acquire).is_ok());
    assert_eq!(permits.status().tenants[0].submitted, 1);
}

#[test]
fn who_waits_is_woken_with_a_permit_of_its_own() {
    let permits = builder().workers(1).open_permits().unwrap();
    let held = permits.try_acquire("acme", KindId::FIRST).unwrap();
    let (mut first, first_woken) = waiting(&permits, "globex");
    let (mut second, second_woken) = waiting(&permits, "hooli");
    drop(held);
    let woken = [&first_woken, &second_woken].map(|counts| counts.0.load(Ordering::SeqCst));
    assert_eq!(woken.iter().sum::<usize>(), 1);
    let (winner, loser) = if woken[0] == 1 { (&mut first, &mut second) } else { (&mut second, &mut first) };
    let Poll::Ready(Ok(permit)) = poll(winner, &first_woken) else { panic!("it has a permit") };
    assert!(poll(loser, &second_woken).is_pending());
    drop(permit);
    assert!(matches!(poll(loser, &second_woken), Poll::Ready(Ok(_))));
}

#[test]
fn a_permit_given_to_a_dropped_future_goes_back() {
    let permits = builder().workers(1).open_permits().unwrap();
    let held = permits.try_acquire("acme", KindId::FIRST).unwrap();
    let (given, counts) = waiting(&permits, "globex");
    drop(held);
    assert_eq!((counts.0.load(Ordering::SeqCst), permits.status().running), (1, 1));
    drop(given);
    let status = permits.status();
    let globex = &status.tenants[1];
    assert_eq!((status.running, globex.done, globex.cancelled), (0, 1, 0));
    assert!(globex.microseconds >= 1);
    assert!(permits.try_acquire("hooli", KindId::FIRST).is_ok());
}

#[test]
fn a_future_dropped_while_it_waits_is_withdrawn() {
    let permits = builder().workers(1).room(1).open_permits().unwrap();
    let held = permits.try_acquire("acme", KindId::FIRST).unwrap();
    let (waits, counts) = waiting(&permits, "globex");
    let full = permits.acquire("hooli", KindId::FIRST).wait().unwrap_err();
    assert_eq!(full, Cause::TooManyWait(1));
    drop(waits);
    assert_eq!(Arc::strong_count(&counts), 1); // its waker is gone, too
    assert_eq!((permits.status().waiting, permits.status().tenants[1].cancelled), (0, 1));
    drop(held);
    assert_eq!((permits.status().running, permits.status().tenants[1].done), (0, 0));
}

#[test]
fn a_deadline_passes_for_futures_and_threads() {
    let permits = builder().workers(1).patience(0.0).open_permits().unwrap();
    let _held = permits.try_acquire("acme", KindId::FIRST).unwrap();
    let by = |time| permits.acquire_by("globex", KindId::FIRST, Instant::now() + time);
    let begun = Instant::now();
    assert_eq!(by(Duration::from_millis(10)).wait().unwrap_err(), Cause::Late); // no timekeeper yet
    assert!(begun.elapsed() >= Duration::from_millis(10));
    assert_eq!(block_on(by(Duration::from_millis(30))).unwrap_err(), Cause::Late);
    assert!(begun.elapsed() >= Duration::from_millis(40) && begun.elapsed() < LIMIT);
    let timeout = Duration::from_millis(5);
    assert_eq!(permits.acquire_timeout("globex", KindId::FIRST, timeout).unwrap_err(), Cause::Late);
    let past = Instant::now() - Duration::from_millis(1);
    assert_eq!(block_on(permits.acquire_by("globex", KindId::FIRST, past)).unwrap_err(), Cause::Late);
    let status = permits.status();
    let globex = &status.tenants[1];
    // a request whose thread loses its processor until the deadline is refused at once
    assert_eq!((status.waiting, globex.late + globex.refused, globex.late), (0, 4, globex.submitted));
    assert!(globex.refused >= 1);
}

#[test]
fn no_permit_is_given_after_the_deadline_though_the_timekeeper_is_late() {
    let permits = builder().workers(1).patience(0.0).open_permits().unwrap();
    for _ in 0..200 {
        let held = permits.try_acquire("acme", KindId::FIRST).unwrap();
        let deadline = Instant::now() + Duration::from_micros(100);
        let mut waits = permits.acquire_by("globex", KindId::FIRST, deadline);
        assert!(!matches!(poll(&mut waits, &Arc::default()), Poll::Ready(Ok(_))));
        while Instant::now() <= deadline + Duration::from_micros(1) {
            hint::spin_loop();
        }
        drop(held); // about when the timekeeper comes, too
    }
    let status = permits.status();
    let globex = &status.tenants[1];
    assert_eq!((globex.late, globex.cancelled, globex.done), (globex.submitted, 0, 0));
}

#[test]
fn the_number_of_permits_changes_at_any_time() {
    let permits = builder().workers(1).most_workers(4).open_permits().unwrap();
    let held = permits.try_acquire("acme", KindId::FIRST).unwrap();
    let mut waits: Vec<_> = (0..3).map(|_| waiting(&permits, "globex")).collect();
    assert_eq!(permits.workers(5), Err(Cause::Workers(5)));
    permits.workers(4).unwrap();
    let given: Vec<_> = waits.iter_mut().map(|(acquire, counts)| poll(acquire, counts)).collect();
    assert!(given.iter().all(|polled| matches!(polled, Poll::Ready(Ok(_)))));
    permits.workers(2).unwrap();
    let (mut late, counts) = waiting(&permits, "hooli");
    drop(given);
    assert!(matches!(poll(&mut late, &counts), Poll::Ready(Ok(_)))); // one of two permits is free
    drop((held, late));
    take_all(&permits, 2);
}

#[test]
fn who_waits_when_permits_are_closed_is_served() {
    let permits = builder().workers(1).open_permits().unwrap();
    let held = permits.try_acquire("acme", KindId::FIRST).unwrap();
    let (mut waits, counts) = waiting(&permits, "globex");
    permits.close();
    permits.close();
    assert_eq!(permits.acquire_blocking("acme", KindId::FIRST).unwrap_err(), Cause::Closed);
    assert_eq!(permits.workers(1), Err(Cause::Closed));
    drop(permits);
    drop(held);
    let Poll::Ready(Ok(permit)) = poll(&mut waits, &counts) else { panic!("it has a permit") };
    drop(permit);
}

#[test]
fn a_permit_charges_what_its_caller_says_or_its_time() {
    let permits = builder().open_permits().unwrap();
    let cost = |tenant: usize| permits.status().tenants[tenant].microseconds;
    permits.try_acquire("acme", KindId::FIRST).unwrap().finish(1234);
    assert_eq!(cost(0), 1234);
    permits.try_acquire("acme", KindId::FIRST).unwrap().finish(0);
    assert_eq!(cost(0), 1235);
    let permit = permits.try_acquire("globex", KindId::FIRST).unwrap();
    permit.used(50_000);
    permit.used(40_000);
    permit.finish(7);
    assert_eq!((cost(1), permits.status().tenants[1].reports), (50_000, 1));
    let permit = permits.try_acquire("hooli", KindId::FIRST).unwrap();
    let begun = Instant::now();
    thread::sleep(Duration::from_millis(3));
    drop(permit);
    let most = begun.elapsed().as_micros() as u64 + 1000;
    assert!((3000..most).contains(&cost(2)), "{}", cost(2));
}

#[test]
fn a_permit_that_is_held_reports_before_the_next_is_given() {
    let permits = builder().refresh(Duration::from_millis(2)).open_permits().unwrap();
    let reports = |tenant: usize| permits.status().tenants[tenant].reports;
    let (long, told) = (permits.try_acquire("acme", KindId::FIRST), permits.try_acquire("globex", KindId::FIRST));
    told.as_ref().unwrap().used(1);
    thread::sleep(Duration::from_millis(3));
    assert_eq!((reports(0), reports(1)), (0, 1)); // no request waited
    drop(permits.try_acquire("hooli", KindId::FIRST));
    drop(permits.try_acquire("hooli", KindId::FIRST));
    assert_eq!((reports(0), reports(1)), (1, 1));
    drop((long, told));
}

#[test]
fn who_panics_gives_its_permit_back() {
    let permits = builder().workers(1).open_permits().unwrap();
    let other = permits.clone();
    let panics = thread::spawn(move || {
        let _held = other.acquire_blocking("acme", KindId::FIRST).unwrap();
        panic::panic_any("on purpose");
    });
    assert!(panics.join().is_err());
    let status = permits.status();
    assert_eq!((status.running, status.tenants[0].done, status.tenants[0].panicked), (0, 1, 1));
}

#[test]
fn a_permit_that_nobody_saw_ends_by_no_panic() {
    let permits = builder().workers(1).open_permits().unwrap();
    let held = permits.try_acquire("acme", KindId::FIRST).unwrap();
    let (unseen, _) = waiting(&permits, "globex");
    drop(held);
    let panics = thread::spawn(move || {
        let _unseen = unseen;
        panic::panic_any("on purpose");
    });
    assert!(panics.join().is_err());
    let globex = &permits.status().tenants[1];
    assert_eq!((globex.done, globex.panicked), (1, 0));
}

#[test]
fn a_waker_that_panics_keeps_nobody_from_a_permit() {
    struct Panics;
    impl Wake for Panics {
        fn wake(self: Arc<Self>) {
            panic!("a runtime");
        }
    }
    let permits = builder().workers(1).most_workers(3).open_permits().unwrap();
    let _held = permits.try_acquire("acme", KindId::FIRST).unwrap();
    let mut bad = permits.acquire("acme", KindId::FIRST);
    let waker = Waker::from(Arc::new(Panics));
    assert!(Pin::new(&mut bad).poll(&mut Context::from_waker(&waker)).is_pending());
    let (mut good, counts) = waiting(&permits, "globex");
    permits.workers(3).unwrap();
    assert!(matches!(poll(&mut good, &counts), Poll::Ready(Ok(_))));
    assert!(matches!(poll(&mut bad, &counts), Poll::Ready(Ok(_))));
}

#[test]
fn what_is_sent_to_other_threads_may_be() {
    fn may_be_sent<T: Send + 'static>(_: &T) {}
    fn may_be_shared<T: Sync>(_: &T) {}
    fn may_be_moved<T: Unpin>(_: &T) {}
    let permits = builder().open_permits().unwrap();
    let acquire = permits.acquire("acme", KindId::FIRST);
    may_be_sent(&acquire);
    may_be_moved(&acquire);
    may_be_sent(&permits);
    may_be_shared(&permits);
    let permit = acquire.wait().unwrap();
    may_be_sent(&permit);
    may_be_shared(&permit);
}
