//! Jobs that are cancelled or come too late: they never run, their places are free at once, and their waiters learn it.
use std::sync::atomic::{AtomicU32, AtomicU8, Ordering};
use std::sync::mpsc;
use std::sync::Arc;
use std::task::Poll;
use std::thread;
use std::time::{Duration, Instant};

use twodfq::{Builder, JoinError, KindId, Pool, TenantId, Terms};

mod executor;
mod held;
mod journals;

use executor::poll;
use held::held;
use journals::{judge, Text};

fn builder() -> Builder {
    Pool::builder().workers(1).tenant("acme", 1).tenant("globex", 2)
}

fn within(time: Duration) -> Terms {
    Terms::default().deadline(Instant::now() + time)
}

/// A value that counts its drops.
struct Counted(Arc<AtomicU32>);

impl Drop for Counted {
    fn drop(&mut self) {
        self.0.fetch_add(1, Ordering::SeqCst);
    }
}

#[test]
fn a_cancelled_job_is_dropped_and_never_runs() {
    let (pool, sender) = held(builder().room(2).room_per_tenant(1));
    let (dropped, ran) = (Arc::new(AtomicU32::new(0)), Arc::new(AtomicU32::new(0)));
    for _ in 0..100 {
        let (counted, runs) = (Counted(dropped.clone()), ran.clone());
        let job = move || {
            runs.fetch_add(1, Ordering::SeqCst);
            drop(counted);
        };
        let handle = pool.submit("globex", KindId::FIRST, job).expect("its place is free at once");
        assert!(handle.cancel() && handle.is_done());
        assert!(!handle.cancel());
        assert_eq!(handle.join(), Err(JoinError::Cancelled));
    }
    assert_eq!((dropped.load(Ordering::SeqCst), ran.load(Ordering::SeqCst)), (100, 0));
    assert_eq!((pool.status().waiting, pool.status().tenants[1].cancelled), (0, 100));
    drop(sender);
    assert_eq!(pool.join().tenants[1].done, 0);
}

#[test]
fn a_job_that_runs_or_is_over_is_not_cancelled() {
    let pool = builder().open().unwrap();
    let (sender, receiver) = mpsc::channel::<()>();
    let (begins, begun) = mpsc::channel();
    let job = move || {
        begins.send(()).unwrap();
        receiver.recv().is_err()
    };
    let handle = pool.submit("acme", KindId::FIRST, job).unwrap();
    begun.recv().unwrap();
    assert!(!handle.cancel());
    drop(sender);
    while !handle.is_done() {
        thread::yield_now();
    }
    assert!(!handle.cancel());
    assert_eq!(pool.join().tenants[0].cancelled, 0);
    assert!(!handle.cancel()); // nor where the pool is gone
    assert_eq!(handle.join(), Ok(true));
}

#[test]
fn whoever_waits_learns_that_a_job_is_cancelled() {
    let (pool, _sender) = held(builder());
    let submit = || pool.submit("globex", KindId::FIRST, || 42).unwrap();
    let (results, received) = mpsc::channel();
    let [joined, timed, mut polled] = [(); 3].map(|()| submit());
    let called = submit();
    assert!(poll(&mut polled).is_pending());
    thread::scope(|scope| {
        let joined = Arc::new(joined);
        let other = joined.clone();
        scope.spawn(move || while !other.cancel() {});
        while !joined.is_done() {
            thread::yield_now();
        }
        let timed = timed.join_timeout(Duration::from_millis(5)).unwrap_err();
        assert!(timed.cancel() && polled.cancel() && called.cancel());
        assert_eq!(timed.join_timeout(Duration::from_secs(60)).unwrap(), Err(JoinError::Cancelled));
        called.then(move |result| results.send(result).unwrap());
    });
    assert_eq!(received.recv().unwrap(), Err(JoinError::Cancelled));
    assert_eq!(poll(&mut polled), Poll::Ready(Err(JoinError::Cancelled)));
}

#[test]
fn a_job_of_an_older_scheduler_is_cancelled_there() {
    let (pool, sender) = held(builder().entries(16));
    let handles: Vec<_> = (0..40_u32).map(|i| pool.submit("globex", KindId::FIRST, move || i).unwrap()).collect();
    assert!(pool.status().schedulers > 5);
    let cancelled: Vec<bool> = handles.iter().step_by(2).map(|handle| handle.cancel()).collect();
    assert_eq!(cancelled, [true; 20]);
    assert_eq!(pool.status().waiting, 20);
    drop(sender);
    let results: Vec<_> = handles.into_iter().map(|handle| handle.join().ok()).collect();
    let wanted: Vec<_> = (0..40).map(|i| (i % 2 == 1).then_some(i)).collect();
    assert_eq!(results, wanted);
}

#[test]
fn a_closed_pool_whose_last_job_is_cancelled_ends() {
    let (pool, sender) = held(builder().workers(1).most_workers(2));
    let waits = pool.submit("globex", KindId::FIRST, || ()).unwrap();
    thread::scope(|scope| {
        scope.spawn(|| pool.close());
        while pool.submit("acme", KindId::FIRST, || ()).map(|handle| handle.cancel()).is_ok() {}
        assert!(waits.cancel());
    });
    drop(sender);
    assert_eq!(pool.join().waiting, 0);
}

#[test]
fn a_lent_job_that_is_cancelled_lets_its_scope_end() {
    let (pool, sender) = held(builder());
    let mut number = 1;
    pool.scope(|scope| {
        let handle = scope.submit("globex", KindId::FIRST, || number += 1).unwrap();
        assert!(handle.cancel());
    });
    assert_eq!(number, 1);
    drop(sender);
}

#[test]
fn a_job_that_panics_as_it_is_dropped_harms_nobody() {
    struct Panics;
    impl Drop for Panics {
        fn drop(&mut self) {
            panic!("dropped");
        }
    }
    let (pool, sender) = held(builder());
    let panics = Panics;
    let handle = pool.submit("globex", KindId::FIRST, move || drop(panics)).unwrap();
    assert!(handle.cancel());
    assert_eq!(handle.join(), Err(JoinError::Cancelled));
    drop(sender);
    assert_eq!(pool.submit("globex", KindId::FIRST, || 42).unwrap().join(), Ok(42));
}

#[test]
fn a_deadline_that_passes_withdraws_the_job_though_no_worker_is_free() {
    let (pool, sender) = held(builder());
    let begun = Instant::now();
    let late = pool.submit_with("globex", KindId::FIRST, within(Duration::from_millis(30)), || 1).unwrap();
    let soon = pool.submit_with("globex", KindId::FIRST, within(Duration::from_millis(10)), || 2).unwrap();
    let never = pool.submit_with("globex", KindId::FIRST, within(Duration::from_secs(600)), || 3).unwrap();
    assert_eq!(soon.join(), Err(JoinError::Late));
    assert_eq!(late.join(), Err(JoinError::Late));
    assert!(begun.elapsed() >= Duration::from_millis(30));
    assert_eq!((pool.status().waiting, pool.status().tenants[1].late), (1, 2));
    drop(sender);
    assert_eq!(never.join(), Ok(3));
}

#[test]
fn no_job_begins_after_its_deadline() {
    let pool = builder().workers(2).room(4000).open().unwrap();
    let busy = || thread::sleep(Duration::from_micros(300));
    let handles: Vec<_> = (0..400_u64)
        .map(|i| {
            let deadline = Instant::now() + Duration::from_micros(i % 40 * 200);
            let begins = move || {
                busy();
                deadline
            };
            let started = Instant::now;
            let job = move || (started(), begins());
            pool.submit_with(TenantId::new((i % 2) as u32), KindId::FIRST, Terms::default().deadline(deadline), job)
        })
        .filter_map(Result::ok)
        .collect();
    let mut late = 0;
    for handle in handles {
        match handle.join() {
            // the thread may lose its processor between the take and the job's first line
            Ok((begun, deadline)) => assert!(begun <= deadline + Duration::from_millis(20)),
            Err(error) => {
                assert_eq!(error, JoinError::Late);
                late += 1;
            }
        }
    }
    assert!(late > 0);
    assert_eq!(pool.join().tenants.iter().map(|tenant| tenant.late).sum::<u64>(), late);
}

/// Hands a job in, of which some have deadlines, cancels every second, and waits for every fifth.
fn hand_in(pool: &Pool, i: usize, job: impl FnOnce() + Send + 'static) {
    let terms = if i % 3 == 0 { within(Duration::from_micros(200)) } else { Terms::default() };
    let Ok(handle) = pool.submit_with(TenantId::new(i as u32 % 2), KindId::FIRST, terms, job) else {
        return thread::sleep(Duration::from_micros(200));
    };
    let is_cancelled = i % 2 == 0 && handle.cancel();
    if i % 5 == 0 {
        match handle.join() {
            Ok(()) => assert!(!is_cancelled),
            Err(JoinError::Cancelled) => assert!(is_cancelled),
            Err(error) => assert_eq!(error, JoinError::Late),
        }
    }
}

#[test]
fn each_job_is_run_once_or_withdrawn_under_many_threads() {
    const EACH: usize = 1500;
    let text = Text::default();
    let pool = builder().workers(3).most_workers(4).entries(2000).room(500).open().unwrap();
    let journal = pool.journal(text.clone()).unwrap();
    let runs: Arc<Vec<AtomicU8>> = Arc::new((0..8 * EACH).map(|_| AtomicU8::new(0)).collect());
    thread::scope(|scope| {
        for thread in 0..8 {
            let (pool, runs) = (&pool, &runs);
            scope.spawn(move || {
                for i in 0..EACH {
                    let (runs, number) = (runs.clone(), thread * EACH + i);
                    hand_in(pool, i, move || _ = runs[number].fetch_add(1, Ordering::SeqCst));
                }
            });
        }
    });
    let status = pool.join();
    let sum = |value: fn(&twodfq::TenantStatus) -> u64| status.tenants.iter().map(value).sum::<u64>();
    assert_eq!(sum(|tenant| tenant.submitted + tenant.refused), 8 * EACH as u64);
    assert_eq!(sum(|tenant| tenant.done + tenant.cancelled + tenant.late), sum(|tenant| tenant.submitted));
    assert!(runs.iter().all(|runs| runs.load(Ordering::SeqCst) <= 1));
    let ran: u64 = runs.iter().map(|runs| u64::from(runs.load(Ordering::SeqCst))).sum();
    assert_eq!(ran, sum(|tenant| tenant.done));
    assert!(sum(|tenant| tenant.cancelled) > 0);
    let written = journal.join().unwrap();
    assert_eq!((written.journals + written.missed, written.cut), (status.schedulers, 0));
    text.journals().iter().for_each(|journal| judge(journal));
}

#[test]
fn a_journal_with_withdraws_is_legal() {
    let text = Text::default();
    let (pool, sender) = held(builder());
    let journal = pool.journal(text.clone()).unwrap();
    let handles: Vec<_> = (0..100).map(|_| pool.submit("globex", KindId::FIRST, || ()).unwrap()).collect();
    assert_eq!(handles.iter().step_by(3).filter(|handle| handle.cancel()).count(), 34);
    drop(sender);
    pool.join();
    journal.join().unwrap();
    let journal = &text.journals()[0];
    assert_eq!(journal.lines().filter(|line| line.starts_with("withdraw 4096 ")).count(), 34);
    judge(journal);
}
