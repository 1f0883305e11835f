//! The pool: results in each way, refusals, panics, changes, and that each job is run once.
use std::panic;
use std::sync::atomic::{AtomicU32, AtomicUsize, Ordering};
use std::sync::{mpsc, Arc, Barrier};
use std::thread;
use std::time::Duration;

use twodfq::{BuildFault, Builder, Cause, JoinError, KindId, Measure, OpenFault, Pool, TenantId, Terms};

mod executor;
mod held;

use executor::block_on;
use held::held;

fn builder() -> Builder {
    Pool::builder().workers(4).tenant("acme", 1).tenant("globex", 2).tenant("hooli", 3).kind("get").kind("scan")
}

fn panicked(message: &str) -> JoinError {
    JoinError::Panicked(message.to_string())
}

/// None, the usual one, and the greatest.
const PATIENCE: [f64; 3] = [0.0, 0.02, 1.0];

#[test]
fn join_gives_the_result() {
    for patience in PATIENCE {
        let pool = builder().patience(patience).open().unwrap();
        let handles: Vec<_> = (0..100_u32)
            .map(|i| pool.submit(TenantId::new(i % 3), KindId::new(i % 2), move || i * i).unwrap())
            .collect();
        let squares: Vec<u32> = handles.into_iter().map(|handle| handle.join().unwrap()).collect();
        assert_eq!(squares, (0..100).map(|i| i * i).collect::<Vec<_>>());
    }
}

#[test]
fn try_join_gives_the_handle_again_while_the_job_waits() {
    let (pool, sender) = held(builder());
    let handle = pool.submit("globex", KindId::FIRST, || 42).unwrap();
    assert!(!handle.is_done());
    let handle = handle.try_join().unwrap_err();
    sender.send(()).unwrap();
    pool.join();
    assert_eq!(handle.try_join().unwrap().unwrap(), 42);
}

#[test]
fn a_callback_gets_the_result_before_and_after_the_end() {
    let (pool, sender) = held(builder());
    let (results, received) = mpsc::channel();
    let (early, late) = (results.clone(), results);
    let waits = pool.submit("globex", KindId::FIRST, || 1).unwrap();
    waits.then(move |result| early.send((thread::current().name().map(String::from), result.unwrap())).unwrap());
    sender.send(()).unwrap();
    assert_eq!(received.recv().unwrap(), (Some("twodfq-0".to_string()), 1));
    let done = pool.submit("globex", KindId::FIRST, || 2).unwrap();
    pool.join();
    let here = thread::current().name().map(String::from);
    done.then(move |result| late.send((thread::current().name().map(String::from), result.unwrap())).unwrap());
    assert_eq!(received.recv().unwrap(), (here, 2));
}

#[test]
fn a_handle_is_a_future() {
    let pool = Arc::new(builder().open().unwrap());
    let slow = pool.submit("acme", KindId::new(1), || thread::sleep(Duration::from_millis(20))).unwrap();
    let other = pool.clone();
    let sum = block_on(async move {
        slow.await.unwrap();
        let first = other.submit("globex", KindId::FIRST, || 40).unwrap().await.unwrap();
        first + other.submit("hooli", KindId::FIRST, || 2).unwrap().await.unwrap()
    });
    assert_eq!(sum, 42);
}

#[test]
fn each_cause_gives_the_job_back() {
    let (pool, _sender) = held(builder().room(2));
    let cause = |tenant, kind, cost| {
        pool.submit_with(TenantId::new(tenant), KindId::new(kind), Terms::default().declared(cost), || 7).map(drop)
    };
    for (tenant, kind, cost, wanted) in [
        (3, 0, 5, Cause::NoTenant),
        (0, 2, 5, Cause::Kind(KindId::new(2))),
        (0, 0, 0, Cause::Cost(0)),
        (0, 0, 1_000_000_001, Cause::Cost(1_000_000_001)),
    ] {
        let rejected = cause(tenant, kind, cost).unwrap_err();
        assert_eq!((rejected.cause, (rejected.job)()), (wanted, 7));
    }
    assert!(cause(0, 0, 5).is_ok() && cause(1, 0, 5).is_ok());
    assert_eq!(cause(2, 0, 5).unwrap_err().cause, Cause::TooManyWait(2));
    assert_eq!(pool.weight("acme", 100_001), Err(Cause::Weight(100_001)));
    assert_eq!(pool.weight(TenantId::new(3), 1), Err(Cause::NoTenant));
    assert_eq!(pool.workers(0), Err(Cause::Workers(0)));
    assert_eq!(pool.workers(2), Err(Cause::Workers(2)));
    pool.close();
    assert_eq!(cause(3, 0, 5).unwrap_err().cause, Cause::Closed);
    assert_eq!(pool.weight("acme", 1), Err(Cause::Closed));
    assert_eq!(pool.workers(1), Err(Cause::Closed));
}

#[test]
fn what_no_pool_is_opened_with() {
    let fault = |builder: Builder| builder.open().unwrap_err();
    assert!(matches!(fault(builder().tenant("acme", 1)), BuildFault::Twice(name) if name == "acme"));
    assert!(matches!(fault(builder().kind("get")), BuildFault::Twice(name) if name == "get"));
    assert!(matches!(fault(builder().kind("")), BuildFault::Name(name) if name.is_empty()));
    assert!(matches!(fault(builder().tenant(&"a".repeat(65), 1)), BuildFault::Name(_)));
    assert!(matches!(fault(builder().entries(15)), BuildFault::Entries(15)));
    assert!(matches!(fault(builder().most_workers(3)), BuildFault::Workers(4)));
    assert!(matches!(fault(builder().workers(0)), BuildFault::Workers(0)));
    assert!(matches!(fault(builder().workers(4097)), BuildFault::Scheduler(OpenFault::Workers)));
    assert!(matches!(fault(builder().tenant("a", 0)), BuildFault::Scheduler(OpenFault::Weight)));
    assert!(matches!(fault(builder().room(0)), BuildFault::Scheduler(OpenFault::Requests)));
}

#[test]
fn a_job_that_panics_is_done_and_its_worker_goes_on() {
    for patience in PATIENCE {
        let pool = builder().patience(patience).workers(1).open().unwrap();
        let fails = pool
            .submit("acme", KindId::FIRST, || {
                if true {
                    panic!("by {}", "number")
                }
            })
            .unwrap();
        let odd = pool
            .submit("acme", KindId::FIRST, || {
                if true {
                    panic::panic_any(5_u8)
                }
            })
            .unwrap();
        pool.submit("acme", KindId::FIRST, || ()).unwrap().then(|_| panic!("a callback"));
        assert_eq!(fails.join(), Err(panicked("by number")));
        assert_eq!(odd.join(), Err(panicked("no message")));
        assert_eq!(pool.submit("globex", KindId::FIRST, || 42).unwrap().join().unwrap(), 42);
    }
}

#[test]
fn a_job_is_dropped_once_it_has_run() {
    struct Counted(Arc<AtomicUsize>);
    impl Drop for Counted {
        fn drop(&mut self) {
            self.0.fetch_add(1, Ordering::SeqCst);
            panic::panic_any("dropped"); // which the worker bears, too
        }
    }
    let drops = Arc::new(AtomicUsize::new(0));
    let pool = builder().workers(1).open().unwrap();
    let counted = Counted(drops.clone());
    pool.submit("acme", KindId::FIRST, move || drop(counted)).unwrap();
    let counted = Counted(drops.clone());
    drop(pool.submit("acme", KindId::FIRST, move || counted).unwrap()); // no handle gets its result
    assert_eq!(pool.submit("globex", KindId::FIRST, || 42).unwrap().join().unwrap(), 42);
    pool.join();
    assert_eq!(drops.load(Ordering::SeqCst), 2);
}

/// A value that panics whenever it is dropped.
struct PanicsWhenDropped;

impl Drop for PanicsWhenDropped {
    fn drop(&mut self) {
        panic::panic_any(PanicsWhenDropped);
    }
}

#[test]
fn a_payload_that_panics_does_no_harm() {
    let pool = builder().workers(1).open().unwrap();
    let fails = pool
        .submit("acme", KindId::FIRST, || {
            if true {
                panic::panic_any(PanicsWhenDropped)
            }
        })
        .unwrap();
    assert_eq!(fails.join(), Err(panicked("no message")));
    pool.submit("acme", KindId::FIRST, || ()).unwrap().then(|_| panic::panic_any(PanicsWhenDropped));
    assert_eq!(pool.submit("globex", KindId::FIRST, || 42).unwrap().join().unwrap(), 42);
}

#[test]
fn every_wanted_worker_runs_at_once_and_no_other() {
    for patience in PATIENCE {
        let pool = builder().patience(patience).workers(2).most_workers(6).open().unwrap();
        for count in [2, 6, 3, 6, 1] {
            pool.workers(count).unwrap();
            let barrier = Arc::new(Barrier::new(count as usize));
            let (now, most) = (Arc::new(AtomicU32::new(0)), Arc::new(AtomicU32::new(0)));
            let job = |barrier: Arc<Barrier>, now: Arc<AtomicU32>, most: Arc<AtomicU32>| {
                move || {
                    most.fetch_max(now.fetch_add(1, Ordering::SeqCst) + 1, Ordering::SeqCst);
                    barrier.wait();
                    now.fetch_sub(1, Ordering::SeqCst);
                }
            };
            let jobs = (0..4 * count).map(|i| {
                pool.submit(TenantId::new(i % 3), KindId::FIRST, job(barrier.clone(), now.clone(), most.clone()))
                    .unwrap()
            });
            for handle in jobs.collect::<Vec<_>>() {
                handle.join().unwrap();
            }
            assert_eq!(most.load(Ordering::SeqCst), count);
        }
    }
}

#[test]
fn both_measures_serve() {
    for measure in [Measure::Wall, Measure::Processor] {
        let pool = builder().measure(measure).refresh(Duration::ZERO).open().unwrap();
        let sum =
            pool.submit("acme", KindId::new(1), || (0..1000_u64).inspect(|_| twodfq::tick()).sum::<u64>()).unwrap();
        assert_eq!(sum.join().unwrap(), 499_500);
    }
}
