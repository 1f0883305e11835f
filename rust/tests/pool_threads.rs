//! The pool under many threads: each job once while all else changes, schedulers one after another, and sleep.
use std::sync::atomic::{AtomicBool, AtomicU8, Ordering};
use std::sync::{mpsc, Arc, Barrier};
use std::thread;
use std::time::Duration;

use twodfq::{Builder, Cause, Handle, KindId, Pool, TenantId};

fn builder() -> Builder {
    Pool::builder().tenant("acme", 1).tenant("globex", 2).tenant("hooli", 3).kind("get").kind("scan")
}

/// None, the usual one, and the greatest.
const PATIENCE: [f64; 3] = [0.0, 0.02, 1.0];

/// How often each job was run.
#[derive(Clone)]
struct Runs(Arc<Vec<AtomicU8>>);

impl Runs {
    fn new(jobs: usize) -> Runs {
        Runs(Arc::new((0..jobs).map(|_| AtomicU8::new(0)).collect()))
    }

    fn job(&self, number: usize) -> impl FnOnce() + Send + 'static {
        let runs = self.0.clone();
        move || {
            runs[number].fetch_add(1, Ordering::SeqCst);
        }
    }

    fn each_once(&self) -> bool {
        self.0.iter().all(|runs| runs.load(Ordering::SeqCst) == 1)
    }
}

/// Hands a job in until there is room for it.
fn insist(pool: &Pool, tenant: u32, kind: u32, mut job: impl FnOnce() + Send + 'static) {
    loop {
        match pool.submit(TenantId::new(tenant), KindId::new(kind), job) {
            Ok(_) => return,
            Err(rejected) => {
                assert!(matches!(rejected.cause, Cause::TooManyWait(500) | Cause::TenantFull(_)), "{}", rejected.cause);
                job = rejected.job;
                thread::sleep(Duration::from_millis(1));
            }
        }
    }
}

#[test]
fn each_job_once_while_sixteen_submit_and_the_pool_changes() {
    const SUBMITTERS: usize = 16;
    const EACH: usize = 2000;
    for patience in PATIENCE {
        let pool = builder().patience(patience).workers(3).most_workers(8).room(500).entries(1000).open().unwrap();
        let runs = Runs::new(SUBMITTERS * EACH);
        let goes_on = AtomicBool::new(true);
        thread::scope(|scope| {
            let (pool, runs, goes_on) = (&pool, &runs, &goes_on);
            scope.spawn(move || {
                for count in (1..=8).cycle().take_while(|_| goes_on.load(Ordering::SeqCst)) {
                    pool.workers(count).unwrap();
                    pool.weight(TenantId::new(count % 3), 1 + 100 * count).unwrap();
                    thread::sleep(Duration::from_micros(300));
                }
            });
            let submitters = (0..SUBMITTERS).map(|submitter| {
                scope.spawn(move || {
                    for i in 0..EACH {
                        insist(pool, (i % 3) as u32, (i % 2) as u32, runs.job(submitter * EACH + i));
                    }
                })
            });
            for submitter in submitters.collect::<Vec<_>>() {
                submitter.join().unwrap();
            }
            goes_on.store(false, Ordering::SeqCst);
        });
        pool.join();
        assert!(runs.each_once());
    }
}

#[test]
fn a_thousand_rollings_lose_nothing() {
    const JOBS: usize = 20_000;
    for patience in PATIENCE {
        let pool = builder().patience(patience).workers(4).room(500).entries(60).open().unwrap();
        let runs = Runs::new(JOBS);
        for i in 0..JOBS {
            insist(&pool, (i % 3) as u32, 0, runs.job(i));
        }
        // a job makes three entries, and so each scheduler has served 20 at most
        assert!(pool.status().schedulers >= 1000);
        pool.join();
        assert!(runs.each_once());
    }
}

#[test]
fn one_scheduler_has_room_for_more_than_a_million_entries() {
    let pool = builder().refresh(Duration::ZERO).open().unwrap();
    pool.submit("acme", KindId::FIRST, || (0..1_100_000).for_each(|_| twodfq::tick())).unwrap();
    let status = pool.join();
    assert_eq!((status.schedulers, status.tenants[0].reports), (1, 1_100_000));
}

#[test]
fn changes_alone_roll_over_too() {
    let pool = builder().workers(1).most_workers(2).entries(16).open().unwrap();
    for i in 0..500_u32 {
        pool.weight(TenantId::new(i % 3), 1 + i).unwrap();
        pool.workers(1 + i % 2).unwrap();
    }
    let status = pool.status();
    assert!(status.schedulers >= 1000 / 16);
    assert_eq!(status.tenants.iter().map(|tenant| tenant.weight).collect::<Vec<_>>(), [499, 500, 498]);
    assert_eq!(status.workers, 2);
    for handle in hand_in_jobs_that_meet(&pool, 2, 10) {
        handle.join().unwrap();
    }
}

#[test]
fn a_long_job_of_an_old_scheduler_runs_on() {
    let pool = builder().workers(2).entries(16).open().unwrap();
    let (sender, receiver) = mpsc::channel::<()>();
    let long = pool.submit("acme", KindId::FIRST, move || receiver.recv().is_ok()).unwrap();
    let runs = Runs::new(300);
    for i in 0..300 {
        pool.submit("globex", KindId::FIRST, runs.job(i)).unwrap().join().unwrap();
    }
    assert!(runs.each_once() && !long.is_done());
    sender.send(()).unwrap();
    assert_eq!(long.join(), Ok(true));
}

/// Jobs that go on only where `meeting` of them run at once.
fn hand_in_jobs_that_meet(pool: &Pool, meeting: usize, jobs: usize) -> Vec<Handle<()>> {
    let barrier = Arc::new(Barrier::new(meeting));
    let meet = |i: usize| {
        let barrier = barrier.clone();
        pool.submit(TenantId::new((i % 3) as u32), KindId::FIRST, move || _ = barrier.wait()).unwrap()
    };
    (0..jobs).map(meet).collect()
}

#[test]
fn no_worker_idles_while_old_schedulers_drain() {
    for patience in PATIENCE {
        let pool = builder().patience(patience).workers(4).entries(16).open().unwrap();
        for handle in hand_in_jobs_that_meet(&pool, 4, 400) {
            handle.join().unwrap();
        }
        assert!(pool.join().schedulers >= 100);
    }
}

#[test]
fn workers_that_join_take_from_old_schedulers_too() {
    for patience in PATIENCE {
        let pool = builder().patience(patience).workers(2).most_workers(6).entries(64).open().unwrap();
        let handles = hand_in_jobs_that_meet(&pool, 6, 120);
        let schedulers = pool.status().schedulers;
        assert!(schedulers >= 6);
        pool.workers(6).unwrap();
        for handle in handles {
            handle.join().unwrap();
        }
        assert_eq!(pool.join().schedulers, schedulers);
    }
}

#[test]
fn dropped_while_it_runs_it_does_what_it_has() {
    for patience in PATIENCE {
        let runs = Runs::new(1000);
        let pool = builder().patience(patience).workers(4).entries(100).open().unwrap();
        for i in 0..1000 {
            let job = runs.job(i);
            let slow = move || {
                thread::sleep(Duration::from_micros(50));
                job();
            };
            pool.submit(TenantId::new((i % 3) as u32), KindId::new(1), slow).unwrap();
        }
        drop(pool);
        assert!(runs.each_once());
    }
}

#[test]
fn a_job_may_drop_its_pool() {
    let pool = builder().workers(2).open().unwrap();
    let (sender, receiver) = mpsc::channel::<Pool>();
    let handle = pool.submit("acme", KindId::FIRST, move || drop(receiver.recv().unwrap())).unwrap();
    sender.send(pool).unwrap();
    handle.join().unwrap();
}

#[test]
fn jobs_that_find_the_workers_asleep() {
    for patience in PATIENCE {
        let pool = builder().patience(patience).workers(4).open().unwrap();
        for i in 0..200_u64 {
            thread::sleep(Duration::from_micros(i % 50 * 20));
            assert_eq!(pool.submit("acme", KindId::FIRST, move || i).unwrap().join(), Ok(i));
        }
    }
}
