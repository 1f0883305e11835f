//! Patience: which workers wait, for which jobs, for how long, and which events wake them.
use std::sync::mpsc::{self, Sender};
use std::sync::{Arc, Barrier, Mutex};
use std::thread;
use std::time::{Duration, Instant};

use twodfq::{BuildFault, Builder, Estimator, Handle, KindId, Policy, Pool, TenantId, Terms};

const ACME: TenantId = TenantId::new(0);
const GLOBEX: TenantId = TenantId::new(1);
const HOOLI: TenantId = TenantId::new(2);

/// The greatest cost that may be declared.
const GREATEST: u64 = 1_000_000_000;

fn builder() -> Builder {
    let builder = Pool::builder().tenant("acme", 1).tenant("globex", 1).tenant("hooli", 1);
    builder.estimator(Estimator::Declared)
}

/// A pool some of whose workers are held. One runs a job of acme's with an estimate of a thousand seconds, so that no
/// further job of acme's is due for long; the other held workers run jobs of globex's.
struct Scene {
    /// Dropped, they free the held workers, that of acme's job first. They are dropped before the pool, which waits for
    /// these workers.
    holds: Vec<Sender<()>>,
    pool: Pool,
}

impl Scene {
    fn open(builder: Builder, workers: u32, free: u32) -> Scene {
        let mut scene = Scene { pool: builder.workers(workers).open().unwrap(), holds: Vec::new() };
        scene.hold(ACME, GREATEST);
        (1 + free..workers).for_each(|_| scene.hold(GLOBEX, 1));
        scene
    }

    fn hold(&mut self, tenant: TenantId, cost: u64) {
        let (begins, begun) = mpsc::channel();
        let (hold, held) = mpsc::channel();
        let job = move || {
            begins.send(()).unwrap();
            let _ = held.recv();
        };
        self.pool.submit_with(tenant, KindId::FIRST, declared(cost), job).unwrap();
        begun.recv().unwrap();
        self.holds.push(hold);
    }

    /// A costly job that is not due.
    fn costly(&self, cost: u64) -> Handle<Instant> {
        self.pool.submit_with(ACME, KindId::FIRST, declared(cost), Instant::now).unwrap()
    }

    /// A cheap job that is due at once.
    fn cheap(&self) -> Handle<Instant> {
        self.pool.submit_with(HOOLI, KindId::FIRST, declared(1), Instant::now).unwrap()
    }

    /// Has each of these free workers run a job, so that all have just become free.
    fn refresh(&self, free: u32) {
        let barrier = Arc::new(Barrier::new(free as usize));
        let meet = |_| {
            let barrier = barrier.clone();
            self.pool.submit_with(HOOLI, KindId::FIRST, declared(1), move || _ = barrier.wait()).unwrap()
        };
        let handles: Vec<_> = (0..free).map(meet).collect();
        handles.into_iter().for_each(|handle| handle.join().unwrap());
    }

    /// Waits until workers have begun this number of waits.
    fn until_waits(&self, count: u64) {
        let begun = Instant::now();
        while self.pool.status().waits < count {
            assert!(begun.elapsed() < Duration::from_secs(20), "{:?}", self.pool.status());
            thread::sleep(Duration::from_micros(200));
        }
    }
}

fn declared(cost: u64) -> Terms {
    Terms::default().declared(cost)
}

fn seconds(count: u64) -> u64 {
    count * 1_000_000
}

#[test]
fn a_patience_is_from_0_to_1() {
    for part in [-0.1, 1.1, f64::NAN, f64::INFINITY] {
        let fault = builder().patience(part).open().unwrap_err();
        assert!(matches!(fault, BuildFault::Patience(other) if other.to_bits() == part.to_bits()), "{fault}");
    }
    assert_eq!(BuildFault::Patience(1.5).to_string(), "a patience of 1.5, and it may be 0 to 1");
    for part in [0.0, 1.0] {
        builder().patience(part).open().unwrap();
    }
}

#[test]
fn who_is_due_comes_first_and_the_close_ends_the_wait() {
    for policy in [Policy::Wf2q, Policy::Msf2q, Policy::TwoDfq, Policy::TwoDfqPlus] {
        let scene = Scene::open(builder().policy(policy).patience(1.0), 16, 1);
        scene.refresh(1);
        let costly = scene.costly(seconds(15));
        scene.until_waits(1);
        let mut last = Instant::now();
        for _ in 0..3 {
            last = scene.cheap().join().unwrap();
        }
        let status = scene.pool.status();
        assert!(!costly.is_done() && status.waits >= 1, "{status:?}");
        let closed = Instant::now();
        scene.pool.close();
        assert!(costly.join().unwrap() > last);
        assert!(closed.elapsed() < Duration::from_secs(7), "{:?}", closed.elapsed());
    }
}

#[test]
fn without_patience_the_first_is_taken_at_once() {
    let scene = Scene::open(builder().patience(0.0), 4, 1);
    let costly = scene.costly(seconds(15)).join().unwrap();
    assert!(costly < scene.cheap().join().unwrap());
    let status = scene.pool.status();
    assert_eq!((status.early, status.waits, status.waited), (0, 0, 0)); // it looks at no head then
}

#[test]
fn a_wait_ends_after_its_part_of_the_estimate_and_is_counted() {
    let scene = Scene::open(builder().patience(0.5), 8, 1);
    let begun = Instant::now();
    scene.refresh(1);
    let costly = scene.costly(seconds(4));
    let waited = costly.join().unwrap() - begun;
    assert!(Duration::from_millis(1999) < waited && waited < Duration::from_secs(12), "{waited:?}");
    let status = scene.pool.status();
    assert_eq!(status.waits, 1);
    assert!(status.early >= 1); // a cheap job may come a microsecond before its time
    assert!(0 < status.waited && u128::from(status.waited) <= waited.as_micros());
    let text = status.prometheus();
    let early = format!("# TYPE twodfq_early_takes_total counter\ntwodfq_early_takes_total {}\n", status.early);
    assert!(text.contains(&early));
    assert!(text.contains("# TYPE twodfq_waits_total counter\ntwodfq_waits_total 1\n"));
    let (whole, rest) = (status.waited / 1_000_000, status.waited % 1_000_000);
    assert!(text.contains(&format!("twodfq_waited_seconds_total {whole}.{rest:06}\n")), "{text}");
}

#[test]
fn all_waits_together_have_a_bound() {
    let scene = Scene::open(builder().patience(0.1), 4, 1);
    let costly = scene.costly(GREATEST); // by its estimate alone a wait would last 100 seconds
    let begun = Instant::now();
    while !costly.is_done() {
        assert!(begun.elapsed() < Duration::from_secs(20));
        scene.cheap().join().unwrap();
        thread::sleep(Duration::from_millis(5));
    }
    let status = scene.pool.status();
    assert!(status.waits > 1, "{status:?}");
    // a tenth of a second for each worker, and the excess of the last sleep
    assert!(status.waited < 2_000_000, "{status:?}");
}

#[test]
fn one_tenant_alone_never_waits() {
    let pool = builder().workers(4).patience(1.0).open().unwrap();
    let handles: Vec<_> =
        (0..200).map(|_| pool.submit_with(ACME, KindId::FIRST, declared(seconds(1)), || ()).unwrap()).collect();
    handles.into_iter().for_each(|handle| handle.join().unwrap());
    assert_eq!((pool.status().early, pool.status().waits), (0, 0));
    // another tenant's job that has ended keeps no worker waiting
    pool.submit(GLOBEX, KindId::FIRST, || ()).unwrap().join().unwrap();
    while pool.status().running > 0 {
        thread::yield_now();
    }
    let before = pool.status().waits;
    let handles: Vec<_> =
        (0..200).map(|_| pool.submit_with(ACME, KindId::FIRST, declared(seconds(1)), || ()).unwrap()).collect();
    handles.into_iter().for_each(|handle| handle.join().unwrap());
    assert_eq!(pool.join().waits, before);
}

#[test]
fn no_wake_up_is_lost() {
    let scene = Scene::open(builder().patience(1.0), 16, 3);
    scene.refresh(3);
    let costly: Vec<_> = (0..3).map(|_| scene.costly(seconds(5))).collect();
    thread::scope(|scope| {
        for submitter in 0..2 {
            let scene = &scene;
            scope.spawn(move || {
                for i in 0..500_u64 {
                    let begun = Instant::now();
                    scene.cheap().join().unwrap();
                    // a wake-up that is lost lets it wait for the patience's end
                    assert!(begun.elapsed() < Duration::from_secs(2), "round {i}: {:?}", begun.elapsed());
                    thread::sleep(Duration::from_micros((i + submitter) % 40 * 5));
                }
            });
        }
    });
    assert!(scene.pool.status().waits >= 1);
    drop(scene.holds);
    scene.pool.join();
    assert!(costly.iter().all(Handle::is_done));
}

#[test]
fn a_cheap_job_finds_one_of_many_that_wait() {
    let scene = Scene::open(builder().patience(1.0), 16, 7);
    scene.refresh(7);
    let costly: Vec<_> = (0..7).map(|_| scene.costly(seconds(2))).collect();
    scene.until_waits(7);
    let begun = Instant::now();
    scene.cheap().join().unwrap();
    assert!(begun.elapsed() < Duration::from_secs(1), "{:?}", begun.elapsed());
    assert!(costly.into_iter().all(|handle| handle.join().is_ok()));
}

#[test]
fn a_wake_up_goes_on_where_its_worker_waits() {
    // by these weights virtual time is slow: a job of 860 seconds that starts at 800 is due for the last worker alone
    let builder = Pool::builder().tenant("acme", 1).tenant("globex", 1000).tenant("hooli", 1);
    let mut scene = Scene::open(builder.estimator(Estimator::Declared).patience(1.0).policy(Policy::TwoDfq), 16, 14);
    scene.holds.clear();
    scene.refresh(16);
    scene.hold(ACME, 800_000_000);
    scene.hold(GLOBEX, 1);
    scene.refresh(14);
    let begun = Instant::now();
    scene.costly(860_000_000).join().unwrap();
    assert!(begun.elapsed() < Duration::from_secs(6), "{:?}", begun.elapsed());
}

#[test]
fn nobody_waits_once_the_next_scheduler_takes_over() {
    let scene = Scene::open(builder().patience(1.0).entries(100), 16, 1);
    scene.refresh(1);
    let costly = scene.costly(seconds(15));
    let begun = Instant::now();
    while scene.pool.status().schedulers == 1 {
        scene.cheap().join().unwrap();
    }
    costly.join().unwrap();
    assert!(begun.elapsed() < Duration::from_secs(7), "{:?}", begun.elapsed());
}

#[test]
fn the_end_of_a_job_is_news() {
    let pool = builder().workers(16).most_workers(17).patience(1.0).open().unwrap();
    let mut scene = Scene { holds: Vec::new(), pool };
    (0..16).for_each(|_| scene.hold(GLOBEX, 1));
    scene.pool.workers(17).unwrap();
    scene.hold(ACME, GREATEST);
    scene.pool.workers(16).unwrap(); // the worker of acme's job takes nothing after it
    drop(scene.holds.remove(0));
    let costly = scene.costly(seconds(15));
    scene.until_waits(1);
    let begun = Instant::now();
    drop(scene.holds.pop()); // acme's job has cost much less than its estimate, so that the next is due
    costly.join().unwrap();
    assert!(begun.elapsed() < Duration::from_secs(7), "{:?}", begun.elapsed());
}

#[test]
fn workers_come_and_go_while_they_wait() {
    let scene = Scene::open(builder().patience(1.0), 16, 4);
    scene.refresh(4);
    let costly: Vec<_> = (0..4).map(|_| scene.costly(seconds(3))).collect();
    scene.until_waits(4);
    for count in [1, 16, 8, 16, 2, 16, 15, 16] {
        scene.pool.workers(count).unwrap();
        if count == 16 {
            let begun = Instant::now();
            scene.cheap().join().unwrap();
            assert!(begun.elapsed() < Duration::from_secs(2), "{:?}", begun.elapsed());
        }
    }
    drop(scene.holds);
    let status = scene.pool.join();
    assert_eq!((status.waiting, status.running), (0, 0));
    assert!(costly.iter().all(Handle::is_done));
}

#[test]
fn a_pool_is_dropped_while_workers_wait() {
    let Scene { pool, holds } = Scene::open(builder().patience(1.0), 16, 2);
    let ran = Arc::new(Mutex::new(0));
    for _ in 0..4 {
        let ran = ran.clone();
        pool.submit_with(ACME, KindId::FIRST, declared(seconds(8)), move || *ran.lock().unwrap() += 1).unwrap();
    }
    let begun = Instant::now();
    drop(holds);
    drop(pool);
    assert!(begun.elapsed() < Duration::from_secs(6), "{:?}", begun.elapsed());
    assert_eq!(*ran.lock().unwrap(), 4);
}
