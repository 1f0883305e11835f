//! The charges of jobs, as a visitor sees them that comes in the midst of a flood: it is served soon, however short the
//! jobs of the flood are, and however little of their time is measured.
use std::hint;
use std::sync::atomic::{AtomicBool, AtomicUsize, Ordering};
use std::sync::{Arc, Barrier, Mutex, PoisonError};
use std::thread;
use std::time::{Duration, Instant};

use twodfq::{KindId, Measure, Policy, Pool, TenantId};

const WORKERS: u32 = 4;
const FLOOD: TenantId = TenantId::new(0);
const VISITOR: TenantId = TenantId::new(1);

fn nothing() {}

fn spin() {
    let begun = Instant::now();
    while begun.elapsed() < Duration::from_micros(100) {
        hint::spin_loop();
    }
}

fn sleep() {
    thread::sleep(Duration::from_millis(1));
}

/// Jobs of one tenant that all wait before the first of them is run.
struct Flood {
    measure: Measure,
    job: fn(),
    jobs: usize,
}

/// How many jobs have been run, and whether the others may be left out.
#[derive(Default)]
struct Progress {
    ran: AtomicUsize,
    is_over: AtomicBool,
}

impl Progress {
    fn ran(&self) -> usize {
        self.ran.load(Ordering::SeqCst)
    }
}

impl Flood {
    /// Hands the jobs in while all workers are held, and then frees the workers.
    fn begin(&self, pool: &Pool) -> Arc<Progress> {
        let barrier = Arc::new(Barrier::new(WORKERS as usize + 1));
        for _ in 0..WORKERS {
            let barrier = barrier.clone();
            pool.submit(FLOOD, KindId::FIRST, move || _ = barrier.wait()).unwrap();
        }
        let progress = Arc::<Progress>::default();
        for _ in 0..self.jobs {
            let (progress, job) = (progress.clone(), self.job);
            let counted = move || {
                if !progress.is_over.load(Ordering::SeqCst) {
                    job();
                }
                progress.ran.fetch_add(1, Ordering::SeqCst);
            };
            pool.submit(FLOOD, KindId::FIRST, counted).unwrap();
        }
        barrier.wait();
        progress
    }

    /// How many jobs of the flood are run while ten requests of a visitor wait. The visitor comes once half of the jobs
    /// are run, and sends the next request when the last is done.
    fn waits(&self, patience: f64) -> usize {
        static TURN: Mutex<()> = Mutex::new(()); // one flood at a time
        let _turn = TURN.lock().unwrap_or_else(PoisonError::into_inner);
        let builder = Pool::builder()
            .workers(WORKERS)
            .tenant("flood", 1)
            .tenant("visitor", 1)
            .room(262_144)
            .room_per_tenant(262_144);
        let builder = builder.policy(Policy::default()).measure(self.measure);
        let pool = builder.patience(patience).open().unwrap();
        let progress = self.begin(&pool);
        while progress.ran() < self.jobs / 2 {
            thread::sleep(Duration::from_millis(1));
        }
        let visit = |_| {
            let seen = progress.clone();
            let handle = pool.submit(VISITOR, KindId::FIRST, move || seen.ran()).unwrap();
            let before = progress.ran();
            handle.join().unwrap().saturating_sub(before)
        };
        let waits = (0..10).map(visit).sum();
        progress.is_over.store(true, Ordering::SeqCst);
        waits
    }

    /// Whether under each patience a visitor waits for fewer jobs than these in one of some attempts: where a worker
    /// loses its processor in the midst of a job, the others may run many jobs before this one is charged.
    fn lets_a_visitor_in(&self, jobs: usize) -> bool {
        [0.0, 0.02, 1.0].into_iter().all(|patience| (0..5).any(|_| self.waits(patience) < jobs))
    }
}

#[test]
fn a_visitor_is_soon_served_beside_empty_jobs() {
    assert!(Flood { measure: Measure::Wall, job: nothing, jobs: 200_000 }.lets_a_visitor_in(10_000));
}

#[test]
fn a_visitor_is_soon_served_beside_short_jobs() {
    assert!(Flood { measure: Measure::Wall, job: spin, jobs: 40_000 }.lets_a_visitor_in(400));
}

#[test]
fn a_visitor_is_soon_served_beside_jobs_whose_sleep_is_not_charged() {
    assert!(Flood { measure: Measure::Processor, job: sleep, jobs: 8000 }.lets_a_visitor_in(2000));
}
