//! The cost of a status to other callers of the pool, and of a look for a name, with the most tenants there may be.
use std::alloc::{GlobalAlloc, Layout, System};
use std::cell::Cell;
use std::fs;
use std::sync::atomic::{AtomicBool, AtomicUsize, Ordering};
use std::thread;
use std::time::{Duration, Instant};

use twodfq::{KindId, Pool, TenantId};

const TENANTS: u32 = 65_536;

/// The time limit of another call that nothing holds up.
const LIMIT: Duration = Duration::from_secs(20);

static ASKED: AtomicUsize = AtomicUsize::new(0);
static ANSWERED: AtomicUsize = AtomicUsize::new(0);
static IN_TIME: AtomicUsize = AtomicUsize::new(0);

thread_local! {
    /// How many blocks the thread takes from here on until it waits once for another thread's call; 0 is none.
    static BLOCKS: Cell<usize> = const { Cell::new(0) };
}

/// The system's allocator, which waits in the midst of some blocks.
struct Waits;

unsafe impl GlobalAlloc for Waits {
    unsafe fn alloc(&self, layout: Layout) -> *mut u8 {
        let left = BLOCKS.get();
        BLOCKS.set(left.saturating_sub(1));
        if left == 1 {
            wait_for_a_call();
        }
        System.alloc(layout)
    }

    unsafe fn dealloc(&self, block: *mut u8, layout: Layout) {
        System.dealloc(block, layout);
    }
}

#[global_allocator]
static ALLOCATOR: Waits = Waits;

/// Asks for a call of another thread, and waits for its end, or for the limit.
fn wait_for_a_call() {
    let number = ASKED.fetch_add(1, Ordering::SeqCst) + 1;
    let begun = Instant::now();
    while begun.elapsed() < LIMIT {
        if ANSWERED.load(Ordering::SeqCst) == number {
            IN_TIME.fetch_add(1, Ordering::SeqCst);
            return;
        }
        thread::yield_now();
    }
}

fn name(number: u32) -> String {
    format!("tenant-with-a-name-of-some-length-{number}")
}

fn pool() -> Pool {
    let builder = (0..TENANTS).fold(Pool::builder(), |builder, number| builder.tenant(&name(number), 1));
    builder.workers(1).open().unwrap()
}

/// Makes a call whenever one is asked for.
fn answer(pool: &Pool, is_over: &AtomicBool) {
    while !is_over.load(Ordering::SeqCst) {
        let asked = ASKED.load(Ordering::SeqCst);
        if ANSWERED.load(Ordering::SeqCst) < asked {
            assert!(pool.submit(TenantId::new(TENANTS), KindId::FIRST, || ()).is_err()); // it takes the lock
            ANSWERED.store(asked, Ordering::SeqCst);
        }
        thread::yield_now();
    }
}

#[test]
fn others_call_while_a_status_takes_memory() {
    let pool = pool();
    let is_over = AtomicBool::new(false);
    thread::scope(|scope| {
        scope.spawn(|| answer(&pool, &is_over));
        for block in [1, 2, 1000, 4000] {
            BLOCKS.set(block);
            pool.status();
        }
        is_over.store(true, Ordering::SeqCst);
    });
    assert_eq!(IN_TIME.load(Ordering::SeqCst), 4);
}

/// The processor time that the calling thread has used.
fn processor_time() -> Duration {
    let text = fs::read_to_string("/proc/thread-self/schedstat").unwrap();
    Duration::from_nanos(text.split(' ').next().unwrap().parse().unwrap())
}

#[test]
fn a_name_is_soon_found() {
    let pool = pool();
    let last = name(TENANTS - 1);
    let begun = processor_time();
    for _ in 0..10_000 {
        assert_eq!(pool.tenant(&last), Some(TenantId::new(TENANTS - 1)));
    }
    let used = processor_time() - begun;
    assert!(used < Duration::from_millis(300), "{used:?}");
}
