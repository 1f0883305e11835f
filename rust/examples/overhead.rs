//! The overhead of the pool beside a plain queue of closures: nanoseconds a job, from submit to end, of empty jobs
//! and of jobs of 10 microseconds, by 1, 4 and 16 workers. One thread hands in batches, and waits for the end of each.
//!
//!     cargo run --release --example overhead
mod batches;
mod fifo;

use std::time::Duration;

use batches::nanoseconds;
use fifo::Fifo;

fn compare(workers: u32, time: Duration, batches: usize) {
    let fifo = Fifo::open(workers);
    let pool = batches::builder(workers).open().expect("a pool of sixteen tenants opens");
    let by_queue = |_: u32, job: Box<dyn FnOnce() + Send>| fifo.submit(job);
    let by_pool = |number: u32, job: Box<dyn FnOnce() + Send>| batches::submit(&pool, number, job);
    // by turns, so that other load of the machine is in both, and the median of each
    let turns = (0..5).map(|_| (nanoseconds(&by_queue, time, batches), nanoseconds(&by_pool, time, batches)));
    let (mut queue, mut fair): (Vec<u64>, Vec<u64>) = turns.unzip();
    queue.sort_unstable();
    fair.sort_unstable();
    let (queue, fair) = (queue[2], fair[2]);
    let parts = fair as f64 / queue as f64;
    println!("{workers:7} {:12} {queue:10} {fair:8} {parts:8.2} {:12}", time.as_micros(), 1_000_000_000 / fair);
}

fn main() {
    println!(
        "{:>7} {:>12} {:>10} {:>8} {:>8} {:>12}",
        "workers", "microseconds", "queue, ns", "pool, ns", "times", "jobs/s"
    );
    for time in [Duration::ZERO, Duration::from_micros(10)] {
        for workers in [1, 4, 16] {
            compare(workers, time, 40);
        }
    }
}
