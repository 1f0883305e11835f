//! An idle pool sleeps, and so does the timekeeper of permits. The test measures its process, so it has its own file.
use std::fs;
use std::thread;
use std::time::{Duration, Instant};

use twodfq::{KindId, Permits, Pool};

mod executor;

use executor::poll;

/// The processor time that all threads of this process have used, in nanoseconds.
fn processor_time() -> u64 {
    let tasks = fs::read_dir("/proc/self/task").unwrap();
    let time = |task: fs::DirEntry| -> u64 {
        let text = fs::read_to_string(task.path().join("schedstat")).unwrap();
        text.split(' ').next().unwrap().parse().unwrap()
    };
    tasks.map(|task| time(task.unwrap())).sum()
}

#[test]
fn an_idle_pool_uses_less_than_a_thousandth() {
    let pool = Pool::builder().workers(4).most_workers(8).tenant("acme", 1).open().unwrap();
    let journal = pool.journal(Vec::new()).unwrap();
    pool.submit("acme", KindId::FIRST, || ()).unwrap().join().unwrap();
    let permits = Permits::builder().workers(1).tenant("acme", 1).open_permits().unwrap();
    let _held = permits.try_acquire("acme", KindId::FIRST).unwrap();
    let mut waits = permits.acquire_by("acme", KindId::FIRST, Instant::now() + Duration::from_secs(600));
    assert!(poll(&mut waits).is_pending());
    thread::sleep(Duration::from_millis(100)); // until all sleep
    let (used, begun) = (processor_time(), Instant::now());
    thread::sleep(Duration::from_secs(2));
    let (used, time) = (processor_time() - used, begun.elapsed().as_nanos() as u64);
    assert!(used * 1000 < time, "{used} nanoseconds of processor time in {time}");
    pool.join();
    assert_eq!(journal.join().unwrap().journals, 1);
}
