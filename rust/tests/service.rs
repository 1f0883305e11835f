//! The scheduler in a service of threads, and each call once.
use std::sync::{Condvar, Mutex};
use std::thread;

use twodfq::{Act, Config, Entry, Estimator, OpenFault, Policy, Refusal, Scheduler, Submit, Taken};

const CONFIG: Config = Config {
    workers: 4,
    weights: &[1, 2, 3],
    kinds: 1,
    entries: 8000,
    requests: 1000,
    policy: Policy::TwoDfq,
    estimate: Estimator::Declared,
    initial: 10,
    keep: 0,
};

fn labelled(label: u64) -> Submit {
    Submit { tenant: (label % 3) as u32, kind: 0, declared: 10, label }
}

#[test]
fn a_log_reads_on() {
    let mut scheduler = Scheduler::open(&Config { keep: 4, ..CONFIG }).unwrap();
    let (mut read, mut log) = (0, Vec::new());
    for label in 0..100 {
        assert_eq!(scheduler.submit(5, label, labelled(label)), Ok(label as u32));
        log.extend(scheduler.entries_from(read).unwrap());
        read = log.len() as u64;
    }
    assert_eq!(log.iter().map(|entry| entry.moment).collect::<Vec<_>>(), (0..100).collect::<Vec<_>>());
    assert_eq!(scheduler.entries_from(95).err(), Some(96));
    assert_eq!(scheduler.entry(95), None);
    assert_eq!(scheduler.entries().count(), 4);
}

#[test]
fn a_long_history_is_not_kept_whole() {
    let long = Config { entries: 4_000_000_000, ..CONFIG };
    assert_eq!(Scheduler::open(&long).unwrap_err(), OpenFault::Entries);
    assert!(Scheduler::open(&Config { keep: 1, ..long }).is_ok());
    let longer = Config { entries: 4_000_000_001, keep: 1, ..CONFIG };
    assert_eq!(Scheduler::open(&longer).unwrap_err(), OpenFault::Entries);
}

#[test]
fn each_call_once() {
    let none = Scheduler::open(&Config { weights: &[1, 0], ..CONFIG });
    assert_eq!(none.unwrap_err(), OpenFault::Weight);
    let mut scheduler = Scheduler::open(&CONFIG).unwrap();
    assert_eq!(scheduler.take(9, 0, 0), Ok(Taken::Idle));
    assert_eq!(scheduler.take(9, 0, 4), Err(Refusal::Worker(4)));
    assert_eq!(scheduler.submit(5, 3, labelled(1)), Ok(0));
    assert_eq!(scheduler.take(9, 4, 0), Ok(Taken::Run { request: 0, estimate: 10, label: 1 }));
    assert_eq!(scheduler.take(9, 4, 0), Err(Refusal::Busy(0)));
    assert_eq!(scheduler.report(9, 5, 0, 6), Ok(()));
    assert_eq!(scheduler.done(9, 6, 0, 4), Err(Refusal::Falling { last: 6, given: 4 }));
    assert_eq!(scheduler.done(9, 6, 0, 8), Ok(()));
    assert_eq!(scheduler.weight(0, 7, 2, 100_001), Err(Refusal::Weight(100_001)));
    assert_eq!(scheduler.weight(0, 7, 2, 5), Ok(()));
    assert_eq!(scheduler.workers(0, 8, 1), Ok(()));
    assert_eq!(scheduler.take(9, 8, 3), Ok(Taken::Retired { workers: 1 }));
    assert_eq!(scheduler.close(0, 9), Ok(()));
    assert_eq!(scheduler.take(9, 9, 0), Ok(Taken::Drained));
    let acts: Vec<Act> = scheduler.entries().map(|entry| entry.act).collect();
    let wanted = [
        Act::Submit { request: 0, tenant: 1, kind: 0, declared: 10, label: 1 },
        Act::Take { worker: 0, request: 0, estimate: 10 },
        Act::Report { worker: 0, request: 0, used: 6 },
        Act::Done { worker: 0, request: 0, cost: 8 },
        Act::Weight { tenant: 2, weight: 5 },
        Act::Workers { count: 1 },
        Act::Close,
    ];
    assert_eq!(acts, wanted);
    assert_eq!(scheduler.entry(3), Some(Entry { who: 9, moment: 6, act: wanted[3] }));
    assert_eq!(scheduler.entry(7), None);
}

/// A worker's life: it sleeps while no request waits, and returns the labels of its requests.
fn work(worker: u32, scheduler: &Mutex<Scheduler>, news: &Condvar) -> Vec<u64> {
    let mut ran = Vec::new();
    let mut held = scheduler.lock().unwrap();
    loop {
        match held.take(worker, 0, worker).unwrap() {
            Taken::Run { label, .. } => {
                drop(held);
                ran.push(label);
                held = scheduler.lock().unwrap();
                held.done(worker, 0, worker, 5).unwrap();
            }
            Taken::Idle => held = news.wait(held).unwrap(),
            Taken::Drained | Taken::Retired { .. } => return ran,
        }
    }
}

#[test]
fn threads_run_each_job_once() {
    let scheduler = Mutex::new(Scheduler::open(&CONFIG).unwrap());
    let news = Condvar::new();
    let mut ran: Vec<u64> = thread::scope(|scope| {
        let (scheduler, news) = (&scheduler, &news);
        let workers: Vec<_> = (0..4).map(|worker| scope.spawn(move || work(worker, scheduler, news))).collect();
        for label in 0..1000 {
            scheduler.lock().unwrap().submit(9, 0, labelled(label)).unwrap();
            news.notify_one();
        }
        scheduler.lock().unwrap().close(9, 0).unwrap();
        news.notify_all();
        workers.into_iter().flat_map(|worker| worker.join().unwrap()).collect()
    });
    ran.sort_unstable();
    assert_eq!(ran, (0..1000).collect::<Vec<_>>());
}
