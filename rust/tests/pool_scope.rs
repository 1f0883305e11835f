//! Jobs that borrow.
use std::panic::{self, AssertUnwindSafe};
use std::sync::atomic::{AtomicBool, AtomicU32, Ordering};
use std::sync::mpsc;
use std::thread;
use std::time::Duration;

use twodfq::{Builder, Cause, JoinError, KindId, Pool, TenantId};

fn builder() -> Builder {
    Pool::builder().workers(3).tenant("acme", 1).tenant("globex", 2)
}

#[test]
fn jobs_write_what_they_borrow() {
    let pool = builder().entries(100).open().unwrap();
    let mut table = vec![vec![0_u32; 50]; 40];
    for round in 1..=20 {
        pool.scope(|scope| {
            for (tenant, row) in table.iter_mut().enumerate() {
                let job = move || row.iter_mut().for_each(|cell| *cell += round);
                scope.submit(TenantId::new(tenant as u32 % 2), KindId::FIRST, job).unwrap();
            }
        });
    }
    assert!(table.iter().flatten().all(|&cell| cell == 210));
}

#[test]
fn results_may_borrow_and_handles_may_be_dropped() {
    let pool = builder().open().unwrap();
    let text = String::from("one two three");
    let longest = pool.scope(|scope| {
        drop(scope.submit("acme", KindId::FIRST, || text.split(' ').collect::<Vec<_>>()).unwrap());
        let words = scope.submit("globex", KindId::FIRST, || text.split(' ').max_by_key(|word| word.len())).unwrap();
        words.join().unwrap()
    });
    assert_eq!(longest, Some("three"));
}

#[test]
fn the_scope_waits_for_all_that_it_handed_in() {
    let pool = builder().open().unwrap();
    let ended = AtomicU32::new(0);
    let slow = |_| {
        thread::sleep(Duration::from_millis(5));
        ended.fetch_add(1, Ordering::SeqCst);
    };
    pool.scope(|scope| (0..10).for_each(|i| drop(scope.submit("acme", KindId::FIRST, move || slow(i)).unwrap())));
    assert_eq!(ended.load(Ordering::SeqCst), 10);
    let fails = AssertUnwindSafe(|| {
        pool.scope(|scope| {
            (0..10).for_each(|i| drop(scope.submit("globex", KindId::FIRST, move || slow(i)).unwrap()));
            panic!("in the body");
        })
    });
    let payload = panic::catch_unwind(fails).unwrap_err();
    assert_eq!(payload.downcast_ref::<&str>(), Some(&"in the body"));
    assert_eq!(ended.load(Ordering::SeqCst), 20);
}

#[test]
fn a_job_that_panics_ends_its_scope_like_any_other() {
    let pool = builder().open().unwrap();
    let after = AtomicBool::new(false);
    pool.scope(|scope| {
        let fails = scope.submit("acme", KindId::FIRST, || assert!(after.load(Ordering::SeqCst), "not yet")).unwrap();
        assert_eq!(fails.join(), Err(JoinError::Panicked("not yet".to_string())));
        scope.submit("acme", KindId::FIRST, || after.store(true, Ordering::SeqCst)).unwrap();
    });
    assert!(after.into_inner());
}

#[test]
fn what_a_job_borrows_is_dropped_before_the_scope_ends() {
    struct Marks<'a>(&'a AtomicU32);
    impl Drop for Marks<'_> {
        fn drop(&mut self) {
            thread::sleep(Duration::from_millis(2));
            self.0.fetch_add(1, Ordering::SeqCst);
        }
    }
    let pool = builder().open().unwrap();
    let dropped = AtomicU32::new(0);
    pool.scope(|scope| {
        for _ in 0..20 {
            let (inside, result) = (Marks(&dropped), Marks(&dropped));
            let job = move || (drop(inside), result); // no handle gets the result
            scope.submit("acme", KindId::FIRST, job).unwrap();
        }
    });
    assert_eq!(dropped.load(Ordering::SeqCst), 40);
}

#[test]
fn a_refused_job_comes_back_with_what_it_borrows() {
    let pool = builder().workers(1).room(1).open().unwrap();
    let mut number = 1;
    pool.scope(|scope| {
        let (sender, receiver) = mpsc::channel::<()>();
        let (begins, begun) = mpsc::channel();
        scope.submit("acme", KindId::FIRST, move || (begins.send(()).unwrap(), receiver.recv().unwrap())).unwrap();
        begun.recv().unwrap();
        scope.submit("acme", KindId::FIRST, || ()).unwrap();
        let rejected = scope.submit("acme", KindId::FIRST, || number += 1).unwrap_err();
        assert_eq!(rejected.cause, Cause::TooManyWait(1));
        (rejected.job)();
        sender.send(()).unwrap();
    });
    assert_eq!(number, 2);
}
