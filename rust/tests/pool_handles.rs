//! Handles and pools that are used up, dropped early, or dropped where they are.
use std::future::Future;
use std::io;
use std::panic::{self, AssertUnwindSafe};
use std::pin::Pin;
use std::sync::atomic::{AtomicUsize, Ordering};
use std::sync::{mpsc, Arc};
use std::task::{Context, Poll, Wake, Waker};
use std::thread;
use std::time::Duration;

use twodfq::{Builder, Handle, KindId, Pool};

/// The time limit of a call that ends at once on a processor of its own.
const LIMIT: Duration = Duration::from_secs(60);

fn builder() -> Builder {
    Pool::builder().workers(2).tenant("acme", 1)
}

/// The result of the call on a thread of its own, or its panic. A call that never ends fails.
fn ends<T: Send + 'static>(call: impl FnOnce() -> T + Send + 'static) -> thread::Result<T> {
    let (sender, receiver) = mpsc::channel();
    thread::spawn(move || _ = sender.send(panic::catch_unwind(AssertUnwindSafe(call))));
    receiver.recv_timeout(LIMIT).expect("the call ends")
}

#[test]
fn a_job_may_drop_its_pool_while_a_journal_is_written() {
    let pool = Arc::new(builder().open().unwrap());
    let journal = pool.journal(io::sink()).unwrap();
    let (sender, receiver) = mpsc::channel::<Arc<Pool>>();
    let handle = pool.submit("acme", KindId::FIRST, move || drop(receiver.recv().unwrap())).unwrap();
    let later = pool.submit("acme", KindId::FIRST, || 42).unwrap();
    sender.send(pool).unwrap();
    ends(|| handle.join()).unwrap().unwrap();
    assert_eq!(ends(|| later.join()).unwrap(), Ok(42));
    assert_eq!(ends(|| journal.join()).unwrap().unwrap().journals, 1);
}

#[test]
fn a_callback_may_drop_its_pool_while_a_journal_is_written() {
    let pool = Arc::new(builder().open().unwrap());
    let journal = pool.journal(io::sink()).unwrap();
    let (sender, receiver) = mpsc::channel::<Arc<Pool>>();
    let (ended, end) = mpsc::channel();
    let (begin, begins) = mpsc::channel::<()>();
    pool.submit("acme", KindId::FIRST, move || begins.recv().is_ok()).unwrap().then(move |_| {
        drop(receiver.recv().unwrap());
        ended.send(()).unwrap();
    });
    sender.send(pool).unwrap();
    begin.send(()).unwrap(); // so that a worker calls it, and not this thread
    end.recv_timeout(LIMIT).unwrap();
    assert_eq!(ends(|| journal.join()).unwrap().unwrap().journals, 1);
}

/// A waker that counts.
#[derive(Default)]
struct Counts(AtomicUsize);

impl Wake for Counts {
    fn wake(self: Arc<Self>) {
        self.0.fetch_add(1, Ordering::SeqCst);
    }
}

fn poll<T>(handle: &mut Handle<T>, waker: &Arc<Counts>) -> bool {
    let waker = Waker::from(waker.clone());
    matches!(Pin::new(handle).poll(&mut Context::from_waker(&waker)), Poll::Ready(Ok(_)))
}

/// A handle whose result a poll gave.
fn polled() -> Handle<u32> {
    let pool = builder().open().unwrap();
    let mut handle = pool.submit("acme", KindId::FIRST, || 42).unwrap();
    pool.join();
    assert!(poll(&mut handle, &Arc::default()));
    handle
}

#[test]
fn a_result_is_given_once() {
    assert!(ends(|| polled().join()).is_err());
    assert!(ends(|| polled().try_join().is_ok()).is_err());
    assert!(ends(|| polled().then(drop)).is_err());
    assert!(ends(|| poll(&mut polled(), &Arc::default())).is_err());
    assert!(polled().is_done());
}

#[test]
fn a_dropped_handle_lets_its_waker_go() {
    let pool = builder().open().unwrap();
    let (sender, receiver) = mpsc::channel::<()>();
    let mut handle = pool.submit("acme", KindId::FIRST, move || receiver.recv().is_ok()).unwrap();
    let waker = Arc::<Counts>::default();
    assert!(!poll(&mut handle, &waker));
    assert_eq!(Arc::strong_count(&waker), 2);
    drop(handle);
    assert_eq!(Arc::strong_count(&waker), 1);
    sender.send(()).unwrap();
    pool.join();
    assert_eq!(waker.0.load(Ordering::SeqCst), 0);
}

/// A value that panics whenever it is dropped.
struct PanicsWhenDropped;

impl Drop for PanicsWhenDropped {
    fn drop(&mut self) {
        panic::panic_any(PanicsWhenDropped);
    }
}

#[test]
fn a_callback_on_a_finished_job_panics_alone() {
    let pool = builder().open().unwrap();
    let [first, second] = [(); 2].map(|()| pool.submit("acme", KindId::FIRST, || 42).unwrap());
    pool.join();
    first.then(|_| panic!("a callback"));
    second.then(|_| panic::panic_any(PanicsWhenDropped));
}
