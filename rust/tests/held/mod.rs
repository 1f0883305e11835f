//! A pool whose one worker is kept busy, so that further jobs wait.
use std::sync::mpsc::{self, Sender};

use twodfq::{Builder, KindId, Pool};

/// A pool whose worker is held until the sender is used or dropped.
pub fn held(builder: Builder) -> (Pool, Sender<()>) {
    let pool = builder.workers(1).open().unwrap();
    let (sender, receiver) = mpsc::channel();
    let (begins, begun) = mpsc::channel();
    let job = move || {
        begins.send(()).unwrap();
        let _ = receiver.recv();
    };
    pool.submit("acme", KindId::FIRST, job).unwrap();
    begun.recv().unwrap();
    (pool, sender)
}
