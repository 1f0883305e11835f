//! The place of a result that one thread puts there and another waits for.
use std::mem;
use std::sync::{Condvar, Mutex, MutexGuard, PoisonError};
use std::task::{Context, Poll, Waker};
use std::time::Instant;

use super::panics::caught;

/// The action once there is a result.
enum Then<R> {
    Nothing,
    Wake(Waker),
    Call(Box<dyn FnOnce(R) + Send>),
}

enum Stage<R> {
    Pending {
        then: Then<R>,
        someone_waits: bool,
    },
    Ready(R),
    /// The result was given, or the place is abandoned.
    Given,
}

impl<R> Stage<R> {
    /// The result, where it is there. It is given once: a caller that asks again after a poll would wait for ever.
    fn result(&mut self) -> Option<R> {
        match mem::replace(self, Stage::Given) {
            Stage::Ready(result) => Some(result),
            Stage::Given => panic!("the result was given to a poll"),
            pending => {
                *self = pending;
                None
            }
        }
    }

    /// Sets the action. The action before is returned, to be dropped without the lock, since it may be a caller's own.
    fn replace(&mut self, next: Then<R>) -> Option<Then<R>> {
        match self {
            Stage::Pending { then, .. } => Some(mem::replace(then, next)),
            Stage::Ready(_) | Stage::Given => None,
        }
    }
}

pub(crate) struct Place<R> {
    stage: Mutex<Stage<R>>,
    ready: Condvar,
}

impl<R> Place<R> {
    pub(crate) fn new() -> Place<R> {
        Place { stage: Mutex::new(Stage::Pending { then: Then::Nothing, someone_waits: false }), ready: Condvar::new() }
    }

    fn lock(&self) -> MutexGuard<'_, Stage<R>> {
        self.stage.lock().unwrap_or_else(PoisonError::into_inner)
    }

    /// Puts the result there and wakes the waiter. At an abandoned place the result is dropped, without the lock.
    pub(crate) fn put(&self, result: R) {
        drop(self.offer(result));
    }

    /// Puts the result there and wakes the waiter. An abandoned place returns the result.
    pub(crate) fn offer(&self, result: R) -> Option<R> {
        let mut stage = self.lock();
        let Stage::Pending { then, someone_waits } = mem::replace(&mut *stage, Stage::Given) else {
            return Some(result);
        };
        if let Then::Call(callback) = then {
            drop(stage);
            caught(|| callback(result));
            return None;
        }
        *stage = Stage::Ready(result);
        drop(stage);
        if someone_waits {
            self.ready.notify_all();
        }
        if let Then::Wake(waker) = then {
            caught(|| waker.wake()); // it is the runtime's code
        }
        None
    }

    pub(crate) fn wait(&self) -> R {
        let mut stage = self.lock();
        loop {
            if let Some(result) = stage.result() {
                return result;
            }
            if let Stage::Pending { someone_waits, .. } = &mut *stage {
                *someone_waits = true;
            }
            stage = self.ready.wait(stage).unwrap_or_else(PoisonError::into_inner);
        }
    }

    /// Waits for the result until this time at most.
    pub(crate) fn wait_until(&self, time: Instant) -> Option<R> {
        let mut stage = self.lock();
        loop {
            let left = time.saturating_duration_since(Instant::now());
            match &mut *stage {
                Stage::Pending { .. } if left.is_zero() => return None,
                Stage::Pending { someone_waits, .. } => *someone_waits = true,
                _ => return stage.result(),
            }
            stage = self.ready.wait_timeout(stage, left).unwrap_or_else(PoisonError::into_inner).0;
        }
    }

    /// Abandons the place. Gives the result, where it is there.
    pub(crate) fn abandon(&self) -> Option<R> {
        let mut stage = self.lock();
        let before = mem::replace(&mut *stage, Stage::Given);
        drop(stage);
        match before {
            Stage::Ready(result) => Some(result),
            Stage::Pending { .. } | Stage::Given => None,
        }
    }

    /// The result, where it is there.
    pub(crate) fn get(&self) -> Option<R> {
        self.lock().result()
    }

    pub(crate) fn is_done(&self) -> bool {
        !matches!(*self.lock(), Stage::Pending { .. })
    }

    /// Has the callback called with the result, here where it is there.
    pub(crate) fn then(&self, callback: impl FnOnce(R) + Send + 'static) {
        let mut stage = self.lock();
        if let Some(result) = stage.result() {
            drop(stage);
            caught(|| callback(result));
            return;
        }
        let before = stage.replace(Then::Call(Box::new(callback)));
        drop(stage);
        drop(before);
    }

    pub(crate) fn poll(&self, context: &mut Context<'_>) -> Poll<R> {
        let mut stage = self.lock();
        if let Some(result) = stage.result() {
            return Poll::Ready(result);
        }
        let before = stage.replace(Then::Wake(context.waker().clone()));
        drop(stage);
        drop(before);
        Poll::Pending
    }

    /// Drops the waker, since nobody polls any more.
    pub(crate) fn forget_waker(&self) {
        let mut stage = self.lock();
        let is_polled = matches!(*stage, Stage::Pending { then: Then::Wake(_), .. });
        let waker = is_polled.then(|| stage.replace(Then::Nothing));
        drop(stage);
        drop(waker);
    }
}
