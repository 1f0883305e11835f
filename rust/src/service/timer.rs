//! The timekeeper: a thread that wakes when a deadline has passed or a patient wait ends.
use std::io;
use std::sync::{Arc, Condvar, Mutex, MutexGuard, PoisonError, Weak};
use std::thread;
use std::time::{Duration, Instant};

use super::shared::{Payload, Shared};

#[derive(Default)]
struct Alarm {
    /// When the thread wakes next.
    at: Option<Instant>,
    is_started: bool,
    is_over: bool,
}

#[derive(Default)]
pub(crate) struct Timer {
    alarm: Mutex<Alarm>,
    change: Condvar,
}

impl Timer {
    fn lock(&self) -> MutexGuard<'_, Alarm> {
        self.alarm.lock().unwrap_or_else(PoisonError::into_inner)
    }

    /// Starts the thread once. It keeps no pool alive.
    pub(crate) fn start<P: Payload>(self: &Arc<Self>, shared: &Arc<Shared<P>>) -> io::Result<()> {
        let mut alarm = self.lock();
        if !alarm.is_started {
            let (timer, shared) = (self.clone(), Arc::downgrade(shared));
            thread::Builder::new().name("twodfq-timer".to_string()).spawn(move || timer.run(&shared))?;
            alarm.is_started = true;
        }
        Ok(())
    }

    /// Wakes the thread at this time at the latest.
    pub(crate) fn wake_by(&self, at: Instant) {
        let mut alarm = self.lock();
        if alarm.at.is_none_or(|before| at < before) {
            alarm.at = Some(at);
            self.change.notify_one();
        }
    }

    /// Ends the thread.
    pub(crate) fn end(&self) {
        self.lock().is_over = true;
        self.change.notify_one();
    }

    fn run<P: Payload>(&self, shared: &Weak<Shared<P>>) {
        while self.wait() {
            let Some(shared) = shared.upgrade() else { return };
            shared.call(|state, _| state.tick());
        }
    }

    /// Waits for the alarm. False at the end.
    fn wait(&self) -> bool {
        let mut alarm = self.lock();
        while !alarm.is_over {
            alarm = match alarm.at.map(|at| at.saturating_duration_since(Instant::now())) {
                None => self.change.wait(alarm).unwrap_or_else(PoisonError::into_inner),
                Some(Duration::ZERO) => {
                    alarm.at = None; // before the look, after which it is set anew
                    return true;
                }
                Some(left) => self.change.wait_timeout(alarm, left).unwrap_or_else(PoisonError::into_inner).0,
            };
        }
        false
    }
}
