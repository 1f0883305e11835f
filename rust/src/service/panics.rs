//! Calls of a caller's own, which may panic.
use std::any::Any;
use std::mem;
use std::panic::{self, AssertUnwindSafe};

/// The result of the call; none where it panics. The panic is printed, as any, and goes no further. Its payload may
/// panic too when it is dropped: then the payload of that panic is kept for good.
pub(crate) fn caught<T>(call: impl FnOnce() -> T) -> Option<T> {
    let outcome = panic::catch_unwind(AssertUnwindSafe(call));
    let dropped = |payload| panic::catch_unwind(AssertUnwindSafe(|| drop(payload))).unwrap_or_else(mem::forget);
    outcome.map_err(dropped).ok()
}

/// The message of a panic.
pub(crate) fn panic_message(payload: &(dyn Any + Send)) -> String {
    let text = payload.downcast_ref::<&str>().map(|text| text.to_string());
    let message = text.or_else(|| payload.downcast_ref::<String>().cloned());
    message.unwrap_or_else(|| "no message".to_string())
}
