//! The part of `std::sync` that the crate uses, over the locks of pthreads, whose calls ThreadSanitizer sees.
use std::cell::UnsafeCell;
use std::ops::{Deref, DerefMut};
use std::time::Duration;

pub use std::sync::{Arc, Weak};

/// `pthread_mutex_t` of glibc on x86-64. All zeroes is an open lock.
#[repr(C, align(8))]
struct RawMutex([u8; 40]);

/// `pthread_cond_t` of glibc on x86-64.
#[repr(C, align(8))]
struct RawCondvar([u8; 48]);

#[repr(C)]
struct Timespec {
    seconds: i64,
    nanoseconds: i64,
}

const CLOCK_REALTIME: i32 = 0;
const SECOND: i64 = 1_000_000_000;

extern "C" {
    fn pthread_mutex_lock(mutex: *mut RawMutex) -> i32;
    fn pthread_mutex_trylock(mutex: *mut RawMutex) -> i32;
    fn pthread_mutex_unlock(mutex: *mut RawMutex) -> i32;
    fn pthread_mutex_destroy(mutex: *mut RawMutex) -> i32;
    fn pthread_cond_wait(condvar: *mut RawCondvar, mutex: *mut RawMutex) -> i32;
    fn pthread_cond_timedwait(condvar: *mut RawCondvar, mutex: *mut RawMutex, until: *const Timespec) -> i32;
    fn pthread_cond_signal(condvar: *mut RawCondvar) -> i32;
    fn pthread_cond_broadcast(condvar: *mut RawCondvar) -> i32;
    fn pthread_cond_destroy(condvar: *mut RawCondvar) -> i32;
    fn clock_gettime(clock: i32, time: *mut Timespec) -> i32;
}

/// These locks are never poisoned.
pub struct PoisonError<G>(G);

impl<G> PoisonError<G> {
    pub fn into_inner(self) -> G {
        self.0
    }
}

pub type LockResult<G> = Result<G, PoisonError<G>>;

pub enum TryLockError<G> {
    #[allow(dead_code)]
    Poisoned(PoisonError<G>),
    WouldBlock,
}

/// On the heap, since it may not move.
pub struct Mutex<T> {
    raw: Box<UnsafeCell<RawMutex>>,
    value: UnsafeCell<T>,
}

unsafe impl<T: Send> Send for Mutex<T> {}
unsafe impl<T: Send> Sync for Mutex<T> {}

pub struct MutexGuard<'a, T> {
    mutex: &'a Mutex<T>,
}

impl<T> Mutex<T> {
    pub fn new(value: T) -> Mutex<T> {
        Mutex { raw: Box::new(UnsafeCell::new(RawMutex([0; 40]))), value: UnsafeCell::new(value) }
    }

    pub fn lock(&self) -> LockResult<MutexGuard<'_, T>> {
        assert_eq!(unsafe { pthread_mutex_lock(self.raw.get()) }, 0);
        Ok(MutexGuard { mutex: self })
    }

    pub fn try_lock(&self) -> Result<MutexGuard<'_, T>, TryLockError<MutexGuard<'_, T>>> {
        match unsafe { pthread_mutex_trylock(self.raw.get()) } {
            0 => Ok(MutexGuard { mutex: self }),
            _ => Err(TryLockError::WouldBlock),
        }
    }
}

impl<T: Default> Default for Mutex<T> {
    fn default() -> Self {
        Mutex::new(T::default())
    }
}

impl<T> Drop for Mutex<T> {
    fn drop(&mut self) {
        unsafe { pthread_mutex_destroy(self.raw.get()) };
    }
}

impl<T> Drop for MutexGuard<'_, T> {
    fn drop(&mut self) {
        unsafe { pthread_mutex_unlock(self.mutex.raw.get()) };
    }
}

impl<T> Deref for MutexGuard<'_, T> {
    type Target = T;

    fn deref(&self) -> &T {
        unsafe { &*self.mutex.value.get() }
    }
}

impl<T> DerefMut for MutexGuard<'_, T> {
    fn deref_mut(&mut self) -> &mut T {
        unsafe { &mut *self.mutex.value.get() }
    }
}

pub struct Condvar(Box<UnsafeCell<RawCondvar>>);

unsafe impl Send for Condvar {}
unsafe impl Sync for Condvar {}

impl Condvar {
    pub fn new() -> Condvar {
        Condvar(Box::new(UnsafeCell::new(RawCondvar([0; 48]))))
    }

    pub fn wait<'a, T>(&self, guard: MutexGuard<'a, T>) -> LockResult<MutexGuard<'a, T>> {
        unsafe { pthread_cond_wait(self.0.get(), guard.mutex.raw.get()) };
        Ok(guard)
    }

    pub fn wait_while<'a, T>(
        &self,
        mut guard: MutexGuard<'a, T>,
        mut condition: impl FnMut(&mut T) -> bool,
    ) -> LockResult<MutexGuard<'a, T>> {
        while condition(&mut guard) {
            guard = self.wait(guard).unwrap_or_else(PoisonError::into_inner);
        }
        Ok(guard)
    }

    /// The guard alone: no caller asks whether the time has passed.
    pub fn wait_timeout<'a, T>(&self, guard: MutexGuard<'a, T>, time: Duration) -> LockResult<(MutexGuard<'a, T>, ())> {
        let mut until = Timespec { seconds: 0, nanoseconds: 0 };
        unsafe { clock_gettime(CLOCK_REALTIME, &mut until) };
        let nanoseconds = until.nanoseconds + i64::from(time.subsec_nanos());
        until.seconds += time.as_secs().min(1_000_000) as i64 + nanoseconds / SECOND;
        until.nanoseconds = nanoseconds % SECOND;
        unsafe { pthread_cond_timedwait(self.0.get(), guard.mutex.raw.get(), &until) };
        Ok((guard, ()))
    }

    pub fn notify_one(&self) {
        unsafe { pthread_cond_signal(self.0.get()) };
    }

    pub fn notify_all(&self) {
        unsafe { pthread_cond_broadcast(self.0.get()) };
    }
}

impl Default for Condvar {
    fn default() -> Self {
        Condvar::new()
    }
}

impl Drop for Condvar {
    fn drop(&mut self) {
        unsafe { pthread_cond_destroy(self.0.get()) };
    }
}
