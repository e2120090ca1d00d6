//! Stand-in: a spin lock is a mutex of std.
use std::sync::{Mutex, MutexGuard};

pub struct SpinLock<T>(Mutex<T>);

impl<T> SpinLock<T> {
    pub fn new(value: T) -> Self {
        Self(Mutex::new(value))
    }

    pub fn lock(&self) -> MutexGuard<'_, T> {
        self.0.lock().unwrap()
    }

    /// # Safety
    /// None is needed here; the published code calls it so.
    pub unsafe fn lock_raw(&self) -> MutexGuard<'_, T> {
        self.lock()
    }
}
