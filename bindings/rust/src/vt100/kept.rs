//! Values that are read of a screen and kept until it changes.
use std::cell::UnsafeCell;
use std::panic::RefUnwindSafe;
use std::sync::atomic::{AtomicU64, Ordering};

/// A value that is read of a screen at most once between two of its changes. A turn is how many changes there were.
#[derive(Default)]
pub(super) struct Kept<T> {
    /// The turn at which it was read last.
    turn: AtomicU64,
    value: UnsafeCell<T>,
}

// SAFETY: one thread at a time writes the value, and nobody looks at it before it says its turn (`get_or_read`).
unsafe impl<T: Send + Sync> Sync for Kept<T> {}

// What a panic leaves half read doesn't say its turn.
impl<T> RefUnwindSafe for Kept<T> {}

impl<T> Kept<T> {
    /// The value, if it was read at this turn.
    #[inline]
    pub(super) fn get(&self, turn: u64) -> Option<&T> {
        let is_read = self.turn.load(Ordering::Acquire) == turn;
        // SAFETY: what was read at this turn isn't written before the next one.
        is_read.then(|| unsafe { &*self.value.get() })
    }

    /// The value, which is read unless it was already read at this turn.
    ///
    /// # Safety
    ///
    /// The caller holds the screen's lock. The turn is the screen's, greater than 0, and nothing lent at an earlier turn
    /// is still lent.
    #[inline]
    pub(super) unsafe fn get_or_read(&self, turn: u64, read: impl FnOnce(&mut T)) -> &T {
        if self.get(turn).is_none() {
            // SAFETY: no other thread has the lock, and nobody looks at what doesn't say this turn.
            read(unsafe { &mut *self.value.get() });
            self.turn.store(turn, Ordering::Release);
        }
        // SAFETY: as in `get`.
        unsafe { &*self.value.get() }
    }
}
