//! Stands in for the shim's `single_threaded`: large values lie in statics, not on the stack. As in the
//! shim, one thread runs the code that uses it.

use core::cell::UnsafeCell;
use core::mem::MaybeUninit;
use core::ops::{Deref, DerefMut};
use core::sync::atomic::{AtomicBool, Ordering::Relaxed};

/// The place of one value.
pub struct Place<T> {
    value: UnsafeCell<MaybeUninit<T>>,
    lent: AtomicBool,
}

// SAFETY: one thread uses it.
unsafe impl<T> Sync for Place<T> {}

impl<T> Place<T> {
    pub const fn new() -> Self {
        Place {
            value: UnsafeCell::new(MaybeUninit::uninit()),
            lent: AtomicBool::new(false),
        }
    }

    /// Writes the value and lends it until the result is dropped, which unwinding does too.
    #[inline]
    #[track_caller]
    pub fn lend(&'static self, value: T) -> OffStackRef<'static, T> {
        assert!(!self.lent.load(Relaxed), "an off_stack value is still lent");
        self.lent.store(true, Relaxed);
        // SAFETY: one thread uses it, and the value is not lent.
        let value = unsafe { (*self.value.get()).write(value) };
        let lent = &self.lent;
        OffStackRef { value, lent }
    }
}

pub struct OffStackRef<'a, T> {
    value: &'a mut T,
    lent: &'a AtomicBool,
}

impl<T> Deref for OffStackRef<'_, T> {
    type Target = T;

    #[inline]
    fn deref(&self) -> &T {
        self.value
    }
}

impl<T> DerefMut for OffStackRef<'_, T> {
    #[inline]
    fn deref_mut(&mut self) -> &mut T {
        self.value
    }
}

impl<T> Drop for OffStackRef<'_, T> {
    #[inline]
    fn drop(&mut self) {
        self.lent.store(false, Relaxed);
    }
}

macro_rules! off_stack {
    ($type:ty, $value:expr) => {{
        static PLACE: $crate::single_threaded::Place<$type> = $crate::single_threaded::Place::new();
        PLACE.lend($value)
    }};
}
pub(crate) use off_stack;
