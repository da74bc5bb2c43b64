//! Stands in for `arrayvec`: a vector in an array that is written only as far as it is filled, and a
//! string likewise, with the parts of their interface that the original and the oracle call.

use core::fmt;
use core::mem::MaybeUninit;
use core::ops::{Deref, DerefMut};
use core::{ptr, slice};

pub struct ArrayVec<T, const CAP: usize> {
    items: [MaybeUninit<T>; CAP],
    len: u32,
}

#[derive(Clone, Copy, PartialEq, Eq)]
pub struct CapacityError<T = ()>(T);

impl<T> fmt::Debug for CapacityError<T> {
    fn fmt(&self, f: &mut fmt::Formatter<'_>) -> fmt::Result {
        f.write_str("CapacityError: insufficient capacity")
    }
}

impl<T, const CAP: usize> ArrayVec<T, CAP> {
    #[inline]
    pub fn new() -> Self {
        Self::new_const()
    }

    #[inline]
    pub const fn new_const() -> Self {
        ArrayVec {
            items: [const { MaybeUninit::uninit() }; CAP],
            len: 0,
        }
    }

    #[inline]
    pub fn try_push(&mut self, item: T) -> Result<(), CapacityError<T>> {
        let len = self.len as usize;
        if len == CAP {
            return Err(CapacityError(item));
        }
        self.items[len].write(item);
        self.len += 1;
        Ok(())
    }

    #[inline]
    #[track_caller]
    pub fn push(&mut self, item: T) {
        self.try_push(item).unwrap();
    }

    #[inline]
    #[track_caller]
    pub fn insert(&mut self, index: usize, item: T) {
        let len = self.len as usize;
        assert!(index <= len, "insert: index {index} past the length {len}");
        if len == CAP {
            return Err(CapacityError(())).unwrap();
        }
        // SAFETY: the items from `index` on move up by one, inside the array.
        unsafe {
            let at = self.items.as_mut_ptr().add(index);
            ptr::copy(at, at.add(1), len - index);
        }
        self.items[index].write(item);
        self.len += 1;
    }

    #[inline]
    pub fn clear(&mut self) {
        let items: *mut [T] = &mut **self;
        self.len = 0;
        // SAFETY: these were the items, and they are no longer counted.
        unsafe { ptr::drop_in_place(items) }
    }

    #[inline]
    pub fn try_extend_from_slice(&mut self, items: &[T]) -> Result<(), CapacityError>
    where
        T: Copy,
    {
        let len = self.len as usize;
        if items.len() > CAP - len {
            return Err(CapacityError(()));
        }
        // SAFETY: there is room for them, and they are plain values.
        unsafe {
            let at = self.items.as_mut_ptr().add(len).cast::<T>();
            ptr::copy_nonoverlapping(items.as_ptr(), at, items.len());
        }
        self.len += items.len() as u32;
        Ok(())
    }
}

impl<T, const CAP: usize> Drop for ArrayVec<T, CAP> {
    #[inline]
    fn drop(&mut self) {
        self.clear();
    }
}

impl<T, const CAP: usize> Deref for ArrayVec<T, CAP> {
    type Target = [T];

    #[inline]
    fn deref(&self) -> &[T] {
        // SAFETY: the first `len` items are written.
        unsafe { slice::from_raw_parts(self.items.as_ptr().cast(), self.len as usize) }
    }
}

impl<T, const CAP: usize> DerefMut for ArrayVec<T, CAP> {
    #[inline]
    fn deref_mut(&mut self) -> &mut [T] {
        // SAFETY: the first `len` items are written.
        unsafe { slice::from_raw_parts_mut(self.items.as_mut_ptr().cast(), self.len as usize) }
    }
}

impl<T, const CAP: usize> AsRef<[T]> for ArrayVec<T, CAP> {
    #[inline]
    fn as_ref(&self) -> &[T] {
        self
    }
}

impl<T, const CAP: usize> Extend<T> for ArrayVec<T, CAP> {
    #[inline]
    #[track_caller]
    fn extend<I: IntoIterator<Item = T>>(&mut self, items: I) {
        for item in items {
            if self.try_push(item).is_err() {
                panic!("ArrayVec: capacity exceeded in extend/from_iter");
            }
        }
    }
}

impl<T, const CAP: usize> FromIterator<T> for ArrayVec<T, CAP> {
    #[inline]
    #[track_caller]
    fn from_iter<I: IntoIterator<Item = T>>(items: I) -> Self {
        let mut list = Self::new();
        list.extend(items);
        list
    }
}

impl<T: Clone, const CAP: usize> Clone for ArrayVec<T, CAP> {
    fn clone(&self) -> Self {
        self.iter().cloned().collect()
    }
}

impl<T: fmt::Debug, const CAP: usize> fmt::Debug for ArrayVec<T, CAP> {
    fn fmt(&self, f: &mut fmt::Formatter<'_>) -> fmt::Result {
        fmt::Debug::fmt(&**self, f)
    }
}

/// The items of a vector from `next` on.
pub struct IntoIter<T, const CAP: usize> {
    list: ArrayVec<T, CAP>,
    next: usize,
}

impl<T, const CAP: usize> Iterator for IntoIter<T, CAP> {
    type Item = T;

    #[inline]
    fn next(&mut self) -> Option<T> {
        let item = self.list.get(self.next)?;
        // SAFETY: it is read once, as `next` goes on and the drop below passes it over.
        let item = unsafe { ptr::read(item) };
        self.next += 1;
        Some(item)
    }
}

impl<T, const CAP: usize> Drop for IntoIter<T, CAP> {
    #[inline]
    fn drop(&mut self) {
        let rest: *mut [T] = &mut self.list[self.next..];
        self.list.len = 0;
        // SAFETY: these were not yet read, and they are no longer counted.
        unsafe { ptr::drop_in_place(rest) }
    }
}

impl<T, const CAP: usize> IntoIterator for ArrayVec<T, CAP> {
    type Item = T;
    type IntoIter = IntoIter<T, CAP>;

    #[inline]
    fn into_iter(self) -> IntoIter<T, CAP> {
        IntoIter {
            list: self,
            next: 0,
        }
    }
}

impl<'a, T, const CAP: usize> IntoIterator for &'a ArrayVec<T, CAP> {
    type Item = &'a T;
    type IntoIter = slice::Iter<'a, T>;

    #[inline]
    fn into_iter(self) -> slice::Iter<'a, T> {
        self.iter()
    }
}

pub struct ArrayString<const CAP: usize> {
    bytes: ArrayVec<u8, CAP>,
}

impl<const CAP: usize> ArrayString<CAP> {
    pub const fn new_const() -> Self {
        ArrayString {
            bytes: ArrayVec::new_const(),
        }
    }

    pub fn as_str(&self) -> &str {
        core::str::from_utf8(&self.bytes).expect("only whole strings are added")
    }
}

impl<const CAP: usize> fmt::Write for ArrayString<CAP> {
    fn write_str(&mut self, s: &str) -> fmt::Result {
        self.bytes
            .try_extend_from_slice(s.as_bytes())
            .map_err(|_| fmt::Error)
    }
}
