//! The crate `arrayvec` for the timed builds, as much as the blend asks of it: in place, as the real one is.

use std::mem::MaybeUninit;
use std::ops::Deref;

pub struct ArrayVec<T: Copy, const CAP: usize> {
    items: [MaybeUninit<T>; CAP],
    len: usize,
}

impl<T: Copy, const CAP: usize> ArrayVec<T, CAP> {
    #[inline]
    pub fn new() -> Self {
        ArrayVec { items: [MaybeUninit::uninit(); CAP], len: 0 }
    }

    #[inline]
    pub fn push(&mut self, value: T) {
        assert!(self.len < CAP);
        self.items[self.len] = MaybeUninit::new(value);
        self.len += 1;
    }
}

impl<T: Copy, const CAP: usize> Deref for ArrayVec<T, CAP> {
    type Target = [T];

    #[inline]
    fn deref(&self) -> &[T] {
        // The first `len` items were written by `push`.
        unsafe { std::slice::from_raw_parts(self.items.as_ptr().cast(), self.len) }
    }
}

impl<'a, T: Copy, const CAP: usize> IntoIterator for &'a ArrayVec<T, CAP> {
    type Item = &'a T;
    type IntoIter = std::slice::Iter<'a, T>;

    #[inline]
    fn into_iter(self) -> Self::IntoIter {
        self.iter()
    }
}
