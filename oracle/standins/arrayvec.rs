//! The crate `arrayvec`, as much as the blend asks of it. The source's answer does not tell an exact filter from a blended one; its loop over the blended
//! points does, so that loop's length is noted here.

use std::cell::Cell;
use std::ops::Deref;

thread_local! {
    static WALKED: Cell<usize> = const { Cell::new(0) };
}

/// The points that were walked over since the last call; 0 when no list was.
pub fn walked() -> usize {
    WALKED.with(|w| w.replace(0))
}

pub struct ArrayVec<T, const CAP: usize>(Vec<T>);

impl<T, const CAP: usize> ArrayVec<T, CAP> {
    pub fn new() -> Self {
        ArrayVec(Vec::with_capacity(CAP))
    }

    pub fn push(&mut self, value: T) {
        assert!(self.0.len() < CAP);
        self.0.push(value);
    }
}

impl<T, const CAP: usize> Deref for ArrayVec<T, CAP> {
    type Target = [T];

    fn deref(&self) -> &[T] {
        &self.0
    }
}

impl<'a, T, const CAP: usize> IntoIterator for &'a ArrayVec<T, CAP> {
    type Item = &'a T;
    type IntoIter = std::slice::Iter<'a, T>;

    fn into_iter(self) -> Self::IntoIter {
        WALKED.with(|w| w.set(self.0.len()));
        self.0.iter()
    }
}
