//! Stand-in for `arrayvec`: a `Vec` that holds at most `CAP` elements.
//!
//! The stand-ins for trackers of resource states hand out no barriers, so the
//! lists that the copy functions build stay empty and nothing is allocated.

use std::ops::{Deref, DerefMut};

/// A list of at most `CAP` elements.
#[derive(Clone, Debug)]
pub struct ArrayVec<T, const CAP: usize>(Vec<T>);

impl<T, const CAP: usize> FromIterator<T> for ArrayVec<T, CAP> {
    fn from_iter<I: IntoIterator<Item = T>>(elements: I) -> Self {
        let mut list = Self(Vec::new());
        list.extend(elements);
        list
    }
}

impl<T, const CAP: usize> Extend<T> for ArrayVec<T, CAP> {
    fn extend<I: IntoIterator<Item = T>>(&mut self, elements: I) {
        self.0.extend(elements);
        assert!(self.0.len() <= CAP, "more than {CAP} elements");
    }
}

impl<T, const CAP: usize> Deref for ArrayVec<T, CAP> {
    type Target = [T];

    fn deref(&self) -> &[T] {
        &self.0
    }
}

impl<T, const CAP: usize> DerefMut for ArrayVec<T, CAP> {
    fn deref_mut(&mut self) -> &mut [T] {
        &mut self.0
    }
}
