//! Stand-in for `smallvec`: a `Vec`, whatever the room that an array would have
//! in place.

use std::ops::{Deref, DerefMut};

/// What a list has room for in place.
pub trait Array {
    type Item;
}

impl<T, const ROOM: usize> Array for [T; ROOM] {
    type Item = T;
}

/// A list of the array's elements, of any length. What is done with it is what
/// `Vec` does.
#[derive(Clone, Debug)]
pub struct SmallVec<A: Array>(Vec<A::Item>);

impl<A: Array> FromIterator<A::Item> for SmallVec<A> {
    fn from_iter<I: IntoIterator<Item = A::Item>>(elements: I) -> Self {
        Self(elements.into_iter().collect())
    }
}

impl<A: Array> Deref for SmallVec<A> {
    type Target = Vec<A::Item>;

    fn deref(&self) -> &Vec<A::Item> {
        &self.0
    }
}

impl<A: Array> DerefMut for SmallVec<A> {
    fn deref_mut(&mut self) -> &mut Vec<A::Item> {
        &mut self.0
    }
}
