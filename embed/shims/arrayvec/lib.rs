//! A vector of a bounded number of values. It stands in for the crate `arrayvec` where a machine hasn't that one: its values lie on the heap,
//! and not in it.
#![no_std]

extern crate alloc;

use alloc::vec::Vec;
use core::ops::{Deref, DerefMut};

/// The vector, of at most `N` values.
#[derive(Clone, Debug, PartialEq, Eq)]
pub struct ArrayVec<T, const N: usize>(Vec<T>);

/// There is no room for a value.
#[derive(Clone, Copy, Debug, PartialEq, Eq)]
pub struct CapacityError<T = ()>(T);

impl<T> CapacityError<T> {
    /// The value for which there is none.
    pub fn element(self) -> T {
        self.0
    }
}

impl<T, const N: usize> ArrayVec<T, N> {
    /// An empty one.
    pub const fn new() -> Self {
        ArrayVec(Vec::new())
    }

    /// How many values it can have.
    pub const fn capacity(&self) -> usize {
        N
    }

    /// Whether it has as many as it can have.
    pub fn is_full(&self) -> bool {
        self.0.len() == N
    }

    /// How many more it can have.
    pub fn remaining_capacity(&self) -> usize {
        N - self.0.len()
    }

    /// Appends a value; a full one gives it back.
    pub fn try_push(&mut self, value: T) -> Result<(), CapacityError<T>> {
        if self.is_full() {
            return Err(CapacityError(value));
        }
        self.0.push(value);
        Ok(())
    }

    /// Appends a value to one that isn't full.
    pub fn push(&mut self, value: T) {
        assert!(!self.is_full());
        self.0.push(value);
    }

    /// Takes the last value off.
    pub fn pop(&mut self) -> Option<T> {
        self.0.pop()
    }

    /// Puts a value at this place into one that isn't full.
    pub fn insert(&mut self, at: usize, value: T) {
        assert!(!self.is_full());
        self.0.insert(at, value);
    }

    /// Takes the value at this place out.
    pub fn remove(&mut self, at: usize) -> T {
        self.0.remove(at)
    }

    /// Takes the value at this place out where there is one.
    pub fn pop_at(&mut self, at: usize) -> Option<T> {
        if at < self.0.len() { Some(self.0.remove(at)) } else { None }
    }

    /// Takes the value at this place out, and puts the last one there.
    pub fn swap_remove(&mut self, at: usize) -> T {
        self.0.swap_remove(at)
    }

    /// Lets all values go but those that are to be kept.
    pub fn retain<F: FnMut(&mut T) -> bool>(&mut self, is_kept: F) {
        self.0.retain_mut(is_kept);
    }

    /// Lets all values behind so many go.
    pub fn truncate(&mut self, len: usize) {
        self.0.truncate(len);
    }

    /// Lets all values go.
    pub fn clear(&mut self) {
        self.0.clear();
    }

    /// The values.
    pub fn as_slice(&self) -> &[T] {
        &self.0
    }

    /// The values.
    pub fn as_mut_slice(&mut self) -> &mut [T] {
        &mut self.0
    }
}

impl<T: Copy, const N: usize> ArrayVec<T, N> {
    /// Appends all of these values where there is room for them.
    pub fn try_extend_from_slice(&mut self, values: &[T]) -> Result<(), CapacityError> {
        if values.len() > self.remaining_capacity() {
            return Err(CapacityError(()));
        }
        self.0.extend_from_slice(values);
        Ok(())
    }
}

impl<T, const N: usize> Default for ArrayVec<T, N> {
    fn default() -> Self {
        Self::new()
    }
}

impl<T, const N: usize> Deref for ArrayVec<T, N> {
    type Target = [T];

    fn deref(&self) -> &[T] {
        &self.0
    }
}

impl<T, const N: usize> DerefMut for ArrayVec<T, N> {
    fn deref_mut(&mut self) -> &mut [T] {
        &mut self.0
    }
}

impl<T, const N: usize> From<[T; N]> for ArrayVec<T, N> {
    fn from(values: [T; N]) -> Self {
        ArrayVec(Vec::from(values))
    }
}

impl<T, const N: usize> Extend<T> for ArrayVec<T, N> {
    fn extend<I: IntoIterator<Item = T>>(&mut self, values: I) {
        for value in values {
            self.push(value);
        }
    }
}

impl<T, const N: usize> FromIterator<T> for ArrayVec<T, N> {
    fn from_iter<I: IntoIterator<Item = T>>(values: I) -> Self {
        let mut made = Self::new();
        made.extend(values);
        made
    }
}

impl<T, const N: usize> IntoIterator for ArrayVec<T, N> {
    type Item = T;
    type IntoIter = alloc::vec::IntoIter<T>;

    fn into_iter(self) -> Self::IntoIter {
        self.0.into_iter()
    }
}

impl<'a, T, const N: usize> IntoIterator for &'a ArrayVec<T, N> {
    type Item = &'a T;
    type IntoIter = core::slice::Iter<'a, T>;

    fn into_iter(self) -> Self::IntoIter {
        self.0.iter()
    }
}

impl<'a, T, const N: usize> IntoIterator for &'a mut ArrayVec<T, N> {
    type Item = &'a mut T;
    type IntoIter = core::slice::IterMut<'a, T>;

    fn into_iter(self) -> Self::IntoIter {
        self.0.iter_mut()
    }
}
