//! A vector of a bounded number of values, which lie in it. It stands in for the crate `arrayvec`, so that the library needs no crate of others
//! and nothing in it has to be let go.
#![no_std]

use core::fmt;
use core::mem::{MaybeUninit, needs_drop};
use core::ops::{Deref, DerefMut};
use core::slice;

/// The vector, of at most `N` values.
pub struct ArrayVec<T, const N: usize> {
    places: [MaybeUninit<T>; N],
    /// How many places, from the first on, have a value.
    len: u16,
}

/// There is no room for a value.
#[derive(Clone, Copy, Debug, PartialEq, Eq)]
pub struct CapacityError<T = ()>(T);

impl<T, const N: usize> ArrayVec<T, N> {
    /// An empty one.
    pub const fn new() -> Self {
        const { assert!(N <= u16::MAX as usize && !needs_drop::<T>()) };
        ArrayVec { places: [const { MaybeUninit::uninit() }; N], len: 0 }
    }

    /// How many values it can have.
    pub const fn capacity(&self) -> usize {
        N
    }

    /// How many it has.
    pub const fn len(&self) -> usize {
        self.len as usize
    }

    /// Whether it has none.
    pub const fn is_empty(&self) -> bool {
        self.len == 0
    }

    /// Whether it has as many as it can have.
    pub const fn is_full(&self) -> bool {
        self.len() == N
    }

    /// How many more it can have.
    pub const fn remaining_capacity(&self) -> usize {
        N - self.len()
    }

    /// Appends a value; a full one gives it back.
    pub fn try_push(&mut self, value: T) -> Result<(), CapacityError<T>> {
        if self.is_full() {
            return Err(CapacityError(value));
        }
        self.push(value);
        Ok(())
    }

    /// Appends a value to one that isn't full.
    pub fn push(&mut self, value: T) {
        self.places[self.len()].write(value);
        self.len += 1;
    }

    /// Takes the last value off.
    pub fn pop(&mut self) -> Option<T> {
        self.len = self.len.checked_sub(1)?;
        // SAFETY: this place had a value, and has none from now on.
        Some(unsafe { self.places[self.len()].assume_init_read() })
    }

    /// Puts a value at this place, at most its length, into one that isn't full.
    pub fn insert(&mut self, at: usize, value: T) {
        assert!(at <= self.len());
        self.push(value);
        self[at..].rotate_right(1);
    }

    /// Takes the value at this place out.
    pub fn remove(&mut self, at: usize) -> T {
        match self.pop_at(at) {
            Some(value) => value,
            None => panic!("no value is there"),
        }
    }

    /// Takes the value at this place out where there is one.
    pub fn pop_at(&mut self, at: usize) -> Option<T> {
        if at >= self.len() {
            return None;
        }
        self[at..].rotate_left(1);
        self.pop()
    }

    /// Lets all values go but those that are to be kept, which stay in order.
    pub fn retain<F: FnMut(&mut T) -> bool>(&mut self, mut is_kept: F) {
        let mut kept = 0;
        for at in 0..self.len() {
            if is_kept(&mut self[at]) {
                self.swap(kept, at);
                kept += 1;
            }
        }
        self.truncate(kept);
    }

    /// Lets all values behind so many go.
    pub fn truncate(&mut self, len: usize) {
        if len < self.len() {
            self.len = len as u16;
        }
    }

    /// Lets all values go.
    pub fn clear(&mut self) {
        self.len = 0;
    }

    /// The values.
    pub fn as_slice(&self) -> &[T] {
        // SAFETY: the first `len` places have values.
        unsafe { slice::from_raw_parts(self.places.as_ptr().cast(), self.len()) }
    }

    /// The values.
    pub fn as_mut_slice(&mut self) -> &mut [T] {
        // SAFETY: the first `len` places have values.
        unsafe { slice::from_raw_parts_mut(self.places.as_mut_ptr().cast(), self.len as usize) }
    }
}

impl<T: Copy, const N: usize> ArrayVec<T, N> {
    /// Appends all of these values where there is room for them.
    pub fn try_extend_from_slice(&mut self, values: &[T]) -> Result<(), CapacityError> {
        let Some(room) = self.places[self.len as usize..].get_mut(..values.len()) else {
            return Err(CapacityError(()));
        };
        for (place, value) in room.iter_mut().zip(values) {
            place.write(*value);
        }
        self.len += values.len() as u16;
        Ok(())
    }
}

impl<T, const N: usize> Default for ArrayVec<T, N> {
    fn default() -> Self {
        Self::new()
    }
}

impl<T, const N: usize> Deref for ArrayVec<T, N> {
    type Target = [T];

    fn deref(&self) -> &[T] {
        self.as_slice()
    }
}

impl<T, const N: usize> DerefMut for ArrayVec<T, N> {
    fn deref_mut(&mut self) -> &mut [T] {
        self.as_mut_slice()
    }
}

impl<T: Clone, const N: usize> Clone for ArrayVec<T, N> {
    fn clone(&self) -> Self {
        self.iter().cloned().collect()
    }
}

impl<T: PartialEq, const N: usize> PartialEq for ArrayVec<T, N> {
    fn eq(&self, other: &Self) -> bool {
        self.as_slice() == other.as_slice()
    }
}

impl<T: Eq, const N: usize> Eq for ArrayVec<T, N> {}

impl<T: fmt::Debug, const N: usize> fmt::Debug for ArrayVec<T, N> {
    fn fmt(&self, out: &mut fmt::Formatter<'_>) -> fmt::Result {
        self.as_slice().fmt(out)
    }
}

impl<T, const N: usize> From<[T; N]> for ArrayVec<T, N> {
    fn from(values: [T; N]) -> Self {
        values.into_iter().collect()
    }
}

impl<T, const N: usize> Extend<T> for ArrayVec<T, N> {
    fn extend<I: IntoIterator<Item = T>>(&mut self, values: I) {
        for value in values {
            self.push(value);
        }
    }
}

impl<T, const N: usize> FromIterator<T> for ArrayVec<T, N> {
    fn from_iter<I: IntoIterator<Item = T>>(values: I) -> Self {
        let mut made = Self::new();
        made.extend(values);
        made
    }
}

impl<'a, T, const N: usize> IntoIterator for &'a ArrayVec<T, N> {
    type Item = &'a T;
    type IntoIter = slice::Iter<'a, T>;

    fn into_iter(self) -> Self::IntoIter {
        self.iter()
    }
}

impl<'a, T, const N: usize> IntoIterator for &'a mut ArrayVec<T, N> {
    type Item = &'a mut T;
    type IntoIter = slice::IterMut<'a, T>;

    fn into_iter(self) -> Self::IntoIter {
        self.iter_mut()
    }
}

/// The values one after another.
pub struct IntoIter<T, const N: usize> {
    values: ArrayVec<T, N>,
    /// How many were taken.
    next: usize,
}

impl<T, const N: usize> Iterator for IntoIter<T, N> {
    type Item = T;

    fn next(&mut self) -> Option<T> {
        if self.next == self.values.len() {
            return None;
        }
        self.next += 1;
        // SAFETY: this place has a value, and it isn't read again.
        Some(unsafe { self.values.places[self.next - 1].assume_init_read() })
    }
}

impl<T, const N: usize> IntoIterator for ArrayVec<T, N> {
    type Item = T;
    type IntoIter = IntoIter<T, N>;

    fn into_iter(self) -> IntoIter<T, N> {
        IntoIter { values: self, next: 0 }
    }
}
