//! A buffer of a bounded number of values, of which the oldest is taken first.
#![no_std]

extern crate rtstd as std;

use std::alloc::{AllocError, Global};
use std::vec::Vec;

/// The buffer: it takes all its memory when it is made.
#[derive(Debug)]
pub struct HeapCircularBuffer<T> {
    /// A value or none at each place, in a ring.
    places: Vec<Option<T>>,
    /// The place of the oldest value.
    first: usize,
    len: usize,
}

impl<T> HeapCircularBuffer<T> {
    /// An empty one for so many values.
    pub fn with_capacity(alloc: Global, capacity: usize) -> Result<Self, AllocError> {
        let mut places = Vec::with_capacity(alloc, capacity)?;
        for _ in 0..capacity {
            places.push(None)?;
        }
        Ok(Self { places, first: 0, len: 0 })
    }

    /// How many values it has.
    pub fn len(&self) -> usize {
        self.len
    }

    /// Whether it has none.
    pub fn is_empty(&self) -> bool {
        self.len == 0
    }

    /// Whether it has as many as it can have.
    pub fn is_full(&self) -> bool {
        self.len == self.places.len()
    }

    /// How many it can have.
    pub fn capacity(&self) -> usize {
        self.places.len()
    }

    // The place of the nth value from the oldest on.
    fn place(&self, nth: usize) -> usize {
        let place = self.first + nth;
        if place < self.places.len() { place } else { place - self.places.len() }
    }

    /// Puts a value behind the others. A full one gives it back.
    pub fn try_push_back(&mut self, value: T) -> Result<(), T> {
        if self.is_full() {
            return Err(value);
        }
        let place = self.place(self.len);
        self.places[place] = Some(value);
        self.len += 1;
        Ok(())
    }

    /// Puts a value behind the others. A full one lets the oldest go and gives it.
    pub fn push_back(&mut self, value: T) -> Option<T> {
        if self.capacity() == 0 {
            return Some(value);
        }
        let oldest = if self.is_full() { self.pop_front() } else { None };
        let _ = self.try_push_back(value);
        oldest
    }

    /// Takes the oldest value out.
    pub fn pop_front(&mut self) -> Option<T> {
        let oldest = self.places.get_mut(self.first)?.take()?;
        self.first = self.place(1);
        self.len -= 1;
        Some(oldest)
    }

    /// The nth value from the oldest on, which is number 0.
    pub fn get(&self, nth: usize) -> Option<&T> {
        if nth >= self.len {
            return None;
        }
        self.places[self.place(nth)].as_ref()
    }

    /// The oldest value.
    pub fn front(&self) -> Option<&T> {
        self.get(0)
    }

    /// The oldest value.
    pub fn front_mut(&mut self) -> Option<&mut T> {
        self.places.get_mut(self.first)?.as_mut()
    }

    /// The newest value.
    pub fn back(&self) -> Option<&T> {
        self.get(self.len.checked_sub(1)?)
    }

    /// Lets all values go.
    pub fn clear(&mut self) {
        while self.pop_front().is_some() {}
    }

    /// The values, the oldest first.
    pub fn iter(&self) -> impl Iterator<Item = &T> {
        (0..self.len).filter_map(|nth| self.get(nth))
    }
}
