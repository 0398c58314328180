//! Vectors and boxes over those of `alloc`: a call that takes memory says where, and answers `AllocError` where there is none.
use core::ops::{Deref, DerefMut};

/// The heap. It stands for the program's global allocator.
#[derive(Clone, Copy, Debug)]
pub struct Global;

/// There was no memory for what was asked; nothing changed.
#[derive(Clone, Copy, Debug, PartialEq, Eq)]
pub struct AllocError;

/// A vector whose growth may fail.
#[derive(Debug, PartialEq, Eq)]
pub struct Vec<T>(on_heap::vec::Vec<T>);

impl<T> Vec<T> {
    /// An empty one, which takes no memory.
    pub fn new(_: Global) -> Self {
        Vec(on_heap::vec::Vec::new())
    }

    /// An empty one with room for so many values.
    pub fn with_capacity(alloc: Global, room: usize) -> Result<Self, AllocError> {
        let mut made = Self::new(alloc);
        made.0.try_reserve_exact(room).map_err(|_| AllocError)?;
        Ok(made)
    }

    /// Where it takes its memory.
    pub fn allocator(&self) -> &Global {
        &Global
    }

    /// Makes room for so many more values.
    pub fn reserve(&mut self, more: usize) -> Result<(), AllocError> {
        self.0.try_reserve(more).map_err(|_| AllocError)
    }

    /// Appends a value.
    pub fn push(&mut self, value: T) -> Result<(), AllocError> {
        self.reserve(1)?;
        self.0.push(value);
        Ok(())
    }

    /// Appends a value where there is room; else gives it back.
    pub fn push_within_capacity(&mut self, value: T) -> Result<(), T> {
        if self.0.len() == self.0.capacity() {
            return Err(value);
        }
        self.0.push(value);
        Ok(())
    }

    /// Appends a value where room was made.
    pub fn push_reserved(&mut self, value: T) {
        assert!(self.0.len() < self.0.capacity());
        self.0.push(value);
    }

    /// Puts a value at this place, before the one that stands there.
    pub fn insert(&mut self, at: usize, value: T) -> Result<(), AllocError> {
        self.reserve(1)?;
        self.0.insert(at, value);
        Ok(())
    }

    /// Takes the last value off.
    pub fn pop(&mut self) -> Option<T> {
        self.0.pop()
    }

    /// Takes the value at this place out.
    pub fn remove(&mut self, at: usize) -> T {
        self.0.remove(at)
    }

    /// Lets all values behind so many go.
    pub fn truncate(&mut self, len: usize) {
        self.0.truncate(len)
    }

    /// Lets all values go.
    pub fn clear(&mut self) {
        self.0.clear()
    }

    /// How many values there is room for.
    pub fn capacity(&self) -> usize {
        self.0.capacity()
    }

    /// The values.
    pub fn as_slice(&self) -> &[T] {
        &self.0
    }

    /// The values.
    pub fn as_mut_slice(&mut self) -> &mut [T] {
        &mut self.0
    }
}

impl<T: Clone> Vec<T> {
    /// Copies of these values.
    pub fn from_slice(alloc: Global, values: &[T]) -> Result<Self, AllocError> {
        let mut made = Self::with_capacity(alloc, values.len())?;
        made.0.extend_from_slice(values);
        Ok(made)
    }

    /// So many copies of a value.
    pub fn from_elem(alloc: Global, value: T, count: usize) -> Result<Self, AllocError> {
        let mut made = Self::with_capacity(alloc, count)?;
        made.0.resize(count, value);
        Ok(made)
    }

    /// Makes it so long: what is lacking are copies of a value.
    pub fn resize(&mut self, len: usize, value: T) -> Result<(), AllocError> {
        self.reserve(len.saturating_sub(self.0.len()))?;
        self.0.resize(len, value);
        Ok(())
    }

    /// Appends copies of these values.
    pub fn extend_from_slice(&mut self, values: &[T]) -> Result<(), AllocError> {
        self.reserve(values.len())?;
        self.0.extend_from_slice(values);
        Ok(())
    }
}

impl<T> Deref for Vec<T> {
    type Target = [T];

    fn deref(&self) -> &[T] {
        &self.0
    }
}

impl<T> DerefMut for Vec<T> {
    fn deref_mut(&mut self) -> &mut [T] {
        &mut self.0
    }
}

impl<T> IntoIterator for Vec<T> {
    type Item = T;
    type IntoIter = on_heap::vec::IntoIter<T>;

    fn into_iter(self) -> Self::IntoIter {
        self.0.into_iter()
    }
}

/// Iterators whose values are kept in a vector that says where it takes its memory.
pub trait CollectIn: Iterator + Sized {
    /// The values.
    fn collect_in(self, alloc: Global) -> Result<Vec<Self::Item>, AllocError> {
        let mut made = Vec::new(alloc);
        for value in self {
            made.push(value)?;
        }
        Ok(made)
    }
}

impl<I: Iterator> CollectIn for I {}

/// A value on the heap.
#[derive(Debug, PartialEq, Eq)]
pub struct Box<T>(on_heap::boxed::Box<T>);

impl<T> Box<T> {
    /// Puts a value there. Rust has no answer for want of memory here: the program ends then.
    pub fn new(_: Global, value: T) -> Result<Self, AllocError> {
        Ok(Box(on_heap::boxed::Box::new(value)))
    }
}

impl<T> AsRef<T> for Box<T> {
    fn as_ref(&self) -> &T {
        &self.0
    }
}

impl<T> AsMut<T> for Box<T> {
    fn as_mut(&mut self) -> &mut T {
        &mut self.0
    }
}

impl<T> Deref for Box<T> {
    type Target = T;

    fn deref(&self) -> &T {
        &self.0
    }
}

impl<T> DerefMut for Box<T> {
    fn deref_mut(&mut self) -> &mut T {
        &mut self.0
    }
}
