//! Copies of values whose making may lack memory.
pub use core::clone::*;

use crate::alloc::AllocError;
use arrayvec::ArrayVec;

/// A value that is copied where there is memory for the copy.
pub trait TryClone: Sized {
    /// A copy.
    ///
    /// # Errors
    ///
    /// There is no memory for it.
    fn try_clone(&self) -> Result<Self, AllocError>;
}

/// A copy where memory is wanted for sure: it panics without, as Rust's own copies of vectors do.
pub fn sure<T: TryClone>(value: &T) -> T {
    match value.try_clone() {
        Ok(copy) => copy,
        Err(AllocError) => panic!("out of memory"),
    }
}

impl<T: Clone, const N: usize> TryClone for ArrayVec<T, N> {
    fn try_clone(&self) -> Result<Self, AllocError> {
        Ok(self.iter().cloned().collect())
    }
}
