//! What the exported sources name `std` and Rust has otherwise, over a heap that the caller of the C library hands it.
//!
//! Everything else of `std` that the sources name is `core`'s. Nothing takes memory but from the `Global` that it is told, and there is no
//! other one: no memory belongs to the library itself.
#![no_std]

pub use core::*;

pub mod clone;
pub mod simd;
mod storage;

/// Where memory comes from, and want of it.
pub mod alloc {
    pub use crate::storage::{AllocError, Global};
}

/// Vectors.
pub mod vec {
    pub use crate::storage::{CollectIn, Vec};
}

/// A value on the heap.
pub mod boxed {
    pub use crate::storage::Box;
}

/// What each exported file has at hand.
pub mod prelude {
    pub use crate::clone::TryClone;
    pub use crate::storage::{Box, CollectIn, Vec};
}
