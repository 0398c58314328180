//! What the exported sources name `std` and Rust has otherwise: calls that say where they take memory, and that answer want of it.
//!
//! Everything else of `std` that the sources name is `core`'s. Nothing here is unsafe but `mem::replace_with`: vectors and boxes are those of `alloc`,
//! on the global allocator of the program. (The C library has the same names over a heap that its caller hands it.)
#![no_std]

extern crate alloc as on_heap;

pub use core::*;

pub mod clone;
pub mod mem;
pub mod simd;
mod storage;
mod text;

/// Where memory comes from, and want of it.
pub mod alloc {
    pub use crate::storage::{AllocError, Global};
}

/// Vectors.
pub mod vec {
    pub use crate::storage::{CollectIn, Vec};
}

/// A value on the heap.
pub mod boxed {
    pub use crate::storage::Box;
}

/// Texts.
pub mod string {
    pub use crate::text::String;
}

/// What each exported file has at hand.
pub mod prelude {
    pub use crate::clone::TryClone;
    pub use crate::storage::{Box, CollectIn, Vec};
    pub use crate::text::String;
}
