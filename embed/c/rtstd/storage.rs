//! Vectors and boxes in a piece of memory that is given out from its front to its end, and never taken back.
//!
//! Nothing here is ever let go: values that had to be are refused when the library is built (`room`). Each place that is unsafe has the
//! reason why it may be beside it.
use core::mem::{MaybeUninit, align_of, needs_drop, size_of};
use core::ops::{Deref, DerefMut};
use core::ptr::NonNull;
use core::slice;

/// What stands at the front of a heap.
#[repr(C)]
struct Front {
    /// How many bytes are given out, this front among them. `swp_heap_used` of the C library reads it.
    used: usize,
    /// How many there are.
    size: usize,
}

/// A heap. Copies of it stand for the same one.
#[derive(Clone, Copy)]
pub struct Global {
    front: NonNull<Front>,
}

/// There was no memory for what was asked; nothing changed.
#[derive(Clone, Copy, Debug, PartialEq, Eq)]
pub struct AllocError;

impl Global {
    /// The alignment that a heap must have.
    pub const ALIGNMENT: usize = 8;

    /// An empty heap in these bytes; none where they are fewer than its front.
    ///
    /// # Safety
    ///
    /// The bytes begin at a multiple of 8, may be read and written, and nobody else touches them, as long as anything that was made of the
    /// heap is used.
    pub unsafe fn over(memory: NonNull<u8>, size: usize) -> Option<Self> {
        if size < size_of::<Front>() {
            return None;
        }
        let front = memory.cast::<Front>();
        // SAFETY: the caller gives these bytes, they are enough, and they are aligned.
        unsafe { front.as_ptr().write(Front { used: size_of::<Front>(), size }) };
        Some(Global { front })
    }

    /// How many bytes are given out.
    pub fn used(self) -> usize {
        // SAFETY: `over` wrote the front, and it stays.
        unsafe { (*self.front.as_ptr()).used }
    }

    /// No more is given out from now on.
    pub fn close(self) {
        // SAFETY: `over` wrote the front, and no reference to it is ever made.
        unsafe { (*self.front.as_ptr()).size = (*self.front.as_ptr()).used };
    }

    /// Room for so many values, which is nobody else's, as long as the heap is used.
    fn room<T>(self, count: usize) -> Result<NonNull<MaybeUninit<T>>, AllocError> {
        const { assert!(align_of::<T>() <= Global::ALIGNMENT && !needs_drop::<T>()) };
        let bytes = count.checked_mul(size_of::<T>()).ok_or(AllocError)?;
        let used = self.used().next_multiple_of(align_of::<T>());
        let end = used.checked_add(bytes).ok_or(AllocError)?;
        // SAFETY: `over` wrote the front. The room lies in the heap's bytes behind what was given out before, so that it is the only one
        // there, and it is aligned, since the heap is to 8.
        unsafe {
            if end > (*self.front.as_ptr()).size {
                return Err(AllocError);
            }
            (*self.front.as_ptr()).used = end;
            Ok(self.front.cast::<u8>().add(used).cast())
        }
    }
}

/// A vector. One that outgrows its room takes another, and leaves the old one unused.
pub struct Vec<T> {
    alloc: Global,
    /// Its places, of which the first `len` have a value.
    first: NonNull<MaybeUninit<T>>,
    room: usize,
    len: usize,
}

impl<T> Vec<T> {
    /// An empty one, which takes no memory.
    pub fn new(alloc: Global) -> Self {
        Vec { alloc, first: NonNull::dangling(), room: 0, len: 0 }
    }

    /// An empty one with room for so many values.
    pub fn with_capacity(alloc: Global, room: usize) -> Result<Self, AllocError> {
        Ok(Vec { alloc, first: alloc.room(room)?, room, len: 0 })
    }

    /// All places.
    fn places(&mut self) -> &mut [MaybeUninit<T>] {
        // SAFETY: the heap gave room for so many values to this vector alone, and stays as long as it is used.
        unsafe { slice::from_raw_parts_mut(self.first.as_ptr(), self.room) }
    }

    /// Where it takes its memory.
    pub fn allocator(&self) -> &Global {
        &self.alloc
    }

    /// Makes room for so many more values.
    pub fn reserve(&mut self, more: usize) -> Result<(), AllocError> {
        let wanted = self.len.checked_add(more).ok_or(AllocError)?;
        if wanted <= self.room {
            return Ok(());
        }
        let mut longer = Self::with_capacity(self.alloc, wanted.max(2 * self.room))?;
        while let Some(value) = self.pop() {
            longer.push_reserved(value);
        }
        longer.reverse();
        *self = longer;
        Ok(())
    }

    /// Appends a value.
    pub fn push(&mut self, value: T) -> Result<(), AllocError> {
        self.reserve(1)?;
        self.push_reserved(value);
        Ok(())
    }

    /// Appends a value where room was made.
    pub fn push_reserved(&mut self, value: T) {
        let at = self.len;
        self.places()[at].write(value);
        self.len += 1;
    }

    /// Appends a value where there is room; else gives it back.
    pub fn push_within_capacity(&mut self, value: T) -> Result<(), T> {
        if self.len == self.room {
            return Err(value);
        }
        self.push_reserved(value);
        Ok(())
    }

    /// Takes the last value off.
    pub fn pop(&mut self) -> Option<T> {
        let at = self.len.checked_sub(1)?;
        self.len = at;
        // SAFETY: this place had a value, and has none from now on.
        Some(unsafe { self.places()[at].assume_init_read() })
    }

    /// Lets all values behind so many go.
    pub fn truncate(&mut self, len: usize) {
        self.len = self.len.min(len);
    }

    /// Lets all values go.
    pub fn clear(&mut self) {
        self.len = 0;
    }

    /// How many values there is room for.
    pub fn capacity(&self) -> usize {
        self.room
    }

    /// The values.
    pub fn as_slice(&self) -> &[T] {
        // SAFETY: the first `len` places have values.
        unsafe { slice::from_raw_parts(self.first.as_ptr().cast(), self.len) }
    }

    /// The values.
    pub fn as_mut_slice(&mut self) -> &mut [T] {
        // SAFETY: the first `len` places have values, and they are this vector's alone.
        unsafe { slice::from_raw_parts_mut(self.first.as_ptr().cast(), self.len) }
    }
}

impl<T: Clone> Vec<T> {
    /// Copies of these values.
    pub fn from_slice(alloc: Global, values: &[T]) -> Result<Self, AllocError> {
        let mut made = Self::with_capacity(alloc, values.len())?;
        made.extend_from_slice(values)?;
        Ok(made)
    }

    /// So many copies of a value.
    pub fn from_elem(alloc: Global, value: T, count: usize) -> Result<Self, AllocError> {
        let mut made = Self::with_capacity(alloc, count)?;
        made.resize(count, value)?;
        Ok(made)
    }

    /// Makes it so long: what is lacking are copies of a value.
    pub fn resize(&mut self, len: usize, value: T) -> Result<(), AllocError> {
        self.reserve(len.saturating_sub(self.len))?;
        self.truncate(len);
        while self.len < len {
            self.push_reserved(value.clone());
        }
        Ok(())
    }

    /// Appends copies of these values.
    pub fn extend_from_slice(&mut self, values: &[T]) -> Result<(), AllocError> {
        self.reserve(values.len())?;
        for value in values {
            self.push_reserved(value.clone());
        }
        Ok(())
    }
}

impl<T> Deref for Vec<T> {
    type Target = [T];

    fn deref(&self) -> &[T] {
        self.as_slice()
    }
}

impl<T> DerefMut for Vec<T> {
    fn deref_mut(&mut self) -> &mut [T] {
        self.as_mut_slice()
    }
}

impl<T: PartialEq> PartialEq for Vec<T> {
    fn eq(&self, other: &Self) -> bool {
        self.as_slice() == other.as_slice()
    }
}

impl<T: Eq> Eq for Vec<T> {}

impl<T: core::fmt::Debug> core::fmt::Debug for Vec<T> {
    fn fmt(&self, out: &mut core::fmt::Formatter<'_>) -> core::fmt::Result {
        self.as_slice().fmt(out)
    }
}

/// Iterators whose values are kept in a vector that says where it takes its memory.
pub trait CollectIn: Iterator + Sized {
    /// The values.
    fn collect_in(self, alloc: Global) -> Result<Vec<Self::Item>, AllocError> {
        let mut made = Vec::with_capacity(alloc, self.size_hint().0)?;
        for value in self {
            made.push(value)?;
        }
        Ok(made)
    }
}

impl<I: Iterator> CollectIn for I {}

/// A value on the heap: a vector of one.
#[derive(Debug, PartialEq, Eq)]
pub struct Box<T>(Vec<T>);

impl<T> Box<T> {
    /// Puts a value there.
    pub fn new(alloc: Global, value: T) -> Result<Self, AllocError> {
        let mut place = Vec::with_capacity(alloc, 1)?;
        place.push_reserved(value);
        Ok(Box(place))
    }

    /// Where the value is, as long as the heap is used.
    pub fn into_raw(self) -> *mut T {
        self.0.first.as_ptr().cast()
    }
}

impl<T> AsRef<T> for Box<T> {
    fn as_ref(&self) -> &T {
        &self.0[0]
    }
}

impl<T> AsMut<T> for Box<T> {
    fn as_mut(&mut self) -> &mut T {
        &mut self.0[0]
    }
}

impl<T> Deref for Box<T> {
    type Target = T;

    fn deref(&self) -> &T {
        self.as_ref()
    }
}

impl<T> DerefMut for Box<T> {
    fn deref_mut(&mut self) -> &mut T {
        self.as_mut()
    }
}
