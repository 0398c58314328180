//! What a caller in C holds a pointer to.
use crate::codes::{Code, Done};
use core::cell::Cell;
use rtstd::alloc::Global;
use rtstd::boxed::Box;

/// A kind of object, by a number that no other kind has and that memory seldom holds by chance.
pub trait Kind {
    const MARK: u32;
}

/// An object, in the heap that its caller gave.
#[repr(C)]
pub struct Object<T> {
    mark: u32,
    /// Whether a call with it is under way: one that comes from a callback is refused.
    busy: Cell<bool>,
    value: T,
}

/// Puts an object into its heap, of which nothing more is given out from then on, and tells the caller its place.
///
/// # Safety
///
/// A pointer may be written at `made`.
pub unsafe fn put<T: Kind>(alloc: Global, value: T, made: *mut *mut Object<T>) -> Done {
    let object = Object { mark: T::MARK, busy: Cell::new(false), value };
    let object = Box::new(alloc, object).map_err(|_| Code::NoHeap)?;
    alloc.close();
    // SAFETY: the caller says so.
    unsafe { crate::memory::put(made, object.into_raw()) }
}

/// Does something with an object.
///
/// # Safety
///
/// The pointer is null, or what a call that makes such an object gave; its heap is as it was left; and no other thread has a call with it
/// under way.
pub unsafe fn with<T: Kind, R>(object: *mut Object<T>, act: impl FnOnce(&mut T) -> Result<R, Code>) -> Result<R, Code> {
    if object.is_null() || !object.is_aligned() {
        return Err(Code::BadObject);
    }
    // SAFETY: there is an object, of which only the first two fields are borrowed here.
    let (mark, busy) = unsafe { (&raw const (*object).mark, &*(&raw const (*object).busy)) };
    // SAFETY: as above.
    if unsafe { mark.read() } != T::MARK {
        return Err(Code::BadObject);
    }
    if busy.replace(true) {
        return Err(Code::Busy);
    }
    // SAFETY: it wasn't busy, so nobody else has its value now.
    let done = act(unsafe { &mut *(&raw mut (*object).value) });
    busy.set(false);
    done
}
