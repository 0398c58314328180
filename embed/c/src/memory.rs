//! What a caller in C points to, as values of Rust.
use crate::codes::Code;
use core::mem::MaybeUninit;
use core::ptr::NonNull;
use core::slice;
use rtstd::alloc::Global;
use swp_base::Lpdu;

/// The most bytes of a message that are looked at: one more than it may have.
const MOST: usize = 4097;

/// The first bytes at this pointer, as many as are there and at most 4,097: a message of more is too long, whatever they are.
///
/// # Safety
///
/// So many bytes may be read there while `'a` lasts, where the pointer isn't null.
pub unsafe fn bytes<'a>(at: *const u8, len: usize) -> Result<&'a [u8], Code> {
    if len == 0 {
        return Ok(&[]);
    }
    if at.is_null() {
        return Err(Code::BadPointer);
    }
    // SAFETY: the caller says so.
    Ok(unsafe { slice::from_raw_parts(at, len.min(MOST)) })
}

/// The LPDU of these bytes, of which there are 1 to 30.
///
/// # Safety
///
/// As `bytes`.
pub unsafe fn lpdu(at: *const u8, len: usize) -> Result<Lpdu, Code> {
    // SAFETY: the caller says so.
    Lpdu::from_bytes(unsafe { bytes(at, len) }?).ok_or(Code::BadLength)
}

/// Writes a value where the caller wants it.
///
/// # Safety
///
/// A value of this type may be written there, where the pointer isn't null.
pub unsafe fn put<T>(at: *mut T, value: T) -> Result<(), Code> {
    if at.is_null() || !at.is_aligned() {
        return Err(Code::BadPointer);
    }
    // SAFETY: it is neither null nor askew, and the caller says the rest.
    unsafe { at.write(value) };
    Ok(())
}

/// Writes bytes from the front of a room of the caller's on, where they fit.
///
/// # Safety
///
/// `room` bytes may be written there, where the pointer isn't null.
pub unsafe fn put_bytes(at: *mut u8, room: usize, bytes: &[u8]) -> Result<(), Code> {
    if at.is_null() {
        return Err(Code::BadPointer);
    }
    if bytes.len() > room {
        return Err(Code::BadLength);
    }
    // SAFETY: the caller says that there is room, and they fit; what is uninitialised is only written.
    let to = unsafe { slice::from_raw_parts_mut(at.cast::<MaybeUninit<u8>>(), bytes.len()) };
    for (place, byte) in to.iter_mut().zip(bytes) {
        place.write(*byte);
    }
    Ok(())
}

/// An empty heap in these bytes.
///
/// # Safety
///
/// The bytes may be read and written, and are nobody else's as long as what is made in them is used, where the pointer isn't null.
pub unsafe fn heap(at: *mut u8, size: usize) -> Result<Global, Code> {
    let at = NonNull::new(at).ok_or(Code::BadPointer)?;
    if at.as_ptr().align_offset(Global::ALIGNMENT) != 0 {
        return Err(Code::BadPointer);
    }
    // SAFETY: they are aligned, and the caller says the rest.
    unsafe { Global::over(at, size) }.ok_or(Code::NoHeap)
}
