//! Frames on a byte link and on a line, and how much of a heap is used.
use crate::codes::Code;
use crate::memory::{lpdu, put, put_bytes};
use byte_link::write_unit;
use core::mem::size_of;
use swp_frame::write_frame;

#[unsafe(no_mangle)]
unsafe extern "C" fn swp_unit_write(frame: *const u8, length: usize, unit: *mut u8, count: *mut usize) -> Code {
    let write = || {
        // SAFETY: the header says what the caller gives.
        let lpdu = unsafe { lpdu(frame, length) }?;
        let written = write_unit(&lpdu);
        // SAFETY: as above.
        unsafe { put_bytes(unit, 34, written.as_slice()).and(put(count, written.len())) }
    };
    write().into()
}

#[unsafe(no_mangle)]
unsafe extern "C" fn swp_frame_write(frame: *const u8, length: usize, bits: *mut bool, count: *mut usize) -> Code {
    let write = || {
        // SAFETY: the header says what the caller gives.
        let lpdu = unsafe { lpdu(frame, length) }?;
        let written = write_frame(&lpdu);
        let mut bytes = [0; 336];
        for (byte, bit) in bytes.iter_mut().zip(&written.bits) {
            *byte = u8::from(*bit);
        }
        // SAFETY: as above; the bytes 0 and 1 are the values of a bool.
        unsafe { put_bytes(bits.cast(), 336, &bytes[..written.bits.len()]).and(put(count, written.bits.len())) }
    };
    write().into()
}

/// The front of a heap begins with how many of its bytes are given out.
#[unsafe(no_mangle)]
unsafe extern "C" fn swp_heap_used(memory: *const usize) -> usize {
    if memory.is_null() || memory.align_offset(size_of::<usize>()) != 0 {
        return 0;
    }
    // SAFETY: the header says that the caller gives a heap in which something was made.
    unsafe { memory.read() }
}
