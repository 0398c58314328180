//! A decoder of line records.
use crate::codes::Code;
use crate::memory::{heap, put, put_bytes};
use crate::objects::{self, Kind, Object, with};
use swp_decode::{Decoder, Text};

/// A decoder, with the text of one step, so that no call needs room for it on its stack.
pub struct Reader {
    decoder: Decoder,
    text: Text,
    /// How many bytes were read.
    count: u32,
}

impl Kind for Reader {
    const MARK: u32 = 0x5357_4404;
}

type At = *mut Object<Reader>;

/// The room that a step asks for.
const ROOM: usize = Decoder::ROOM;

impl Reader {
    /// Does something that appends lines, and tells them.
    fn tell(&mut self, lines: *mut u8, length: *mut usize, act: impl FnOnce(&mut Decoder, &mut Text)) -> Result<(), Code> {
        // SAFETY: the header says what the caller gives. Both pointers are tested before anything is read.
        unsafe { put(length, 0).and(put_bytes(lines, ROOM, &[])) }?;
        self.text.clear();
        act(&mut self.decoder, &mut self.text);
        // SAFETY: as above.
        unsafe { put_bytes(lines, ROOM, self.text.as_slice()).and(put(length, self.text.len())) }
    }
}

#[unsafe(no_mangle)]
unsafe extern "C" fn swp_decoder_make(memory: *mut u8, size: usize, made: *mut At) -> Code {
    let make = || {
        // SAFETY: the header says what the caller gives.
        let alloc = unsafe { heap(memory, size) }?;
        // SAFETY: as above.
        unsafe { put(made, core::ptr::null_mut()) }?;
        let reader = Reader { decoder: Decoder::new(), text: Text::new(), count: 0 };
        // SAFETY: as above.
        unsafe { objects::put(alloc, reader, made) }
    };
    make().into()
}

#[unsafe(no_mangle)]
unsafe extern "C" fn swp_decoder_step(at: At, byte: u8, lines: *mut u8, length: *mut usize) -> Code {
    let act = |reader: &mut Reader| {
        if reader.count == Decoder::MAX_BYTES {
            return Err(Code::TooLong);
        }
        reader.tell(lines, length, |decoder, text| decoder.step(byte, text))?;
        reader.count += 1;
        Ok(())
    };
    // SAFETY: the header says what the caller gives.
    unsafe { with(at, act) }.into()
}

#[unsafe(no_mangle)]
unsafe extern "C" fn swp_decoder_finish(at: At, lines: *mut u8, length: *mut usize) -> Code {
    let act = |reader: &mut Reader| reader.tell(lines, length, |decoder, text| decoder.finish(text));
    // SAFETY: the header says what the caller gives.
    unsafe { with(at, act) }.into()
}
