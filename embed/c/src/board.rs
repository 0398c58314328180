//! What the firmware gives a node: its memory, and who is told.
use crate::codes::Code;
use core::ffi::c_void;
use core::ptr;
use hci_tables::write_command;
use swp_base::{Cause, Failed, Nv};
use trace_model::{Entry, Watch};

/// How many bytes a node's memory has.
pub const MEMORY: u32 = 65_536;

/// `swp_board` of the header.
#[repr(C)]
#[derive(Clone, Copy)]
pub struct Board {
    context: *mut c_void,
    nv_read: Option<unsafe extern "C" fn(*mut c_void, u32, *mut u8, usize) -> bool>,
    nv_write: Option<unsafe extern "C" fn(*mut c_void, u32, *const u8, usize) -> bool>,
    told: Option<unsafe extern "C" fn(*mut c_void, *const Told)>,
}

/// `swp_told` of the header.
#[repr(C)]
pub struct Told {
    kind: u8,
    link: u8,
    pipe: u8,
    cause: u8,
    count: u32,
    spare: u32,
    message: *const u8,
    length: usize,
}

/// A board that has all its calls.
///
/// # Safety
///
/// A board may be read there, where the pointer isn't null, and its calls do what the header says.
pub unsafe fn board(at: *const Board) -> Result<Board, Code> {
    if at.is_null() || !at.is_aligned() {
        return Err(Code::BadPointer);
    }
    // SAFETY: the caller says so.
    let board = unsafe { at.read() };
    if board.nv_read.is_none() || board.nv_write.is_none() || board.told.is_none() {
        return Err(Code::BadPointer);
    }
    Ok(board)
}

impl Nv for Board {
    fn size(&self) -> u32 {
        MEMORY
    }

    fn read(&mut self, at: u32, buf: &mut [u8]) -> Result<(), Failed> {
        let Some(read) = self.nv_read else { return Err(Failed) };
        // SAFETY: who made the board promised what the call does; there is room for so many bytes.
        if unsafe { read(self.context, at, buf.as_mut_ptr(), buf.len()) } { Ok(()) } else { Err(Failed) }
    }

    fn write(&mut self, at: u32, bytes: &[u8]) -> Result<(), Failed> {
        let Some(write) = self.nv_write else { return Err(Failed) };
        // SAFETY: who made the board promised what the call does; there are so many bytes.
        if unsafe { write(self.context, at, bytes.as_ptr(), bytes.len()) } { Ok(()) } else { Err(Failed) }
    }
}

impl Watch for Board {
    fn note(&mut self, entry: &Entry, body: &[u8]) {
        let command;
        let (mut told, message) = match entry {
            Entry::Command { node, command: kept } => {
                command = write_command(kept);
                (Told::of(11, *node), command.as_slice())
            }
            _ => (told_of(entry), body),
        };
        if let Some(tell) = self.told.filter(|_| told.kind != 0) {
            (told.message, told.length) = (message.as_ptr(), message.len());
            // SAFETY: who made the board promised what the call does; what it is told stays until it is back.
            unsafe { tell(self.context, &told) };
        }
    }

    fn short(&self) -> bool {
        false
    }
}

impl Told {
    fn of(kind: u8, link: u8) -> Self {
        Told { kind, link, pipe: 0, cause: 0, count: 0, spare: 0, message: ptr::null(), length: 0 }
    }
}

/// What an entry tells, without its message; of kind 0 where no node notes such an entry.
fn told_of(entry: &Entry) -> Told {
    match entry {
        Entry::Up { at, .. } => Told::of(1, at.link),
        Entry::Down { at, cause } => Told { cause: cause_of(*cause), ..Told::of(2, at.link) },
        Entry::Active { at } => Told::of(3, at.link),
        Entry::GaveUp { at, tries } => Told { count: u32::from(*tries), ..Told::of(4, at.link) },
        Entry::Sent { at, pid, .. } => Told { pipe: *pid, ..Told::of(5, at.link) },
        Entry::Got { at, pid, .. } => Told { pipe: *pid, ..Told::of(6, at.link) },
        Entry::Acked { at, count, .. } => Told { count: *count, ..Told::of(7, at.link) },
        Entry::Turn { at, pid, .. } => Told { pipe: *pid, ..Told::of(8, at.link) },
        Entry::Held { at, need, spare } => Told { count: u32::from(*need), spare: u32::from(*spare), ..Told::of(9, at.link) },
        Entry::Dropped { at, pid } => Told { pipe: *pid, ..Told::of(10, at.link) },
        Entry::AnyOk { node, count } => Told { count: *count, ..Told::of(12, *node) },
        Entry::Ask { host, .. } => Told::of(13, *host),
        Entry::InitSame { at } => Told::of(14, at.link),
        Entry::InitMade { at, count } => Told { count: u32::from(*count), ..Told::of(15, at.link) },
        Entry::InitFailed { at, code } => Told { count: u32::from(*code), ..Told::of(16, at.link) },
        Entry::Cut { node } => Told::of(17, *node),
        _ => Told::of(0, 0),
    }
}

/// Why a session ended: `swp_cause` of the header, 0 where none did.
pub fn cause_of(cause: Cause) -> u8 {
    match cause {
        Cause::Asked => 1,
        Cause::NoAnswer => 2,
        Cause::Peer => 3,
        Cause::Act => 4,
        Cause::Chain => 5,
    }
}
