//! What the calls answer.
use host_core::{BootFault, HostRefused, Ran};
use link_end::{ResetRefused, SendRefused};
use nv_journal::JournalFault;

/// The answer of a call: `swp_code` of the header, with the same numbers.
#[repr(C)]
#[derive(Clone, Copy, PartialEq, Eq)]
pub enum Code {
    Ok = 0,
    Stopped = 1,
    NotUp = 2,
    Waiting = 3,
    TooLong = 4,
    Full = 5,
    Inactive = 6,
    NoHeap = 7,
    NvFailed = 8,
    BadFormat = 9,
    BadRecord = 10,
    Spent = 11,
    BadObject = 12,
    Busy = 13,
    FramesDue = 14,
    MessageDue = 15,
    BadHost = 16,
    BadWindow = 17,
    BadPower = 18,
    BadLength = 19,
    BadPipe = 20,
    BadPointer = 21,
    BadRole = 22,
}

/// What a call answers where it doesn't do what it is for.
pub type Done = Result<(), Code>;

impl From<Done> for Code {
    fn from(done: Done) -> Self {
        match done {
            Ok(()) => Code::Ok,
            Err(code) => code,
        }
    }
}

/// How a step of a node ran.
pub fn ran(ran: Ran) -> Done {
    match ran {
        Ran::Done => Ok(()),
        Ran::Stopped => Err(Code::Stopped),
    }
}

pub fn of_boot(fault: &BootFault) -> Code {
    match fault {
        BootFault::NoMemory => Code::NoHeap,
        BootFault::Journal(JournalFault::NvFault) => Code::NvFailed,
        BootFault::Journal(JournalFault::UnknownFormat { .. }) => Code::BadFormat,
        BootFault::Journal(JournalFault::BadRecord { .. }) => Code::BadRecord,
        BootFault::Journal(JournalFault::GenerationsSpent) => Code::Spent,
    }
}

pub fn of_reset(why: ResetRefused) -> Code {
    match why {
        ResetRefused::Inactive => Code::Inactive,
        ResetRefused::Waiting => Code::Waiting,
    }
}

pub fn of_host(why: HostRefused) -> Code {
    match why {
        HostRefused::NotUp => Code::NotUp,
        HostRefused::Waiting => Code::Waiting,
        HostRefused::TooLong { .. } => Code::TooLong,
        HostRefused::Full { .. } => Code::Full,
    }
}

pub fn of_send(why: SendRefused) -> Code {
    match why {
        SendRefused::NotUp => Code::NotUp,
        SendRefused::TooLong { .. } => Code::TooLong,
        SendRefused::Full { .. } => Code::Full,
    }
}

/// A window is 1 to 4, and 0 stands for the end's own one.
pub fn window(asked: u8) -> Result<Option<u8>, Code> {
    match asked {
        0 => Ok(None),
        1..=4 => Ok(Some(asked)),
        _ => Err(Code::BadWindow),
    }
}

/// A message may be sent where its pipe isn't reserved and it isn't empty.
pub fn sendable(pipe: u8, message: &[u8]) -> Done {
    if pipe > 0x6F {
        return Err(Code::BadPipe);
    }
    if message.is_empty() { Err(Code::BadLength) } else { Ok(()) }
}
