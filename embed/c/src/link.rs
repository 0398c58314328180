//! One end of a link alone, without a node: what it sends and what comes are messages.
use crate::board::cause_of;
use crate::codes::{Code, Done, of_reset, of_send, sendable, window};
use crate::memory::{bytes, heap, lpdu, put, put_bytes};
use crate::objects::{self, Kind, Object, with};
use block_pool::Pool;
use link_end::{LinkEnd, LinkReport};
use shdlc_core::LinkState;
use swp_base::{FrameFault, Role};

/// The owners of blocks: one for what the end sends, and one for what comes.
const SENDER: u8 = 0;
const RECEIVER: u8 = 1;

/// The blocks of both.
const QUOTAS: [u16; 2] = [128, 512];

/// The most control frames that may wait when something comes.
const FEW: u16 = 6;

/// An end, and what its contract asks of its caller.
pub struct Link {
    end: LinkEnd,
    pool: Pool,
    role: Role,
    /// Whether a message came that wasn't fetched.
    has_message: bool,
}

impl Kind for Link {
    const MARK: u32 = 0x5357_4C03;
}

/// `swp_link_report` of the header.
#[repr(C)]
pub struct Report {
    ended: u8,
    began: bool,
    got: bool,
    became_active: bool,
    gave_up: u8,
    refused: u8,
    acked: u16,
    has_sync: bool,
    sync: u16,
}

impl Link {
    /// Something comes to the end: at most six control frames wait, and no message does.
    fn input(&mut self, report: *mut Report, act: impl FnOnce(&mut LinkEnd, &mut Pool) -> Result<LinkReport, Code>) -> Done {
        if self.has_message {
            return Err(Code::MessageDue);
        }
        if self.end.controls_due() > FEW {
            return Err(Code::FramesDue);
        }
        if report.is_null() || !report.is_aligned() {
            return Err(Code::BadPointer);
        }
        let told = act(&mut self.end, &mut self.pool)?;
        self.has_message = told.got;
        // SAFETY: the header says what the caller gives.
        unsafe { put(report, shown(&told)) }
    }
}

fn shown(told: &LinkReport) -> Report {
    Report {
        ended: told.ended.map_or(0, cause_of),
        began: told.began,
        got: told.got,
        became_active: told.became_active,
        gave_up: told.gave_up.unwrap_or(0),
        refused: told.refused.map_or(0, fault_of),
        acked: told.acked,
        has_sync: told.sync.is_some(),
        sync: told.sync.unwrap_or(0),
    }
}

/// What is wrong with a frame: `swp_fault` of the header.
fn fault_of(fault: FrameFault) -> u8 {
    match fault {
        FrameFault::Length { .. } => 1,
        FrameFault::Alignment { .. } => 2,
        FrameFault::Crc { .. } => 3,
        FrameFault::Broken => 4,
    }
}

type At = *mut Object<Link>;

#[unsafe(no_mangle)]
unsafe extern "C" fn swp_link_make(memory: *mut u8, size: usize, role: u8, made: *mut At) -> Code {
    let make = || {
        let role = match role {
            0 => Role::Bare,
            1 => Role::Clf,
            2 => Role::Uicc,
            _ => return Err(Code::BadRole),
        };
        // SAFETY: the header says what the caller gives.
        let alloc = unsafe { heap(memory, size) }?;
        // SAFETY: as above.
        unsafe { put(made, core::ptr::null_mut()) }?;
        let pool = Pool::make(alloc, &QUOTAS).map_err(|_| Code::NoHeap)?;
        let end = LinkEnd::make(alloc, role, SENDER, RECEIVER).map_err(|_| Code::NoHeap)?;
        // SAFETY: as above.
        unsafe { objects::put(alloc, Link { end, pool, role, has_message: false }, made) }
    };
    make().into()
}

#[unsafe(no_mangle)]
unsafe extern "C" fn swp_link_take(at: At, frame: *const u8, length: usize, report: *mut Report) -> Code {
    let act = |link: &mut Link| {
        // SAFETY: the header says what the caller gives.
        let lpdu = unsafe { lpdu(frame, length) }?;
        link.input(report, |end, pool| Ok(end.take_lpdu(pool, &lpdu)))
    };
    // SAFETY: as above.
    unsafe { with(at, act) }.into()
}

#[unsafe(no_mangle)]
unsafe extern "C" fn swp_link_take_byte(at: At, byte: u8, report: *mut Report) -> Code {
    // SAFETY: the header says what the caller gives.
    unsafe { with(at, |link: &mut Link| link.input(report, |end, pool| Ok(end.take_byte(pool, byte)))) }.into()
}

#[unsafe(no_mangle)]
unsafe extern "C" fn swp_link_take_period(at: At, byte: u8, report: *mut Report) -> Code {
    // SAFETY: the header says what the caller gives.
    unsafe { with(at, |link: &mut Link| link.input(report, |end, pool| Ok(end.take_period(pool, byte)))) }.into()
}

#[unsafe(no_mangle)]
unsafe extern "C" fn swp_link_tick(at: At, report: *mut Report) -> Code {
    // SAFETY: the header says what the caller gives.
    unsafe { with(at, |link: &mut Link| link.input(report, |end, pool| Ok(end.tick(pool)))) }.into()
}

#[unsafe(no_mangle)]
unsafe extern "C" fn swp_link_activate(at: At, value: u16, report: *mut Report) -> Code {
    let act = |link: &mut Link| {
        if link.role == Role::Clf && value > 1 {
            return Err(Code::BadPower);
        }
        link.input(report, |end, pool| Ok(end.activate(pool, value)))
    };
    // SAFETY: the header says what the caller gives.
    unsafe { with(at, act) }.into()
}

#[unsafe(no_mangle)]
unsafe extern "C" fn swp_link_deactivate(at: At, report: *mut Report) -> Code {
    // SAFETY: the header says what the caller gives.
    unsafe { with(at, |link: &mut Link| link.input(report, |end, pool| Ok(end.deactivate(pool)))) }.into()
}

#[unsafe(no_mangle)]
unsafe extern "C" fn swp_link_reset(at: At, frames: u8, report: *mut Report) -> Code {
    let act = |link: &mut Link| {
        let window = window(frames)?;
        link.input(report, |end, pool| end.reset(pool, window).map_err(of_reset))
    };
    // SAFETY: the header says what the caller gives.
    unsafe { with(at, act) }.into()
}

#[unsafe(no_mangle)]
unsafe extern "C" fn swp_link_hold(at: At, held: bool) -> Code {
    let act = |link: &mut Link| {
        if link.end.controls_due() > FEW {
            return Err(Code::FramesDue);
        }
        link.end.hold(held);
        Ok(())
    };
    // SAFETY: the header says what the caller gives.
    unsafe { with(at, act) }.into()
}

#[unsafe(no_mangle)]
unsafe extern "C" fn swp_link_send(at: At, pipe: u8, message: *const u8, length: usize) -> Code {
    let act = |link: &mut Link| {
        // SAFETY: the header says what the caller gives.
        let message = unsafe { bytes(message, length) }?;
        sendable(pipe, message)?;
        link.end.send(&mut link.pool, pipe, message).map_err(of_send)
    };
    // SAFETY: as above.
    unsafe { with(at, act) }.into()
}

#[unsafe(no_mangle)]
unsafe extern "C" fn swp_link_next(at: At, frame: *mut u8, length: *mut usize) -> Code {
    let act = |link: &mut Link| {
        // SAFETY: the header says what the caller gives. Both pointers are tested before a frame is fetched.
        unsafe { put(length, 0).and(put_bytes(frame, 30, &[])) }?;
        let Some(lpdu) = link.end.next_out(&link.pool) else {
            return Ok(());
        };
        // SAFETY: as above.
        unsafe { put_bytes(frame, 30, lpdu.bytes()).and(put(length, lpdu.bytes().len())) }
    };
    // SAFETY: as above.
    unsafe { with(at, act) }.into()
}

#[unsafe(no_mangle)]
unsafe extern "C" fn swp_link_message(at: At, pipe: *mut u8, message: *mut u8, room: usize, length: *mut usize) -> Code {
    let act = |link: &mut Link| {
        if room < 4096 {
            return Err(Code::BadLength);
        }
        // SAFETY: the header says what the caller gives. The pointers are tested before the message is fetched.
        unsafe { put(length, 0).and(put(pipe, 0)).and(put_bytes(message, room, &[])) }?;
        let Some((from, chain)) = link.end.next_message() else {
            return Ok(());
        };
        link.has_message = false;
        let count = copy_all(&mut link.pool, &chain, message, room);
        link.pool.give(chain);
        // SAFETY: as above.
        unsafe { put(pipe, from).and(put(length, count?)) }
    };
    // SAFETY: as above.
    unsafe { with(at, act) }.into()
}

/// Copies a message to where the caller wants it, in pieces of a block.
fn copy_all(pool: &mut Pool, chain: &block_pool::Chain, to: *mut u8, room: usize) -> Result<usize, Code> {
    let (mut piece, mut done) = ([0; 32], 0);
    loop {
        let count = pool.copy_on(chain, done as u32, &mut piece);
        if count == 0 {
            return Ok(done);
        }
        // SAFETY: `done` bytes were written there, so that this place still lies in the caller's room or just behind it.
        unsafe { put_bytes(to.add(done), room - done, &piece[..count]) }?;
        done += count;
    }
}

#[unsafe(no_mangle)]
unsafe extern "C" fn swp_link_state(at: At, state: *mut u8) -> Code {
    let act = |link: &mut Link| {
        let number = match link.end.state() {
            LinkState::Down => 0,
            LinkState::Waiting => 1,
            LinkState::Up => 2,
        };
        // SAFETY: the header says what the caller gives.
        unsafe { put(state, number) }
    };
    // SAFETY: as above.
    unsafe { with(at, act) }.into()
}

#[unsafe(no_mangle)]
unsafe extern "C" fn swp_link_at_rest(at: At, rests: *mut bool) -> Code {
    // SAFETY: the header says what the caller gives.
    unsafe { with(at, |link: &mut Link| put(rests, link.end.is_at_rest())) }.into()
}
