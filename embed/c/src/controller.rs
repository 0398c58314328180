//! A controller: the node of a front end.
use crate::board::{Board, board};
use crate::codes::{Code, Done, of_boot, of_reset, ran, window};
use crate::memory::{heap, lpdu, put, put_bytes};
use crate::objects::{self, Kind, Object, with};
use host_core::Ran;
use router::Controller;

/// A controller, and what its contract asks of its caller.
pub struct ControllerNode {
    node: Controller<Board>,
    board: Board,
    /// The hosts with which it has a link: bit h stands for host h.
    hosts: u8,
    /// The hosts to which it may have frames that weren't fetched.
    due: u8,
    /// Whether it lost its power in a step.
    stopped: bool,
}

impl Kind for ControllerNode {
    const MARK: u32 = 0x5357_4302;
}

/// The bit of a host in a mask; none where it is no host.
fn bit(host: u8) -> u8 {
    if (1..=7).contains(&host) { 1 << host } else { 0 }
}

impl ControllerNode {
    fn runs(&self) -> Done {
        if self.stopped { Err(Code::Stopped) } else { Ok(()) }
    }

    fn has_link(&self, host: u8) -> Done {
        if self.hosts & bit(host) == 0 { Err(Code::BadHost) } else { Ok(()) }
    }

    /// Does a step: all frames of the step before were fetched.
    fn step(&mut self, act: impl FnOnce(&mut Controller<Board>, &mut Board) -> Result<Ran, Code>) -> Done {
        self.runs()?;
        if self.due != 0 {
            return Err(Code::FramesDue);
        }
        let ended = ran(act(&mut self.node, &mut self.board)?);
        self.due = self.hosts;
        self.stopped = ended == Err(Code::Stopped);
        ended
    }
}

type At = *mut Object<ControllerNode>;

#[unsafe(no_mangle)]
unsafe extern "C" fn swp_controller_boot(memory: *mut u8, size: usize, hosts: u8, on: *const Board, made: *mut At) -> Code {
    let boot = || {
        if hosts & 1 != 0 {
            return Err(Code::BadHost);
        }
        // SAFETY: the header says what the caller gives.
        let (alloc, board) = unsafe { (heap(memory, size)?, board(on)?) };
        // SAFETY: as above.
        unsafe { put(made, core::ptr::null_mut()) }?;
        let node = Controller::boot(alloc, hosts, board).map_err(|refused| of_boot(&refused.fault))?;
        // SAFETY: as above.
        unsafe { objects::put(alloc, ControllerNode { node, board, hosts, due: 0, stopped: false }, made) }
    };
    boot().into()
}

#[unsafe(no_mangle)]
unsafe extern "C" fn swp_controller_take(at: At, host: u8, frame: *const u8, length: usize) -> Code {
    let act = |clf: &mut ControllerNode| {
        clf.has_link(host)?;
        // SAFETY: the header says what the caller gives.
        let lpdu = unsafe { lpdu(frame, length) }?;
        clf.step(|node, board| Ok(node.take(host, &lpdu, board)))
    };
    // SAFETY: as above.
    unsafe { with(at, act) }.into()
}

#[unsafe(no_mangle)]
unsafe extern "C" fn swp_controller_tick(at: At) -> Code {
    // SAFETY: the header says what the caller gives.
    unsafe { with(at, |clf: &mut ControllerNode| clf.step(|node, board| Ok(node.tick(board)))) }.into()
}

#[unsafe(no_mangle)]
unsafe extern "C" fn swp_controller_activate(at: At, host: u8, power: u8) -> Code {
    let act = |clf: &mut ControllerNode| {
        clf.has_link(host)?;
        if power > 1 {
            return Err(Code::BadPower);
        }
        clf.step(|node, board| Ok(node.activate(host, power, board)))
    };
    // SAFETY: the header says what the caller gives.
    unsafe { with(at, act) }.into()
}

#[unsafe(no_mangle)]
unsafe extern "C" fn swp_controller_deactivate(at: At, host: u8) -> Code {
    let act = |clf: &mut ControllerNode| {
        clf.has_link(host)?;
        clf.step(|node, board| Ok(node.deactivate(host, board)))
    };
    // SAFETY: the header says what the caller gives.
    unsafe { with(at, act) }.into()
}

#[unsafe(no_mangle)]
unsafe extern "C" fn swp_controller_reset(at: At, host: u8, frames: u8) -> Code {
    let act = |clf: &mut ControllerNode| {
        clf.has_link(host)?;
        let window = window(frames)?;
        clf.step(|node, board| node.reset(host, window, board).map_err(of_reset))
    };
    // SAFETY: the header says what the caller gives.
    unsafe { with(at, act) }.into()
}

#[unsafe(no_mangle)]
unsafe extern "C" fn swp_controller_refused(at: At, host: u8) -> Code {
    let act = |clf: &mut ControllerNode| {
        clf.has_link(host)?;
        clf.runs()?;
        clf.node.refused(host);
        Ok(())
    };
    // SAFETY: the header says what the caller gives.
    unsafe { with(at, act) }.into()
}

#[unsafe(no_mangle)]
unsafe extern "C" fn swp_controller_next(at: At, host: u8, frame: *mut u8, length: *mut usize) -> Code {
    let act = |clf: &mut ControllerNode| {
        clf.has_link(host)?;
        clf.runs()?;
        // SAFETY: the header says what the caller gives. Both pointers are tested before a frame is fetched.
        unsafe { put(length, 0).and(put_bytes(frame, 30, &[])) }?;
        let Some(lpdu) = clf.node.next_out(host) else {
            clf.due &= !bit(host);
            return Ok(());
        };
        // SAFETY: as above.
        unsafe { put_bytes(frame, 30, lpdu.bytes()).and(put(length, lpdu.bytes().len())) }
    };
    // SAFETY: as above.
    unsafe { with(at, act) }.into()
}

#[unsafe(no_mangle)]
unsafe extern "C" fn swp_controller_at_rest(at: At, rests: *mut bool) -> Code {
    let act = |clf: &mut ControllerNode| {
        clf.runs()?;
        // SAFETY: the header says what the caller gives.
        unsafe { put(rests, clf.node.is_at_rest()) }
    };
    // SAFETY: as above.
    unsafe { with(at, act) }.into()
}

#[unsafe(no_mangle)]
unsafe extern "C" fn swp_controller_commands(at: At, count: *mut u32) -> Code {
    // SAFETY: the header says what the caller gives.
    unsafe { with(at, |clf: &mut ControllerNode| put(count, clf.node.store().kept())) }.into()
}
