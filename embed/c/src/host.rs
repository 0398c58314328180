//! A host: the node of a card.
use crate::board::{Board, board};
use crate::codes::{Code, Done, of_boot, of_host, of_reset, ran, sendable, window};
use crate::memory::{bytes, heap, lpdu, put, put_bytes};
use crate::objects::{self, Kind, Object, with};
use host_core::{Host, Ran};

/// A host, and what its contract asks of its caller.
pub struct HostNode {
    node: Host<Board>,
    board: Board,
    /// Whether it may have frames that weren't fetched.
    due: bool,
    /// Whether it lost its power in a step.
    stopped: bool,
}

impl Kind for HostNode {
    const MARK: u32 = 0x5357_4801;
}

impl HostNode {
    fn runs(&self) -> Done {
        if self.stopped { Err(Code::Stopped) } else { Ok(()) }
    }

    /// Does a step: all frames of the step before were fetched.
    fn step(&mut self, act: impl FnOnce(&mut Host<Board>, &mut Board) -> Result<Ran, Code>) -> Done {
        self.runs()?;
        if self.due {
            return Err(Code::FramesDue);
        }
        let ended = ran(act(&mut self.node, &mut self.board)?);
        self.due = true;
        self.stopped = ended == Err(Code::Stopped);
        ended
    }
}

type At = *mut Object<HostNode>;

#[unsafe(no_mangle)]
unsafe extern "C" fn swp_host_boot(memory: *mut u8, size: usize, host: u8, on: *const Board, made: *mut At) -> Code {
    let boot = || {
        if !(1..=7).contains(&host) {
            return Err(Code::BadHost);
        }
        // SAFETY: the header says what the caller gives.
        let (alloc, board) = unsafe { (heap(memory, size)?, board(on)?) };
        // SAFETY: as above.
        unsafe { put(made, core::ptr::null_mut()) }?;
        let node = Host::boot(alloc, host, board).map_err(|refused| of_boot(&refused.fault))?;
        // SAFETY: as above.
        unsafe { objects::put(alloc, HostNode { node, board, due: false, stopped: false }, made) }
    };
    boot().into()
}

#[unsafe(no_mangle)]
unsafe extern "C" fn swp_host_take(at: At, frame: *const u8, length: usize) -> Code {
    // SAFETY: the header says what the caller gives.
    let act = |host: &mut HostNode| {
        let lpdu = unsafe { lpdu(frame, length) }?;
        host.step(|node, board| Ok(node.take(&lpdu, board)))
    };
    unsafe { with(at, act) }.into()
}

#[unsafe(no_mangle)]
unsafe extern "C" fn swp_host_tick(at: At) -> Code {
    // SAFETY: the header says what the caller gives.
    unsafe { with(at, |host| host.step(|node, board| Ok(node.tick(board)))) }.into()
}

#[unsafe(no_mangle)]
unsafe extern "C" fn swp_host_activate(at: At, sync: u16) -> Code {
    let act = |host: &mut HostNode| {
        host.step(|node, board| {
            node.activate(sync, board);
            Ok(Ran::Done)
        })
    };
    // SAFETY: the header says what the caller gives.
    unsafe { with(at, act) }.into()
}

#[unsafe(no_mangle)]
unsafe extern "C" fn swp_host_deactivate(at: At) -> Code {
    let act = |host: &mut HostNode| {
        host.step(|node, board| {
            node.deactivate(board);
            Ok(Ran::Done)
        })
    };
    // SAFETY: the header says what the caller gives.
    unsafe { with(at, act) }.into()
}

#[unsafe(no_mangle)]
unsafe extern "C" fn swp_host_reset(at: At, frames: u8) -> Code {
    let act = |host: &mut HostNode| {
        let window = window(frames)?;
        host.step(|node, board| node.reset(window, board).map(|()| Ran::Done).map_err(of_reset))
    };
    // SAFETY: the header says what the caller gives.
    unsafe { with(at, act) }.into()
}

#[unsafe(no_mangle)]
unsafe extern "C" fn swp_host_refused(at: At) -> Code {
    let act = |host: &mut HostNode| {
        host.runs()?;
        host.node.refused();
        Ok(())
    };
    // SAFETY: the header says what the caller gives.
    unsafe { with(at, act) }.into()
}

#[unsafe(no_mangle)]
unsafe extern "C" fn swp_host_next(at: At, frame: *mut u8, length: *mut usize) -> Code {
    let act = |host: &mut HostNode| {
        host.runs()?;
        // SAFETY: the header says what the caller gives. Both pointers are tested before a frame is fetched.
        unsafe { put(length, 0).and(put_bytes(frame, 30, &[])) }?;
        let Some(lpdu) = host.node.next_out() else {
            host.due = false;
            return Ok(());
        };
        // SAFETY: as above.
        unsafe { put_bytes(frame, 30, lpdu.bytes()).and(put(length, lpdu.bytes().len())) }
    };
    // SAFETY: as above.
    unsafe { with(at, act) }.into()
}

#[unsafe(no_mangle)]
unsafe extern "C" fn swp_host_send(at: At, pipe: u8, message: *const u8, length: usize) -> Code {
    let act = |host: &mut HostNode| {
        // SAFETY: the header says what the caller gives.
        let message = unsafe { bytes(message, length) }?;
        sendable(pipe, message)?;
        host.runs()?;
        host.node.send(pipe, message, &mut host.board).map_err(of_host)?;
        host.due = true;
        Ok(())
    };
    // SAFETY: as above.
    unsafe { with(at, act) }.into()
}

#[unsafe(no_mangle)]
unsafe extern "C" fn swp_host_init(at: At, identity: *const u8, pipes: *const u8, count: usize) -> Code {
    let act = |host: &mut HostNode| {
        if count > 8 {
            return Err(Code::BadLength);
        }
        // SAFETY: the header says what the caller gives.
        let (identity, pipes) = unsafe { (bytes(identity, 8)?, bytes(pipes, 3 * count)?) };
        let mut triples = [[0; 3]; 8];
        for (triple, from) in triples.iter_mut().zip(pipes.chunks_exact(3)) {
            triple.copy_from_slice(from);
        }
        let mut kept = [0; 8];
        kept.copy_from_slice(identity);
        host.runs()?;
        host.node.init(&kept, &triples[..count], &mut host.board).map_err(of_host)?;
        host.due = true;
        Ok(())
    };
    // SAFETY: as above.
    unsafe { with(at, act) }.into()
}

#[unsafe(no_mangle)]
unsafe extern "C" fn swp_host_at_rest(at: At, rests: *mut bool) -> Code {
    let act = |host: &mut HostNode| {
        host.runs()?;
        // SAFETY: the header says what the caller gives.
        unsafe { put(rests, host.node.is_at_rest()) }
    };
    // SAFETY: as above.
    unsafe { with(at, act) }.into()
}

#[unsafe(no_mangle)]
unsafe extern "C" fn swp_host_commands(at: At, count: *mut u32) -> Code {
    // SAFETY: the header says what the caller gives.
    unsafe { with(at, |host: &mut HostNode| put(count, host.node.store().kept())) }.into()
}
