//! The stack for programs in C: `swp_stack.h` says what each call does.
//!
//! Below stand the crates that Rattle proves, exported as Rust. Here is the edge: what their contracts require is tested, and refused with
//! a code. What is unsafe in this library stands in `objects` and `memory`, in `board`, and in the heap below (`rtstd`, `arrayvec`).
#![no_std]
#![deny(unsafe_op_in_unsafe_fn)]

mod board;
mod codes;
mod controller;
mod decoder;
mod host;
mod link;
mod memory;
mod objects;
mod units;

/// Nothing here panics where the contracts hold. Where the compiler or the memory is at fault, it stands still, for a watchdog to end.
#[panic_handler]
fn stand_still(_: &core::panic::PanicInfo<'_>) -> ! {
    loop {
        core::hint::spin_loop();
    }
}
