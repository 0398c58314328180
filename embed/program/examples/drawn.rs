//! Writes the schedule that `swp gen N` runs: drawn N.
use rtstd::alloc::Global;
use std::io::Write;

fn main() {
    let n = std::env::args().nth(1).and_then(|word| word.parse().ok()).expect("drawn N");
    let mut text = rtstd::vec::Vec::new(Global);
    drawn_schedule::gen_schedule(n, &mut text).expect("memory");
    std::io::stdout().write_all(&text).expect("an output");
}
