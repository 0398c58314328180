//! The place of a byte. It stands in for the crate `memchr` where a machine hasn't that one.
#![no_std]

/// The place of the first such byte, if there is one.
pub fn memchr(byte: u8, bytes: &[u8]) -> Option<usize> {
    bytes.iter().position(|b| *b == byte)
}
