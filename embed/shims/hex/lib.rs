//! Bytes as pairs of hexadecimal digits, where a call that takes memory says where.
#![no_std]

extern crate rtstd as std;

use std::alloc::{AllocError, Global};
use std::string::String;
use std::vec::Vec;

/// Why a text is no list of bytes.
#[derive(Clone, Copy, Debug, PartialEq, Eq)]
pub enum FromHexError {
    /// A character is no digit.
    InvalidHexCharacter { c: char, index: usize },
    /// A digit hasn't its other one.
    OddLength,
    /// There are more or fewer bytes than room.
    InvalidStringLength,
    /// There is no memory for the bytes.
    OutOfMemory,
}

/// The digits of these bytes, the letters large.
pub fn encode_upper(alloc: Global, bytes: &[u8]) -> Result<String, AllocError> {
    let mut text = String::new(alloc);
    for byte in bytes {
        for digit in [byte >> 4, byte & 15] {
            let digit = char::from_digit(u32::from(digit), 16).unwrap_or('0');
            text.push_str(digit.to_ascii_uppercase().encode_utf8(&mut [0; 4]))?;
        }
    }
    Ok(text)
}

// The value of the digit at this place.
fn value(digits: &[u8], index: usize) -> Result<u8, FromHexError> {
    let c = char::from(digits[index]);
    match c.to_digit(16) {
        Some(value) => Ok(value as u8),
        None => Err(FromHexError::InvalidHexCharacter { c, index }),
    }
}

/// The bytes that these digits stand for, into a room of their size.
pub fn decode_to_slice(digits: &[u8], room: &mut [u8]) -> Result<(), FromHexError> {
    if digits.len() % 2 != 0 {
        return Err(FromHexError::OddLength);
    }
    if digits.len() / 2 != room.len() {
        return Err(FromHexError::InvalidStringLength);
    }
    for (nth, byte) in room.iter_mut().enumerate() {
        *byte = value(digits, 2 * nth)? << 4 | value(digits, 2 * nth + 1)?;
    }
    Ok(())
}

/// The bytes that these digits stand for.
pub fn decode(alloc: Global, digits: &[u8]) -> Result<Vec<u8>, FromHexError> {
    let made = Vec::from_elem(alloc, 0, digits.len() / 2);
    let mut bytes = made.map_err(|AllocError| FromHexError::OutOfMemory)?;
    decode_to_slice(digits, &mut bytes)?;
    Ok(bytes)
}
