//! The one vector of bytes that the decoder compares at once, as a loop that compilers turn into vector instructions.

/// What is at hand where vectors are used.
pub mod prelude {
    pub use super::u8x16;
}

/// Sixteen bytes.
#[allow(non_camel_case_types)]
#[derive(Clone, Copy)]
pub struct u8x16([u8; 16]);

/// For each of sixteen bytes, whether it is as another one.
pub struct Same([bool; 16]);

impl u8x16 {
    /// These bytes.
    pub fn from_array(bytes: [u8; 16]) -> Self {
        u8x16(bytes)
    }

    /// The same byte sixteen times.
    pub fn splat(byte: u8) -> Self {
        u8x16([byte; 16])
    }

    /// The bytes in the other order.
    pub fn reverse(self) -> Self {
        let mut bytes = self.0;
        bytes.reverse();
        u8x16(bytes)
    }

    /// Which bytes are as the others' at their places.
    pub fn simd_eq(self, other: Self) -> Same {
        let mut same = [false; 16];
        for (place, (a, b)) in same.iter_mut().zip(self.0.iter().zip(other.0.iter())) {
            *place = a == b;
        }
        Same(same)
    }
}

impl Same {
    /// A bit for each byte, the lowest for the first.
    pub fn to_bitmask(self) -> u64 {
        let mut mask = 0;
        for (place, same) in self.0.iter().enumerate() {
            mask |= u64::from(*same) << place;
        }
        mask
    }
}
