//! Sixteen bytes compared, as Rattle's `std::simd` has them, for the program alone.

pub mod prelude {
    pub use super::u8x16;
}

/// Sixteen bytes.
#[allow(non_camel_case_types)]
#[derive(Clone, Copy)]
pub struct u8x16([u8; 16]);

/// Where sixteen bytes agree.
pub struct Mask([bool; 16]);

impl u8x16 {
    pub fn from_slice(bytes: &[u8]) -> u8x16 {
        let mut lanes = [0; 16];
        lanes.copy_from_slice(&bytes[..16]);
        u8x16(lanes)
    }

    pub fn splat(byte: u8) -> u8x16 {
        u8x16([byte; 16])
    }

    pub fn simd_eq(self, other: u8x16) -> Mask {
        Mask(core::array::from_fn(|place| self.0[place] == other.0[place]))
    }
}

impl Mask {
    pub fn to_bitmask(self) -> u64 {
        let lanes = self.0.iter().enumerate();
        lanes.fold(0, |bits, (place, lane)| bits | u64::from(*lane) << place)
    }
}
