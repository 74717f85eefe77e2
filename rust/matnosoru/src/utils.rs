//! Widths and the arithmetic: the counterpart of Miralis's src/utils.rs.

use crate::abi;

/// Represents different data widths:
///  - `Byte`: 8 bits (1 byte)
///  - `Byte2`: 16 bits (2 bytes)
///  - `Byte4`: 32 bits (4 bytes)
///  - `Byte8`: 64 bits (8 bytes)
#[derive(Clone, Copy, Debug, PartialEq, Eq, PartialOrd, Ord, Hash)]
#[repr(u8)]
pub enum Width {
    /// 8 bits
    Byte = 8,
    /// 16 bits
    Byte2 = 16,
    /// 32 bits
    Byte4 = 32,
    /// 64 bits
    Byte8 = 64,
}

impl Width {
    /// The width in bits.
    #[must_use]
    pub const fn to_bits(self) -> usize {
        self as usize
    }

    /// The width in bytes.
    #[must_use]
    pub const fn to_bytes(self) -> usize {
        self.to_bits() / 8
    }

    /// The width of so many bits, if there is one. (Miralis's `From<usize>` panics for any other number.)
    #[must_use]
    pub const fn from_bits(bits: usize) -> Option<Width> {
        match bits {
            8 => Some(Width::Byte),
            16 => Some(Width::Byte2),
            32 => Some(Width::Byte4),
            64 => Some(Width::Byte8),
            _ => None,
        }
    }

    /// The width of so many bytes, if there is one.
    #[must_use]
    pub const fn from_bytes(bytes: usize) -> Option<Width> {
        match bytes {
            1 => Some(Width::Byte),
            2 => Some(Width::Byte2),
            4 => Some(Width::Byte4),
            8 => Some(Width::Byte8),
            _ => None,
        }
    }
}

/// Compute the address from a base address plus an immediate: the sum modulo 2^64. (Miralis's panics in a debug build where the sum
/// passes an end, and for the least immediate.)
#[inline]
#[must_use]
pub fn calculate_addr(self_value: usize, imm: isize) -> usize {
    abi::calculate_addr(self_value as u64, imm as u64) as usize
}

/// Performs a sign extension assuming the provided width of the value.
#[inline]
#[must_use]
pub fn sign_extend(value: usize, width: Width) -> usize {
    abi::sign_extend(value as u64, width.to_bytes() as u64) as usize
}
