//! What the programs of this package share: the answers of each decoder as one number, the inputs on which the Rust's answer is
//! the wanted one, the reasons that its answers leave out, and random words.
//!
//! An answer is an *instruction word*: the bytes of the instruction's log record, lowest first, zeros above; for a refusal the bytes
//! 9, reading, number and the letter of a reason, which the library alone gives.

pub mod domain;
pub mod random;
#[cfg(have_miralis)]
pub mod reasons;
pub mod sides;

/// The three readings of a raw word, by their numbers in the log.
#[derive(Clone, Copy, Debug, PartialEq, Eq)]
#[repr(u8)]
pub enum Reading {
    System = 0,
    Load = 1,
    Store = 2,
}

impl Reading {
    pub const ALL: [Reading; 3] = [Reading::System, Reading::Load, Reading::Store];

    pub const fn name(self) -> &'static str {
        match self {
            Reading::System => "SYSTEM",
            Reading::Load => "load",
            Reading::Store => "store",
        }
    }

    /// The answer that refuses with this number, and with no reason.
    pub const fn refused(self, number: u8) -> u64 {
        u64::from_le_bytes([9, self as u8, number, 0, 0, 0, 0, 0])
    }
}

/// The refusal's number where an answer is one.
pub const fn refusal(answer: u64) -> Option<u8> {
    let [kind, _, number, ..] = answer.to_le_bytes();
    if kind == 9 { Some(number) } else { None }
}

/// The letter of the reason where an answer has one, else 0.
pub const fn letter(answer: u64) -> u8 {
    let [kind, _, _, letter, ..] = answer.to_le_bytes();
    if kind == 9 { letter } else { 0 }
}

/// A profile: the flags from bit 0 up and the mask of custom CSRs.
#[derive(Clone, Copy, Debug, PartialEq, Eq)]
pub struct Profile {
    pub flags: u64,
    pub custom: u64,
}

impl Profile {
    pub const EMPTY: Profile = Profile { flags: 0, custom: 0 };
    pub const FULL: Profile = Profile { flags: 0xFF, custom: u64::MAX };
}

impl std::fmt::Display for Profile {
    fn fmt(&self, f: &mut std::fmt::Formatter) -> std::fmt::Result {
        write!(f, "flags {:#04X} custom {:#X}", self.flags, self.custom)
    }
}
