//! Why a CSR was refused.

use core::fmt;

use crate::{Csr, abi};

/// Why the SYSTEM reading refuses the CSR of a word with 2. Each has its letter, and the word's CSR address. A later library may have
/// further ones.
///
/// Its text is for people. It names the register, and for [`Reason::GateOff`] what the register waits for:
///
/// ```
/// use matnosoru::Reason;
///
/// assert_eq!(Reason::ReadOnly { address: 0xF14 }.to_string(), "mhartid is read-only and would be written");
/// assert_eq!(Reason::GateOff { address: 0x180 }.to_string(), "satp is there only with supervisor mode");
/// assert_eq!(Reason::NoSuch { address: 0xFFF }.to_string(), "no profile has a CSR at 0xfff");
/// ```
#[derive(Clone, Copy, Debug, PartialEq, Eq, Hash)]
#[non_exhaustive]
pub enum Reason {
    /// a: the word writes, and the address is a read-only one (its bits 11 and 10 are both one). This comes before the other two,
    /// whether or not there is a register.
    ReadOnly {
        /// The CSR address of the word, 0 to 4095
        address: usize,
    },
    /// b: some profile makes the register available, and this one does not
    GateOff {
        /// The CSR address of the word, 0 to 4095
        address: usize,
    },
    /// c: no profile makes a register available at this address
    NoSuch {
        /// The CSR address of the word, 0 to 4095
        address: usize,
    },
}

impl Reason {
    /// The reason in the answer to a raw word, if it has one.
    #[inline]
    pub(crate) const fn from_word(word: u64, raw: usize) -> Option<Reason> {
        let address = raw >> 20 & 0xFFF;
        match abi::reason(word) {
            b'a' => Some(Reason::ReadOnly { address }),
            b'b' => Some(Reason::GateOff { address }),
            b'c' => Some(Reason::NoSuch { address }),
            _ => None,
        }
    }

    /// The reason's letter: a, b or c.
    #[must_use]
    pub const fn letter(self) -> char {
        match self {
            Reason::ReadOnly { .. } => 'a',
            Reason::GateOff { .. } => 'b',
            Reason::NoSuch { .. } => 'c',
        }
    }

    /// The CSR address of the word.
    #[must_use]
    pub const fn address(self) -> usize {
        match self {
            Reason::ReadOnly { address } | Reason::GateOff { address } | Reason::NoSuch { address } => address,
        }
    }
}

impl fmt::Display for Reason {
    fn fmt(&self, f: &mut fmt::Formatter<'_>) -> fmt::Result {
        let address = self.address();
        match (self, Csr::at(address)) {
            (Reason::ReadOnly { .. }, Some(csr)) => write!(f, "{csr} is read-only and would be written"),
            (Reason::ReadOnly { .. }, None) => write!(f, "CSR {address:#05x} is read-only by its address and would be written"),
            (Reason::GateOff { .. }, Some(csr)) => match Gate::at(address) {
                Some(gate) => write!(f, "{csr} is there only with {gate}"),
                None => write!(f, "{csr} is not there under this profile"),
            },
            (Reason::NoSuch { .. }, Some(csr)) => write!(f, "no profile has {csr} ({address:#05x})"),
            (_, None) => write!(f, "no profile has a CSR at {address:#05x}"),
        }
    }
}

/// What a register waits for: one flag of a profile, by its name, or one bit of the custom mask.
enum Gate {
    Flag(&'static str),
    Bit(u32),
}

impl Gate {
    /// The flags of a profile, from bit 0 up.
    const FLAGS: [(u64, &'static str); 8] = [
        (1, "Zicntr"),
        (1 << 1, "Zihpm"),
        (1 << 2, "the TEE extension"),
        (1 << 3, "supervisor mode"),
        (1 << 4, "the hypervisor extension"),
        (1 << 5, "Sstc"),
        (1 << 6, "the vector extension"),
        (1 << 7, "the scalar crypto extension"),
    ];

    /// The gate of the register at an address, as the library's look-up has it: each flag and each bit is tried alone.
    fn at(address: usize) -> Option<Gate> {
        let is_there = |flags, custom| abi::csr_lookup(flags, custom, address as u64) == abi::AVAILABLE;
        let flag = Gate::FLAGS.into_iter().find(|(flags, _)| is_there(*flags, 0)).map(|(_, name)| Gate::Flag(name));
        flag.or_else(|| (0..u64::BITS).find(|bit| is_there(0, 1u64.wrapping_shl(*bit))).map(Gate::Bit))
    }
}

impl fmt::Display for Gate {
    fn fmt(&self, f: &mut fmt::Formatter<'_>) -> fmt::Result {
        match self {
            Gate::Flag(name) => f.write_str(name),
            Gate::Bit(bit) => write!(f, "bit {bit} of the custom mask"),
        }
    }
}
