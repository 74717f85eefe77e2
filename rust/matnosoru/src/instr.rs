//! Instructions, and the word that each crosses as.

use crate::{Csr, Register, Width};

/// A RISC-V privileged instruction.
///
/// Miralis's type has `InvalidCsrOp` and `Unknown` besides: these are no instructions but answers of the reading, here
/// [`Refusal`](crate::Refusal)s. The other cases are Miralis's, and none is added.
#[derive(Debug, PartialEq, Eq, Clone, Copy, Hash)]
pub enum IllegalInst {
    /// Wait for an interrupt
    Wfi,
    /// CSR Read/Write
    Csrrw {
        /// The register read and written
        csr: Csr,
        /// Where the old value goes
        rd: Register,
        /// Where the new value comes from
        rs1: Register,
    },
    /// CSR Read & Set
    Csrrs {
        /// The register read and written
        csr: Csr,
        /// Where the old value goes
        rd: Register,
        /// Where the bits to set come from
        rs1: Register,
    },
    /// CSR Read & Clear
    Csrrc {
        /// The register read and written
        csr: Csr,
        /// Where the old value goes
        rd: Register,
        /// Where the bits to clear come from
        rs1: Register,
    },
    /// CSR Read/Write Immediate
    Csrrwi {
        /// The register read and written
        csr: Csr,
        /// Where the old value goes
        rd: Register,
        /// The new value, 0 to 31
        uimm: usize,
    },
    /// CSR Read & Set Immediate
    Csrrsi {
        /// The register read and written
        csr: Csr,
        /// Where the old value goes
        rd: Register,
        /// The bits to set, 0 to 31
        uimm: usize,
    },
    /// CSR Read & Clear Immediate
    Csrrci {
        /// The register read and written
        csr: Csr,
        /// Where the old value goes
        rd: Register,
        /// The bits to clear, 0 to 31
        uimm: usize,
    },
    /// Return from machine mode
    Mret,
    /// Return from supervisor mode
    Sret,
    /// Fence instructions
    Sfencevma {
        /// The register with the address
        rs1: Register,
        /// The register with the address space
        rs2: Register,
    },
    /// Fence of a guest's own translation
    Hfencevvma {
        /// The register with the address
        rs1: Register,
        /// The register with the address space
        rs2: Register,
    },
    /// Fence of a guest's physical addresses
    Hfencegvma {
        /// The register with the address
        rs1: Register,
        /// The register with the virtual machine
        rs2: Register,
    },
}

/// A load instruction.
#[derive(Debug, PartialEq, Eq, Clone, Copy, Hash)]
pub struct LoadInstr {
    /// Where the value goes
    pub rd: Register,
    /// The register with the base address
    pub rs1: Register,
    /// What is added to the base address
    pub imm: isize,
    /// How much is read
    pub len: Width,
    /// Whether the instruction is 16 bits long
    pub is_compressed: bool,
    /// Whether the value is extended with zeros
    pub is_unsigned: bool,
}

/// A store instruction.
#[derive(Debug, PartialEq, Eq, Clone, Copy, Hash)]
pub struct StoreInstr {
    /// The register with the value
    pub rs2: Register,
    /// The register with the base address
    pub rs1: Register,
    /// What is added to the base address
    pub imm: isize,
    /// How much is written
    pub len: Width,
    /// Whether the instruction is 16 bits long
    pub is_compressed: bool,
}

/// Any instruction that can be read and written.
#[derive(Debug, PartialEq, Eq, Clone, Copy, Hash)]
pub enum Instr {
    /// A SYSTEM instruction
    Illegal(IllegalInst),
    /// A load
    Load(LoadInstr),
    /// A store
    Store(StoreInstr),
}

impl From<IllegalInst> for Instr {
    fn from(i: IllegalInst) -> Instr {
        Instr::Illegal(i)
    }
}

impl From<LoadInstr> for Instr {
    fn from(i: LoadInstr) -> Instr {
        Instr::Load(i)
    }
}

impl From<StoreInstr> for Instr {
    fn from(i: StoreInstr) -> Instr {
        Instr::Store(i)
    }
}

/// An address that has no register under any profile. A register that has no address crosses with this one, so that it is the
/// library that says no, and says it in its order (an immediate above 31 comes first).
const NOWHERE: usize = 0xFFF;

/// The bytes of a word, given lowest first.
const fn word(bytes: [u8; 7]) -> u64 {
    let [a, b, c, d, e, f, g] = bytes;
    u64::from_le_bytes([a, b, c, d, e, f, g, 0])
}

/// A CSR form: kind 5 with a register, 6 with an immediate.
fn access(kind: u8, op: u8, csr: Csr, rd: Register, source: u8) -> u64 {
    let [low, high, ..] = csr.idx().unwrap_or(NOWHERE).to_le_bytes();
    word([kind, op, low, high, rd as u8, source, 0])
}

/// An immediate of a CSR form as a byte. Any above 31 is refused, and those above 255 are too many for the byte.
fn small(uimm: usize) -> u8 {
    if uimm < 255 { uimm as u8 } else { 255 }
}

/// An immediate as two bytes. No form has one near the ends of 16 bits, so those beyond them are refused as the ends are.
fn two(imm: isize) -> [u8; 2] {
    (imm.clamp(i16::MIN as isize, i16::MAX as isize) as i16).to_le_bytes()
}

impl IllegalInst {
    /// The instruction word.
    #[must_use]
    pub fn to_word(self) -> u64 {
        use IllegalInst::*;
        match self {
            Wfi => 1,
            Mret => 2,
            Sret => 3,
            Sfencevma { rs1, rs2 } => word([4, 0, rs1 as u8, rs2 as u8, 0, 0, 0]),
            Hfencevvma { rs1, rs2 } => word([4, 1, rs1 as u8, rs2 as u8, 0, 0, 0]),
            Hfencegvma { rs1, rs2 } => word([4, 2, rs1 as u8, rs2 as u8, 0, 0, 0]),
            Csrrw { csr, rd, rs1 } => access(5, 1, csr, rd, rs1 as u8),
            Csrrs { csr, rd, rs1 } => access(5, 2, csr, rd, rs1 as u8),
            Csrrc { csr, rd, rs1 } => access(5, 3, csr, rd, rs1 as u8),
            Csrrwi { csr, rd, uimm } => access(6, 1, csr, rd, small(uimm)),
            Csrrsi { csr, rd, uimm } => access(6, 2, csr, rd, small(uimm)),
            Csrrci { csr, rd, uimm } => access(6, 3, csr, rd, small(uimm)),
        }
    }

    /// The instruction of an instruction word of kind 1 to 6.
    #[inline]
    #[must_use]
    pub fn from_word(word: u64) -> Option<IllegalInst> {
        use IllegalInst::*;
        let [kind, code, b2, b3, b4, b5, ..] = word.to_le_bytes();
        Some(match kind {
            1 => Wfi,
            2 => Mret,
            3 => Sret,
            4 => {
                let (rs1, rs2) = (Register::from(b2 as usize), Register::from(b3 as usize));
                match code {
                    0 => Sfencevma { rs1, rs2 },
                    1 => Hfencevvma { rs1, rs2 },
                    2 => Hfencegvma { rs1, rs2 },
                    _ => return None,
                }
            }
            5 | 6 => {
                let csr = Csr::at(u16::from_le_bytes([b2, b3]) as usize)?;
                let (rd, rs1, uimm) = (Register::from(b4 as usize), Register::from(b5 as usize), b5 as usize);
                match (kind, code) {
                    (5, 1) => Csrrw { csr, rd, rs1 },
                    (5, 2) => Csrrs { csr, rd, rs1 },
                    (5, 3) => Csrrc { csr, rd, rs1 },
                    (6, 1) => Csrrwi { csr, rd, uimm },
                    (6, 2) => Csrrsi { csr, rd, uimm },
                    (6, 3) => Csrrci { csr, rd, uimm },
                    _ => return None,
                }
            }
            _ => return None,
        })
    }
}

impl LoadInstr {
    /// The instruction word.
    #[must_use]
    pub fn to_word(self) -> u64 {
        let flags = self.is_compressed as u8 | (self.is_unsigned as u8) << 1;
        let [low, high] = two(self.imm);
        word([7, self.len.to_bytes() as u8, flags, self.rd as u8, self.rs1 as u8, low, high])
    }

    /// The load of an instruction word of kind 7.
    #[inline]
    #[must_use]
    pub fn from_word(word: u64) -> Option<LoadInstr> {
        let [7, width, flags, rd, rs1, low, high, _] = word.to_le_bytes() else { return None };
        Some(LoadInstr {
            rd: Register::from(rd as usize),
            rs1: Register::from(rs1 as usize),
            imm: i16::from_le_bytes([low, high]) as isize,
            len: Width::from_bytes(width as usize)?,
            is_compressed: flags & 1 == 1,
            is_unsigned: flags & 2 == 2,
        })
    }
}

impl StoreInstr {
    /// The instruction word.
    #[must_use]
    pub fn to_word(self) -> u64 {
        let [low, high] = two(self.imm);
        word([8, self.len.to_bytes() as u8, self.is_compressed as u8, self.rs1 as u8, self.rs2 as u8, low, high])
    }

    /// The store of an instruction word of kind 8.
    #[inline]
    #[must_use]
    pub fn from_word(word: u64) -> Option<StoreInstr> {
        let [8, width, flags, rs1, rs2, low, high, _] = word.to_le_bytes() else { return None };
        Some(StoreInstr {
            rs2: Register::from(rs2 as usize),
            rs1: Register::from(rs1 as usize),
            imm: i16::from_le_bytes([low, high]) as isize,
            len: Width::from_bytes(width as usize)?,
            is_compressed: flags & 1 == 1,
        })
    }
}

impl Instr {
    /// The instruction word: the bytes of the log record, lowest byte first, zeros above.
    ///
    /// What no word can hold crosses as something that the library refuses for the same reason: a register with no address, an
    /// immediate of a CSR form above 255, an immediate beyond 16 bits.
    #[must_use]
    pub fn to_word(self) -> u64 {
        match self {
            Instr::Illegal(i) => i.to_word(),
            Instr::Load(i) => i.to_word(),
            Instr::Store(i) => i.to_word(),
        }
    }

    /// The instruction of an instruction word as the library answers it; `None` where the word is a refusal's, or none that the
    /// library answers. Numbers that the library keeps in range are not looked at again: of a register's byte the low five bits
    /// are taken.
    pub fn from_word(word: u64) -> Option<Instr> {
        match word & 0xFF {
            1..=6 => IllegalInst::from_word(word).map(Instr::Illegal),
            7 => LoadInstr::from_word(word).map(Instr::Load),
            8 => StoreInstr::from_word(word).map(Instr::Store),
            _ => None,
        }
    }
}
