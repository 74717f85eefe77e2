//! What a hart has, and the readings and writings under it.

use crate::{Csr, IllegalInst, Instr, LoadInstr, Refusal, StoreInstr, abi};

/// What a hart has: the extension flags that Miralis keeps in `hw.extensions`, and the custom CSRs of its platform.
///
/// A later library may ask for a further flag, and the type then has a further field. A profile that is made by
/// [`Profile::from_flags`], or from [`Profile::EMPTY`] by setting fields, then has that flag off.
#[derive(Clone, Copy, Debug, Default, PartialEq, Eq, Hash)]
pub struct Profile {
    /// Zicntr - Standard Extension for Base Counters and Timers
    pub has_zicntr: bool,
    /// Has Zihpm extension
    pub has_zihpm_extension: bool,
    /// Has Trusted Execution Environment Task Group
    pub has_tee_extension: bool,
    /// Supervisor extension
    pub has_s_extension: bool,
    /// Hypervisor extension
    pub has_h_extension: bool,
    /// If the sstc extension is enabled
    pub is_sstc_enabled: bool,
    /// Vector extension
    pub has_v_extension: bool,
    /// Crypto extension
    pub has_crypto_extension: bool,
    /// Bit k makes the CSR address 0x7C0 + k available
    pub custom: u64,
}

/// What a reading answered: the instruction of the word, or the refusal of a word of kind 9.
#[inline]
fn read<T>(word: u64, from_word: impl FnOnce(u64) -> Option<T>) -> Result<T, Refusal> {
    // The library's contract leaves nothing between the two, so a word that is neither does not come up. It would be Other(0).
    from_word(word).ok_or_else(|| Refusal::from_number(abi::read_refusal(word)))
}

/// What is at a CSR address under a profile. There is no fourth answer.
#[derive(Clone, Copy, Debug, PartialEq, Eq, Hash)]
pub enum CsrLookup {
    /// This register, which is available
    Found(Csr),
    /// A register that another profile makes available, and this one does not
    GateOff,
    /// Nothing that any profile makes available
    NoSuch,
}

impl Profile {
    /// The profile with no flag and no custom CSR.
    pub const EMPTY: Profile = Profile::from_flags(0, 0);

    /// The profile with these flags, from bit 0 up in the order of the fields, and this mask. Bits that mean nothing are ignored.
    #[must_use]
    pub const fn from_flags(flags: u64, custom: u64) -> Profile {
        Profile {
            has_zicntr: flags & 1 != 0,
            has_zihpm_extension: flags & 1 << 1 != 0,
            has_tee_extension: flags & 1 << 2 != 0,
            has_s_extension: flags & 1 << 3 != 0,
            has_h_extension: flags & 1 << 4 != 0,
            is_sstc_enabled: flags & 1 << 5 != 0,
            has_v_extension: flags & 1 << 6 != 0,
            has_crypto_extension: flags & 1 << 7 != 0,
            custom,
        }
    }

    /// The flags, from bit 0 up in the order of the fields.
    #[inline]
    #[must_use]
    pub const fn flags(&self) -> u64 {
        self.has_zicntr as u64
            | (self.has_zihpm_extension as u64) << 1
            | (self.has_tee_extension as u64) << 2
            | (self.has_s_extension as u64) << 3
            | (self.has_h_extension as u64) << 4
            | (self.is_sstc_enabled as u64) << 5
            | (self.has_v_extension as u64) << 6
            | (self.has_crypto_extension as u64) << 7
    }

    /// Decodes a raw read RISC-V instruction. Refusals 3, 4 and 5.
    #[inline]
    pub fn decode_load(&self, raw: usize) -> Result<LoadInstr, Refusal> {
        read(abi::read_load(self.flags(), self.custom, raw as u64), LoadInstr::from_word)
    }

    /// Decodes a raw write RISC-V instruction. Refusals 3, 4 and 5.
    #[inline]
    pub fn decode_store(&self, raw: usize) -> Result<StoreInstr, Refusal> {
        read(abi::read_store(self.flags(), self.custom, raw as u64), StoreInstr::from_word)
    }

    /// Decodes a raw illegal instruction. Refusals 1 ([`Refusal::Unknown`]) and 2 ([`Refusal::InvalidCsrOp`]).
    ///
    /// Instructions that are not SYSTEM instructions (including all compressed instructions) are refused with 1. The refusal 2 has a
    /// [`Reason`](crate::Reason).
    #[inline]
    pub fn decode_illegal_instruction(&self, raw_instr: usize) -> Result<IllegalInst, Refusal> {
        let word = abi::read_system(self.flags(), self.custom, raw_instr as u64);
        IllegalInst::from_word(word).ok_or_else(|| Refusal::of_system(word, raw_instr))
    }

    /// Decodes a CSR address, returns `None` if the CSR is not available.
    #[inline]
    #[must_use]
    pub fn decode_csr(&self, csr: usize) -> Option<Csr> {
        match abi::csr(self.flags(), self.custom, csr as u64) {
            0 => None,
            _ => Csr::at(csr),
        }
    }

    /// Looks a CSR address up: the register, or why it is not available.
    #[inline]
    #[must_use]
    pub fn csr_lookup(&self, csr: usize) -> CsrLookup {
        match (abi::csr_lookup(self.flags(), self.custom, csr as u64), Csr::at(csr)) {
            (abi::AVAILABLE, Some(csr)) => CsrLookup::Found(csr),
            (abi::GATE_OFF, _) => CsrLookup::GateOff,
            // what is available has a register
            _ => CsrLookup::NoSuch,
        }
    }

    /// How many CSRs are available.
    #[must_use]
    pub fn csr_count(&self) -> usize {
        abi::csr_count(self.flags(), self.custom) as usize
    }

    /// The RISC-V word of an instruction: of 16 bits if it is compressed, else of 32. Refusals 6 to 10.
    pub fn encode(&self, instr: impl Into<Instr>) -> Result<u32, Refusal> {
        abi::answer(abi::write(self.flags(), self.custom, instr.into().to_word())).map(|word| word as u32)
    }
}

/// Where two tables of profiles first differ.
#[derive(Clone, Copy, Debug, PartialEq, Eq, Hash)]
pub struct Difference {
    /// The hart, 0 to 7
    pub hart: usize,
    /// The CSR address, 0 to 4095
    pub address: usize,
}

/// The first hart, then the lowest CSR address, where two tables of profiles differ in what is available.
#[must_use]
pub fn first_difference(a: &[Profile; 8], b: &[Profile; 8]) -> Option<Difference> {
    match abi::tables_differ(&table(a), &table(b)) {
        place @ 0..abi::SAME => Some(Difference { hart: (place >> 12) as usize, address: (place & 0xFFF) as usize }),
        // both tables have their length, so there is no refusal
        _ => None,
    }
}

/// How many bytes of a table are one hart's.
const ENTRY: usize = abi::TABLE_LENGTH / 8;

/// A table as it crosses.
pub(crate) fn table(profiles: &[Profile; 8]) -> [u8; abi::TABLE_LENGTH] {
    let mut bytes = [0; abi::TABLE_LENGTH];
    for (entry, profile) in bytes.chunks_exact_mut(ENTRY).zip(profiles) {
        let flags = profile.flags().to_le_bytes().into_iter().take(2);
        for (byte, value) in entry.iter_mut().zip(flags.chain(profile.custom.to_le_bytes())) {
            *byte = value;
        }
    }
    bytes
}

/// A hart's profile in a table as it crosses.
pub(crate) fn in_table(table: &[u8; abi::TABLE_LENGTH], hart: usize) -> Option<Profile> {
    let &[f0, f1, c0, c1, c2, c3, c4, c5, c6, c7] = table.chunks_exact(ENTRY).nth(hart)? else { return None };
    let custom = u64::from_le_bytes([c0, c1, c2, c3, c4, c5, c6, c7]);
    Some(Profile::from_flags(u16::from_le_bytes([f0, f1]) as u64, custom))
}
