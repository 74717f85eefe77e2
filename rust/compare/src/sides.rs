//! The decoders that can be run, each behind the same calls.

use crate::Profile;

/// A decoder under one profile. A load or store reading may panic.
pub trait Side {
    const NAME: &'static str;

    fn new(profile: Profile) -> Self;
    fn system(&self, raw: u64) -> u64;
    fn load(&self, raw: u64) -> u64;
    fn store(&self, raw: u64) -> u64;

    /// The register at an address, as its type prints it, and its address back from the register.
    fn decode_csr(&self, address: u64) -> Option<(String, u64)>;

    fn sign_extend(value: u64, bytes: u64) -> u64;
    fn calculate_addr(base: u64, imm: i64) -> u64;

    /// One of the three readings.
    #[inline(always)]
    fn read(&self, reading: crate::Reading, raw: u64) -> u64 {
        match reading {
            crate::Reading::System => self.system(raw),
            crate::Reading::Load => self.load(raw),
            crate::Reading::Store => self.store(raw),
        }
    }
}

/// The functions that make an instruction word of what a build of Miralis's modules answers: `instruction_words!(BUILD)`. Each build has
/// types of its own, so the code is written out for each.
#[macro_export]
macro_rules! instruction_words {
    ($build:tt) => {
        use $build::arch::Csr;
        use $build::decoder::IllegalInst::{self, *};
        use $build::decoder::{LoadInstr, StoreInstr};

        /// A SYSTEM instruction with the address of its CSR, or a refusal; for a CSR that is given no address all ones, which is neither.
        #[inline(always)]
        pub fn system(inst: IllegalInst, address: impl Fn(Csr) -> Option<usize>) -> u64 {
            let fence = |code, rs1, rs2| u64::from_le_bytes([4, code, rs1, rs2, 0, 0, 0, 0]);
            let access = |kind, op, csr, rd, from| match address(csr).map(usize::to_le_bytes) {
                Some([low, high, ..]) => u64::from_le_bytes([kind, op, low, high, rd, from, 0, 0]),
                None => u64::MAX,
            };
            match inst {
                Wfi => 1,
                Mret => 2,
                Sret => 3,
                Sfencevma { rs1, rs2 } => fence(0, rs1 as u8, rs2 as u8),
                Hfencevvma { rs1, rs2 } => fence(1, rs1 as u8, rs2 as u8),
                Hfencegvma { rs1, rs2 } => fence(2, rs1 as u8, rs2 as u8),
                Csrrw { csr, rd, rs1 } => access(5, 1, csr, rd as u8, rs1 as u8),
                Csrrs { csr, rd, rs1 } => access(5, 2, csr, rd as u8, rs1 as u8),
                Csrrc { csr, rd, rs1 } => access(5, 3, csr, rd as u8, rs1 as u8),
                Csrrwi { csr, rd, uimm } => access(6, 1, csr, rd as u8, uimm as u8),
                Csrrsi { csr, rd, uimm } => access(6, 2, csr, rd as u8, uimm as u8),
                Csrrci { csr, rd, uimm } => access(6, 3, csr, rd as u8, uimm as u8),
                Unknown => $crate::Reading::System.refused(1),
                InvalidCsrOp => $crate::Reading::System.refused(2),
            }
        }

        #[inline(always)]
        pub fn load(l: LoadInstr) -> u64 {
            let [low, high, ..] = l.imm.to_le_bytes();
            let flags = l.is_compressed as u8 | (l.is_unsigned as u8) << 1;
            u64::from_le_bytes([7, l.len.to_bytes() as u8, flags, l.rd as u8, l.rs1 as u8, low, high, 0])
        }

        #[inline(always)]
        pub fn store(s: StoreInstr) -> u64 {
            let [low, high, ..] = s.imm.to_le_bytes();
            u64::from_le_bytes([8, s.len.to_bytes() as u8, s.is_compressed as u8, s.rs1 as u8, s.rs2 as u8, low, high, 0])
        }
    };
}

/// The calls on one build of Miralis's modules.
#[cfg(have_miralis)]
macro_rules! side {
    ($(#[$doc:meta])* $side:ident, $name:literal, $module:ident, $build:ident) => {
        $(#[$doc])*
        pub struct $side($build::host::MiralisContext);

        pub mod $module {
            use $build::arch::Width;
            use $build::calls;
            use $build::host::MiralisContext;
            use crate::Profile;
            use crate::sides::Side;

            instruction_words!($build);

            impl Side for super::$side {
                const NAME: &'static str = $name;

                fn new(profile: Profile) -> Self {
                    // the platform has one mask for each thread
                    $build::platform::set_custom(profile.custom);
                    super::$side(MiralisContext::with_flags(profile.flags))
                }

                #[inline]
                fn system(&self, raw: u64) -> u64 {
                    // the address tells which register it is only where the look-up agrees
                    let address = |csr: Csr| Some(csr.idx()).filter(|address| self.0.decode_csr(*address) == Some(csr));
                    system(calls::system(&self.0, raw as usize), address)
                }

                #[inline]
                fn load(&self, raw: u64) -> u64 {
                    load(calls::load(&self.0, raw as usize))
                }

                #[inline]
                fn store(&self, raw: u64) -> u64 {
                    store(calls::store(&self.0, raw as usize))
                }

                fn decode_csr(&self, address: u64) -> Option<(String, u64)> {
                    calls::decode_csr(&self.0, address as usize).map(|csr| (format!("{csr:?}"), calls::idx(csr) as u64))
                }

                fn sign_extend(value: u64, bytes: u64) -> u64 {
                    calls::sign_extend(value as usize, Width::from(bytes as usize * 8)) as u64
                }

                fn calculate_addr(base: u64, imm: i64) -> u64 {
                    calls::calculate_addr(base as usize, imm as isize) as u64
                }
            }
        }
    };
}

#[cfg(have_miralis)]
side! {
    /// Miralis's own text, built as a release build of it is.
    Original, "the Rust", original, oracle
}
#[cfg(have_miralis)]
side! {
    /// Miralis's own text, built as a debug build of it is.
    Checked, "the Rust with overflow checks", checked, oracle_checked
}
#[cfg(all(have_miralis, feature = "proved"))]
side! {
    /// rust/miralis/decoder.rs in its place.
    StandIn, "miralis/decoder.rs", stand_in, monitor
}

/// The proved library, by its exported functions.
#[cfg(feature = "proved")]
pub struct Library(Profile);

#[cfg(feature = "proved")]
impl Library {
    /// The RISC-V word of an instruction word, or a number from 2^32 up.
    #[inline]
    pub fn write(&self, instruction: u64) -> u64 {
        matnosoru::abi::write(self.0.flags, self.0.custom, instruction)
    }

    pub fn csr_count(&self) -> u64 {
        matnosoru::abi::csr_count(self.0.flags, self.0.custom)
    }

    pub fn csr_lookup(&self, address: u64) -> u64 {
        matnosoru::abi::csr_lookup(self.0.flags, self.0.custom, address)
    }
}

#[cfg(feature = "proved")]
impl Side for Library {
    const NAME: &'static str = "the library";

    fn new(profile: Profile) -> Self {
        Library(profile)
    }

    #[inline]
    fn system(&self, raw: u64) -> u64 {
        matnosoru::abi::read_system(self.0.flags, self.0.custom, raw)
    }

    #[inline]
    fn load(&self, raw: u64) -> u64 {
        matnosoru::abi::read_load(self.0.flags, self.0.custom, raw)
    }

    #[inline]
    fn store(&self, raw: u64) -> u64 {
        matnosoru::abi::read_store(self.0.flags, self.0.custom, raw)
    }

    fn decode_csr(&self, address: u64) -> Option<(String, u64)> {
        match matnosoru::abi::csr(self.0.flags, self.0.custom, address) {
            0 => None,
            // a number that is no answer is told from any register
            1 => Some(match matnosoru::Csr::at(address as usize) {
                Some(csr) => (format!("{csr:?}"), csr.idx().map_or(u64::MAX, |a| a as u64)),
                None => ("available, and no register".into(), address),
            }),
            other => Some((format!("the answer {other}"), address)),
        }
    }

    fn sign_extend(value: u64, bytes: u64) -> u64 {
        matnosoru::abi::sign_extend(value, bytes)
    }

    fn calculate_addr(base: u64, imm: i64) -> u64 {
        matnosoru::abi::calculate_addr(base, imm as u64)
    }
}
