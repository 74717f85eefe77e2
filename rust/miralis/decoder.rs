//! RISC-V instruction decoder
//!
//! This file replaces Miralis's src/decoder.rs by the proved library: put it in that file's place and add the crate `matnosoru` to the
//! dependencies. The types and the functions are those of the original, so the monitor builds with no other change.
//!
//! One other change is needed before a guest may run: the two calls in src/virt/memory.rs. The guest chooses the word that
//! `emulate_misaligned_read` and `emulate_misaligned_write` decode, and it may choose one that is no load or store. `decode_load` and
//! `decode_store` have no answer for such a word. The original panics or guesses; this file always panics. `try_decode_load` and
//! `try_decode_store` answer the refusal and never panic. Both functions of src/virt/memory.rs can already fail, and their callers
//! then hand the trap on to the guest (`emulate_payload_trap`):
//!
//! ```text
//! let Ok(LoadInstr { rd, rs1, imm, len, is_compressed, .. }) = mctx.try_decode_load(raw_instruction) else {
//!     return Err(());
//! };
//! ```
//!
//! and for a store alike. The `assert!` on the width that follows there panics at a load or store of one byte. No such access is
//! misaligned, but the word is read after the trap, and another hart may have changed it; so the `assert!` should return `Err(())` too.
//! Any other call on a word of the guest's should move to the same two names.
//!
//! Where a word is a SYSTEM instruction, a load or a store as document 01 has them, the answers are the original's. They differ:
//!
//! - `decode_load` of c.lwsp and c.ldsp, and `decode_store` of c.swsp and c.sdsp: the library reads them. The original has `todo!`
//!   for every word with low two bits 10.
//! - `decode_load` and `decode_store` of a word that is no load or store. The original has that `todo!`, and `unreachable!` for 01, for
//!   the compressed words of other instructions and for the reserved store widths; it reads other opcodes (such as flw, lr.w, or a
//!   store in `decode_load`) as if they were loads or stores, and the reserved load width as 64 bits unsigned. The library refuses all
//!   of these, and this file panics with the word and the refusal's number.
//! - Nothing is logged of an unknown CSR. `InvalidCsrOp` has no reason, as in the original. The crate's refusal that becomes it has one,
//!   and prints as "2 (mhpmcounter3 is there only with Zihpm)", which can be logged there.

use matnosoru::{Profile, Refusal};

use crate::arch::{Csr, Register, Width};
use crate::host::MiralisContext;
use crate::platform::{Plat, Platform};

/// A RISC-V privileged instruction.
#[derive(Debug, PartialEq, Eq, Clone)]
pub enum IllegalInst {
    Wfi,
    /// CSR Read/Write
    Csrrw {
        csr: Csr,
        rd: Register,
        rs1: Register,
    },
    /// CSR Read & Set
    Csrrs {
        csr: Csr,
        rd: Register,
        rs1: Register,
    },
    /// CSR Read & Clear
    Csrrc {
        csr: Csr,
        rd: Register,
        rs1: Register,
    },
    /// CSR Read/Write Immediate
    Csrrwi {
        csr: Csr,
        rd: Register,
        uimm: usize,
    },
    /// CSR Read & Set Immediate
    Csrrsi {
        csr: Csr,
        rd: Register,
        uimm: usize,
    },
    /// CSR Read & Clear Immediate
    Csrrci {
        csr: Csr,
        rd: Register,
        uimm: usize,
    },
    /// A invalid CSR instruction, such as an access to an unknown CSR or a write to a read-only
    /// CSR.
    InvalidCsrOp,
    Mret,
    Sret,
    /// Fence instructions
    Sfencevma {
        rs1: Register,
        rs2: Register,
    },
    Hfencevvma {
        rs1: Register,
        rs2: Register,
    },
    Hfencegvma {
        rs1: Register,
        rs2: Register,
    },
    Unknown,
}

/// A load instruction.
#[derive(Debug, PartialEq, Eq, Clone)]
pub struct LoadInstr {
    pub rd: Register,
    pub rs1: Register,
    pub imm: isize,
    pub len: Width,
    pub is_compressed: bool,
    pub is_unsigned: bool,
}

/// A store instruction.
#[derive(Debug, PartialEq, Eq, Clone)]
pub struct StoreInstr {
    pub rs2: Register,
    pub rs1: Register,
    pub imm: isize,
    pub len: Width,
    pub is_compressed: bool,
}

impl MiralisContext {
    /// Decodes a raw read RISC-V instruction.
    ///
    /// Panics where the word is no such load. For a word that a guest chooses, call `try_decode_load` (see the top of this file).
    pub fn decode_load(&self, raw: usize) -> LoadInstr {
        match self.try_decode_load(raw) {
            Ok(load) => load,
            Err(refusal) => refused("load", raw, refusal),
        }
    }

    /// Decodes a raw write RISC-V instruction.
    ///
    /// Panics where the word is no such store. For a word that a guest chooses, call `try_decode_store` (see the top of this file).
    pub fn decode_store(&self, raw: usize) -> StoreInstr {
        match self.try_decode_store(raw) {
            Ok(store) => store,
            Err(refusal) => refused("store", raw, refusal),
        }
    }

    /// Decodes a raw read RISC-V instruction, or answers why it is no load: refusal 3 (not such a form), 4 (the reserved width) or 5 (low
    /// two bits 10, and no stack-based load).
    pub fn try_decode_load(&self, raw: usize) -> Result<LoadInstr, Refusal> {
        let load = self.profile(0).decode_load(raw)?;
        Ok(LoadInstr {
            rd: register(load.rd),
            rs1: register(load.rs1),
            imm: load.imm,
            len: width(load.len),
            is_compressed: load.is_compressed,
            is_unsigned: load.is_unsigned,
        })
    }

    /// Decodes a raw write RISC-V instruction, or answers why it is no store: refusal 3 (not such a form), 4 (a reserved width) or 5 (low
    /// two bits 10, and no stack-based store).
    pub fn try_decode_store(&self, raw: usize) -> Result<StoreInstr, Refusal> {
        let store = self.profile(0).decode_store(raw)?;
        Ok(StoreInstr {
            rs2: register(store.rs2),
            rs1: register(store.rs1),
            imm: store.imm,
            len: width(store.len),
            is_compressed: store.is_compressed,
        })
    }

    /// Decodes a raw illegal instruction
    ///
    /// Instructions that are not SYSTEM instructions (including all compressed instructions) are
    /// decoded as `IllegalInst::Unknown`.
    pub fn decode_illegal_instruction(&self, raw_instr: usize) -> IllegalInst {
        use matnosoru::IllegalInst as Proved;
        match self.profile((raw_instr >> 20) & 0xFFF).decode_illegal_instruction(raw_instr) {
            Ok(Proved::Wfi) => IllegalInst::Wfi,
            Ok(Proved::Csrrw { csr: c, rd, rs1 }) => IllegalInst::Csrrw { csr: csr(c), rd: register(rd), rs1: register(rs1) },
            Ok(Proved::Csrrs { csr: c, rd, rs1 }) => IllegalInst::Csrrs { csr: csr(c), rd: register(rd), rs1: register(rs1) },
            Ok(Proved::Csrrc { csr: c, rd, rs1 }) => IllegalInst::Csrrc { csr: csr(c), rd: register(rd), rs1: register(rs1) },
            Ok(Proved::Csrrwi { csr: c, rd, uimm }) => IllegalInst::Csrrwi { csr: csr(c), rd: register(rd), uimm },
            Ok(Proved::Csrrsi { csr: c, rd, uimm }) => IllegalInst::Csrrsi { csr: csr(c), rd: register(rd), uimm },
            Ok(Proved::Csrrci { csr: c, rd, uimm }) => IllegalInst::Csrrci { csr: csr(c), rd: register(rd), uimm },
            Ok(Proved::Mret) => IllegalInst::Mret,
            Ok(Proved::Sret) => IllegalInst::Sret,
            Ok(Proved::Sfencevma { rs1, rs2 }) => IllegalInst::Sfencevma { rs1: register(rs1), rs2: register(rs2) },
            Ok(Proved::Hfencevvma { rs1, rs2 }) => IllegalInst::Hfencevvma { rs1: register(rs1), rs2: register(rs2) },
            Ok(Proved::Hfencegvma { rs1, rs2 }) => IllegalInst::Hfencegvma { rs1: register(rs1), rs2: register(rs2) },
            Err(Refusal::InvalidCsrOp(_)) => IllegalInst::InvalidCsrOp,
            Err(_) => IllegalInst::Unknown,
        }
    }

    /// Decodes a CSR address, returns `None` if the CSR is not available.
    pub fn decode_csr(&self, address: usize) -> Option<Csr> {
        self.profile(address).decode_csr(address).map(csr)
    }

    /// What the library wants to know of this hart for a call that may look up the CSR at `address`. The look-up depends on no bit of
    /// the custom mask but that address's own, so the platform is asked for that one alone.
    #[inline]
    fn profile(&self, address: usize) -> Profile {
        let extensions = &self.hw.extensions;
        let custom = match address {
            0x7C0..=0x7FF if Plat::is_valid_custom_csr(address) => 1 << (address - 0x7C0),
            _ => 0,
        };
        Profile {
            has_zicntr: extensions.has_zicntr,
            has_zihpm_extension: extensions.has_zihpm_extension,
            has_tee_extension: extensions.has_tee_extension,
            has_s_extension: extensions.has_s_extension,
            has_h_extension: extensions.has_h_extension,
            is_sstc_enabled: extensions.is_sstc_enabled,
            has_v_extension: extensions.has_v_extension,
            has_crypto_extension: extensions.has_crypto_extension,
            custom,
        }
    }
}

/// The end of a word that `decode_load` or `decode_store` cannot answer.
#[cold]
fn refused(reading: &str, raw: usize, refusal: Refusal) -> ! {
    panic!("no {reading}: {raw:#x} is refused with {refusal}")
}

fn register(r: matnosoru::Register) -> Register {
    Register::from(r as usize)
}

fn width(w: matnosoru::Width) -> Width {
    match w {
        matnosoru::Width::Byte => Width::Byte,
        matnosoru::Width::Byte2 => Width::Byte2,
        matnosoru::Width::Byte4 => Width::Byte4,
        matnosoru::Width::Byte8 => Width::Byte8,
    }
}

/// The same register in Miralis's type: both have the same names.
fn csr(c: matnosoru::Csr) -> Csr {
    macro_rules! same {
        ($($name:ident)*; $($with:ident)*) => {
            match c {
                $(matnosoru::Csr::$name => Csr::$name,)*
                $(matnosoru::Csr::$with(id) => Csr::$with(id),)*
            }
        };
    }
    same! {
        Mhartid Mstatus Misa Mie Mtvec Mscratch Mip Mvendorid Marchid Mimpid Mcycle Minstret Cycle Time Instret
        Mcountinhibit Mcounteren Menvcfg Mseccfg Mconfigptr Medeleg Mideleg Mtinst Mtval2 Tselect Tdata1 Tdata2 Tdata3
        Mcontext Dcsr Dpc Dscratch0 Dscratch1 Mepc Mcause Mtval Sstatus Sie Stvec Scounteren Senvcfg Sscratch Sepc
        Scause Stval Sip Satp Scontext Stimecmp Hstatus Hedeleg Hideleg Hvip Hip Hie Hgeip Hgeie Henvcfg Hcounteren
        Htimedelta Htval Htinst Hgatp Vsstatus Vsie Vstvec Vsscratch Vsepc Vscause Vstval Vsip Vsatp Vstart Vxsat Vxrm
        Vcsr Vl Vtype Vlenb Seed;
        Pmpcfg Pmpaddr Mhpmcounter Mhpmevent Custom
    }
}
