//! Miralis's own decoder, to hold the proved one against: the unchanged text of its src/decoder.rs, src/arch/registers.rs and
//! src/utils.rs, and of `Width` and `ExtensionsCapability` in src/arch/mod.rs (build.rs says where it is taken from).
//!
//! What the text asks of the rest of the monitor is here, as little of it as will do: the host's context is its extension
//! flags, the platform's custom CSRs answer from a mask, and nothing is logged.
//!
//! The package `monitor` is the same around rust/miralis/decoder.rs, which replaces src/decoder.rs over the proved library.
//!
//! Where there is no Miralis text, the library has only [`HAVE_MIRALIS`], which is then false.

/// Whether Miralis's text was there when this was built.
pub const HAVE_MIRALIS: bool = cfg!(have_miralis);

// The text's `log::warn!` means the crate `log`. The stand-in is this crate itself, under that name.
#[cfg(have_miralis)]
extern crate self as log;

#[cfg(have_miralis)]
include!(concat!(env!("OUT_DIR"), "/miralis.rs"));

/// Takes a message as the `log` crate does, so that its arguments are checked, and drops it.
#[cfg(have_miralis)]
#[allow(unused)] // the replacement for src/decoder.rs logs nothing
macro_rules! dropped {
    ($($message:tt)*) => {{
        let _ = format_args!($($message)*);
    }};
}
#[cfg(have_miralis)]
#[allow(unused)]
pub(crate) use dropped as warn;

/// In place of src/logger.rs.
#[cfg(have_miralis)]
pub mod logger {
    #[allow(unused)]
    pub(crate) use dropped as debug;
}

#[cfg(have_miralis)]
pub mod platform;

#[cfg(have_miralis)]
pub mod host;

/// The functions of the text, each called from inside this crate. A small function may be built anew in the crate that calls it, with
/// that crate's way with overflow; these are not, so they keep the one that the workspace gives to this package.
#[cfg(have_miralis)]
pub mod calls {
    use crate::arch::{Csr, Register, Width};
    use crate::decoder::{IllegalInst, LoadInstr, StoreInstr};
    use crate::host::MiralisContext;

    /// `MiralisContext::decode_illegal_instruction`
    #[inline(never)]
    pub fn system(ctx: &MiralisContext, raw: usize) -> IllegalInst {
        ctx.decode_illegal_instruction(raw)
    }

    /// `MiralisContext::decode_load`
    #[inline(never)]
    pub fn load(ctx: &MiralisContext, raw: usize) -> LoadInstr {
        ctx.decode_load(raw)
    }

    /// `MiralisContext::decode_store`
    #[inline(never)]
    pub fn store(ctx: &MiralisContext, raw: usize) -> StoreInstr {
        ctx.decode_store(raw)
    }

    /// `MiralisContext::decode_csr`
    #[inline(never)]
    pub fn decode_csr(ctx: &MiralisContext, address: usize) -> Option<Csr> {
        ctx.decode_csr(address)
    }

    /// `Csr::idx`
    #[inline(never)]
    pub fn idx(csr: Csr) -> usize {
        csr.idx()
    }

    /// `calculate_addr`
    #[inline(never)]
    pub fn calculate_addr(base: usize, imm: isize) -> usize {
        crate::utils::calculate_addr(base, imm)
    }

    /// `sign_extend`
    #[inline(never)]
    pub fn sign_extend(value: usize, width: Width) -> usize {
        crate::utils::sign_extend(value, width)
    }

    /// `bits_to_int`
    #[inline(never)]
    pub fn bits_to_int(raw: usize, start_bit: isize, end_bit: isize) -> isize {
        crate::utils::bits_to_int(raw, start_bit, end_bit)
    }

    /// `Width::from`
    #[inline(never)]
    pub fn width(bits: usize) -> Width {
        Width::from(bits)
    }

    /// `Register::from`
    #[inline(never)]
    pub fn register(value: usize) -> Register {
        Register::from(value)
    }
}
