//! In place of src/platform/mod.rs.

use std::cell::Cell;

thread_local! {
    static CUSTOM: Cell<u64> = const { Cell::new(0) };
}

/// Sets this thread's mask of custom CSRs: bit k is for address 0x7C0 + k.
pub fn set_custom(mask: u64) {
    CUSTOM.set(mask);
}

/// What the decoder asks of a platform.
pub trait Platform {
    fn is_valid_custom_csr(csr: usize) -> bool;
}

/// The platform whose custom CSRs are those of the mask.
pub struct Plat;

impl Platform for Plat {
    fn is_valid_custom_csr(csr: usize) -> bool {
        match csr.checked_sub(0x7C0) {
            Some(k) if k < 64 => (CUSTOM.get() >> k) & 1 == 1,
            _ => false,
        }
    }
}
