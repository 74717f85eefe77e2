//! In place of src/host.rs.

use crate::arch::ExtensionsCapability;

/// What the decoder looks at of `HardwareCapability`.
pub struct HardwareCapability {
    pub extensions: ExtensionsCapability,
}

/// What the decoder looks at of the host's context.
pub struct MiralisContext {
    pub hw: HardwareCapability,
}

impl MiralisContext {
    /// A context with document 01's flags: from bit 0 up zicntr, zihpm, tee, s, h, sstc, v, crypto. The flags of the
    /// Rust's record that no reading looks at are off.
    pub fn with_flags(flags: u64) -> Self {
        let on = |bit: u32| (flags >> bit) & 1 == 1;
        MiralisContext {
            hw: HardwareCapability {
                extensions: ExtensionsCapability {
                    has_zicntr: on(0),
                    has_zihpm_extension: on(1),
                    has_tee_extension: on(2),
                    has_s_extension: on(3),
                    has_h_extension: on(4),
                    is_sstc_enabled: on(5),
                    has_v_extension: on(6),
                    has_crypto_extension: on(7),
                    has_c_extension: false,
                    has_zfinx: false,
                    has_sstc_extension: false,
                    has_zicbom_extension: false,
                    has_zicboz_extension: false,
                },
            },
        }
    }
}
