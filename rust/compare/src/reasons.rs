//! Why the SYSTEM reading refuses with 2. The Rust does not say; the reason here follows from the word and from the Rust's own look-up.

use std::sync::LazyLock;
use std::thread;

use crate::sides::{Original, Side};
use crate::{Profile, Reading};

/// For each address whether some profile has a register there. The full profile then has it.
pub struct Reasons([bool; 4096]);

static REASONS: LazyLock<Reasons> = LazyLock::new(|| {
    // in a thread of its own, since the platform has one mask for each thread, and the caller's is in use
    let asked = thread::spawn(|| {
        let full = Original::new(Profile::FULL);
        std::array::from_fn(|address| full.decode_csr(address as u64).is_some())
    });
    Reasons(asked.join().unwrap())
});

impl Reasons {
    /// The reasons, by what the Rust finds under the full profile.
    pub fn get() -> &'static Reasons {
        &REASONS
    }

    /// The Rust's answer to a word, with the reason's letter where it is the refusal 2.
    #[inline(always)]
    pub fn with_letter(&self, answer: u64, raw: u64) -> u64 {
        const REFUSED: u64 = Reading::System.refused(2);
        if answer == REFUSED { REFUSED | (self.letter(raw) as u64) << 24 } else { answer }
    }

    /// a where the word writes and its address is read-only, then b where some profile has the register, then c.
    #[inline(always)]
    fn letter(&self, raw: u64) -> u8 {
        let (address, source, funct3) = (raw >> 20 & 0xFFF, raw >> 15 & 31, raw >> 12 & 7);
        let writes = source != 0 || funct3 == 1 || funct3 == 5;
        if writes && address >> 10 == 3 {
            b'a'
        } else if self.has(address) {
            b'b'
        } else {
            b'c'
        }
    }

    /// What the look-up of an address answers: 1 where the Rust finds the register, then 2 where some profile has it, then 3.
    pub fn lookup(&self, is_found: bool, address: u64) -> u64 {
        if is_found {
            1
        } else if self.has(address) {
            2
        } else {
            3
        }
    }

    #[inline(always)]
    fn has(&self, address: u64) -> bool {
        self.0.get(address as usize).is_some_and(|has| *has)
    }
}

#[cfg(test)]
mod tests {
    use super::*;

    /// Document 02's letters for some words, and the answers that have none.
    #[test]
    fn letters() {
        let refused = Reading::System.refused(2);
        for (raw, letter) in [
            (0xFFF0_9073, b'a'),
            (0xC030_9073, b'a'),
            (0xFFF0_5073, b'a'),
            (0xFFF0_E0F3, b'a'),
            (0x7A10_20F3, b'c'),
            (0x7A10_90F3, b'c'),
            (0x7C00_20F3, b'b'),
            (0x7FF0_90F3, b'b'),
            (0xFFF0_20F3, b'c'),
            (0xC030_60F3, b'c'),
            (0xDEAD_BEEF_0150_90F3, b'b'),
        ] {
            let word = u64::from_le_bytes([9, 0, 2, letter, 0, 0, 0, 0]);
            assert_eq!(Reasons::get().with_letter(refused, raw), word, "{raw:#x}");
            for answer in [1, Reading::System.refused(1), Reading::Load.refused(5), 0x0F14_0205] {
                assert_eq!(Reasons::get().with_letter(answer, raw), answer, "{raw:#x}");
            }
        }
    }

    /// What the full profile has is what any of the flags and masks has, and a caller's mask is as it was.
    #[test]
    fn some_profile() {
        let mut some = [false; 4096];
        for flags in 0..256 {
            for custom in [0, u64::MAX] {
                let rust = Original::new(Profile { flags, custom });
                for (address, has) in (0..).zip(&mut some) {
                    let is_found = rust.decode_csr(address).is_some();
                    *has |= is_found;
                    let answer = Reasons::get().lookup(is_found, address);
                    assert_eq!(answer == 1, is_found, "{address:#x} under flags {flags:#x}");
                }
            }
        }
        assert_eq!(some, Reasons::get().0);
        assert_eq!(some.iter().filter(|has| **has).count(), 266);
        for address in [4096, 4096 + 0x300, 1 << 32 | 0x300, u64::MAX] {
            assert_eq!(Reasons::get().lookup(false, address), 3, "{address:#x}");
        }
    }
}
