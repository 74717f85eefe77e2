//! The replacement answers as the original does inside the domain that was ported. Outside it, it reads the stack-based forms
//! and panics at all else. (The whole comparison is the package `compare`; this is the part of it that takes seconds.)

#[cfg(not(have_miralis))]
#[test]
fn text() {
    println!("no Miralis text here (MIRALIS_SRC names its folder): nothing is compared");
}

#[cfg(have_miralis)]
mod run {
    use std::panic::catch_unwind;

    use monitor::decoder as proved;
    use oracle::decoder as original;

    /// The two types have the same names throughout, so what is printed tells whether they are the same.
    fn same(a: &impl std::fmt::Debug, b: &impl std::fmt::Debug) -> bool {
        format!("{a:?}") == format!("{b:?}")
    }

    fn contexts(flags: u64, custom: u64) -> (monitor::host::MiralisContext, oracle::host::MiralisContext) {
        monitor::platform::set_custom(custom);
        oracle::platform::set_custom(custom);
        (monitor::host::MiralisContext::with_flags(flags), oracle::host::MiralisContext::with_flags(flags))
    }

    const PROFILES: [(u64, u64); 12] = [
        (0, 0),
        (0x01, 1),
        (0x02, 1 << 63),
        (0x04, 0),
        (0x08, 0),
        (0x10, 0),
        (0x20, 0),
        (0x40, 0),
        (0x80, 0),
        (0xFF, 0xFFFF_FFFF_FFFF_FFFF),
        (0xA5, 0x0123_4567_89AB_CDEF),
        (0x5A, 0xFEDC_BA98_7654_3210),
    ];

    #[test]
    fn system() {
        for (flags, custom) in PROFILES {
            let (ours, theirs) = contexts(flags, custom);
            for address in 0..4096 {
                for low in [
                    0x0073,
                    0x1073,
                    0x30F3,
                    0x5073,
                    0x6073,
                    0x7073,
                    0x4073,
                    0x313F3,
                    0xFA073,
                    0xFB073,
                    0xFE073,
                    0x13,
                    0xDEAD_0000_0000_1073,
                ] {
                    let raw = address << 20 | low;
                    let (a, b) = (ours.decode_illegal_instruction(raw), theirs.decode_illegal_instruction(raw));
                    assert!(same(&a, &b), "{raw:#x}: {a:?}, the original {b:?}");
                }
            }
            for address in (0..0x2000).chain([1 << 32, usize::MAX]) {
                let (a, b) = (ours.decode_csr(address), theirs.decode_csr(address));
                assert!(same(&a, &b), "{address:#x}: {a:?}, the original {b:?}");
            }
        }
    }

    /// Random words, the same in every run.
    fn words() -> impl Iterator<Item = usize> {
        (1..100_000usize).map(|k| k.wrapping_mul(0x9E37_79B9_7F4A_7C15))
    }

    fn halves(funct3: [usize; 2]) -> impl Iterator<Item = usize> {
        (0..0x10000usize).filter(move |w| w & 3 == 0 && funct3.contains(&(w >> 13)))
    }

    #[test]
    fn loads() {
        let (ours, theirs) = contexts(0, 0);
        for raw in words().map(|w| w & !0x7F | 0x03).filter(|w| w >> 12 & 7 != 7).chain(halves([2, 3])) {
            let (a, b): (proved::LoadInstr, original::LoadInstr) = (ours.decode_load(raw), theirs.decode_load(raw));
            assert!(same(&a, &b), "{raw:#x}: {a:?}, the original {b:?}");
        }
    }

    #[test]
    fn stores() {
        let (ours, theirs) = contexts(0, 0);
        for raw in words().map(|w| w & !0x7F | 0x23).filter(|w| w >> 12 & 7 < 4).chain(halves([6, 7])) {
            let (a, b): (proved::StoreInstr, original::StoreInstr) = (ours.decode_store(raw), theirs.decode_store(raw));
            assert!(same(&a, &b), "{raw:#x}: {a:?}, the original {b:?}");
        }
    }

    /// The stack-based compressed forms, for which the original has `todo!`.
    #[test]
    fn stack_forms() {
        use monitor::arch::{Register::*, Width};
        let load = |rd, imm, len| proved::LoadInstr { rd, rs1: X2, imm, len, is_compressed: true, is_unsigned: false };
        let store = |rs2, imm, len| proved::StoreInstr { rs2, rs1: X2, imm, len, is_compressed: true };
        for (raw, wanted) in [(0x4502, load(X10, 0, Width::Byte4)), (0x7FFE, load(X31, 504, Width::Byte8))] {
            let (ours, theirs) = contexts(0, 0);
            assert_eq!(ours.decode_load(raw), wanted, "{raw:#x}");
            assert!(catch_unwind(move || theirs.decode_load(raw)).is_err());
        }
        for (raw, wanted) in [(0xDFFE, store(X31, 252, Width::Byte4)), (0xE002, store(X0, 0, Width::Byte8))] {
            let (ours, theirs) = contexts(0, 0);
            assert_eq!(ours.decode_store(raw), wanted, "{raw:#x}");
            assert!(catch_unwind(move || theirs.decode_store(raw)).is_err());
        }
    }

    #[test]
    fn outside() {
        for (raw, number) in
            [(0x4002, 5), (0xC502, 5), (0x4501, 3), (0x2000, 3), (0, 3), (0x8005_2287, 3), (0xFEB1_3C23, 3), (0x8005_7283, 4)]
        {
            let (ours, _) = contexts(0, 0);
            assert_eq!(ours.try_decode_load(raw).unwrap_err().number(), number, "{raw:#x}");
            let text = *catch_unwind(move || ours.decode_load(raw)).unwrap_err().downcast::<String>().unwrap();
            assert!(text.starts_with(&format!("no load: {raw:#x} is refused with {number} (")), "{text}");
        }
        for (raw, number) in [(0x4502, 5), (0xC501, 3), (0x4000, 3), (0x8005_2283, 3), (0xFEB1_4C23, 4)] {
            let (ours, _) = contexts(0, 0);
            assert_eq!(ours.try_decode_store(raw).unwrap_err().number(), number, "{raw:#x}");
            assert!(catch_unwind(move || ours.decode_store(raw)).is_err());
        }
    }
}
