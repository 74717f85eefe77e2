//! Document 01's own words: the thirteen at the edges, under the empty profile, and the further ones.

use matnosoru::{
    Csr, IllegalInst::*, LoadInstr, Profile, Reason, Refusal, Register, Register::*, StoreInstr, Width, calculate_addr, sign_extend,
};

const EMPTY: Profile = Profile::EMPTY;

#[test]
fn thirteen() {
    let system = |raw| EMPTY.decode_illegal_instruction(raw);
    assert_eq!(system(0xF14022F3), Ok(Csrrs { csr: Csr::Mhartid, rd: X5, rs1: X0 }));
    let refused = |reason| Err(Refusal::InvalidCsrOp(Some(reason)));
    assert_eq!(system(0xF1401073), refused(Reason::ReadOnly { address: 0xF14 }));
    assert_eq!(system(0xF140A2F3), refused(Reason::ReadOnly { address: 0xF14 }));
    assert_eq!(system(0x3A031073), Ok(Csrrw { csr: Csr::Pmpcfg(0), rd: X0, rs1: X6 }));
    assert_eq!(system(0x3A131073), refused(Reason::NoSuch { address: 0x3A1 }));
    assert_eq!(system(0x3F031073), refused(Reason::NoSuch { address: 0x3F0 }));
    assert_eq!(system(0x3EF31073), Ok(Csrrw { csr: Csr::Pmpaddr(63), rd: X0, rs1: X6 }));
    assert_eq!(system(0x12B50073), Ok(Sfencevma { rs1: X10, rs2: X11 }));
    assert_eq!(system(0x12B500F3), Err(Refusal::Unknown));
    assert_eq!(system(0x1_1050_0073), Err(Refusal::Unknown));
    assert_eq!(system(0x1_F140_22F3), system(0xF14022F3));
    assert_eq!(EMPTY.decode_load(0x80052283), Ok(lw(X5, X10, -2048)));
    assert_eq!(EMPTY.decode_load(0x80057283), Err(Refusal::ReservedWidth));
}

fn lw(rd: Register, rs1: Register, imm: isize) -> LoadInstr {
    LoadInstr { rd, rs1, imm, len: Width::Byte4, is_compressed: false, is_unsigned: false }
}

#[test]
fn further() {
    let sd = StoreInstr { rs2: X11, rs1: X2, imm: -8, len: Width::Byte8, is_compressed: false };
    assert_eq!(EMPTY.decode_store(0xFEB13C23), Ok(sd));
    let clw = LoadInstr { rd: X15, rs1: X15, imm: 124, len: Width::Byte4, is_compressed: true, is_unsigned: false };
    assert_eq!(EMPTY.decode_load(0x5FFC), Ok(clw));
    let cld = LoadInstr { rd: X9, rs1: X10, imm: 248, len: Width::Byte8, is_compressed: true, is_unsigned: false };
    assert_eq!(EMPTY.decode_load(0x7D64), Ok(cld));
    assert_eq!(EMPTY.decode_load(0x2000), Err(Refusal::NotTheForm));
    assert_eq!(EMPTY.decode_load(0), Err(Refusal::NotTheForm));
    // 0x3A2 is pmpcfg 2: the payload is not halved
    assert_eq!(EMPTY.decode_csr(0x3A2), Some(Csr::Pmpcfg(2)));

    assert_eq!(EMPTY.encode(sd), Ok(0xFEB13C23));
    assert_eq!(EMPTY.encode(clw), Ok(0x5FFC));
    assert_eq!(EMPTY.encode(cld), Ok(0x7D64));
}

/// Read, whatever is above bit 15; refused in the other reading; written back.
fn is_stack_load(raw: usize, imm: isize, rd: usize, len: Width) {
    let load = LoadInstr { rd: Register::from(rd), rs1: X2, imm, len, is_compressed: true, is_unsigned: false };
    for raw in [raw, raw | 0xDEAD_BEEF_DEAD_0000] {
        assert_eq!(EMPTY.decode_load(raw), Ok(load), "{raw:#x}");
        assert_eq!(EMPTY.decode_store(raw), Err(Refusal::StackForm), "{raw:#x}");
    }
    assert_eq!(EMPTY.encode(load), Ok(raw as u32), "{load:?}");
}

fn is_stack_store(raw: usize, imm: isize, rs2: usize, len: Width) {
    let store = StoreInstr { rs2: Register::from(rs2), rs1: X2, imm, len, is_compressed: true };
    for raw in [raw, raw | 0xDEAD_BEEF_DEAD_0000] {
        assert_eq!(EMPTY.decode_store(raw), Ok(store), "{raw:#x}");
        assert_eq!(EMPTY.decode_load(raw), Err(Refusal::StackForm), "{raw:#x}");
    }
    assert_eq!(EMPTY.encode(store), Ok(raw as u32), "{store:?}");
}

/// c.lwsp, c.ldsp, c.swsp and c.sdsp: none, each and all of an immediate's bits with x10, then each register.
#[test]
fn stack_forms() {
    for (steps, [lwsp, ldsp, swsp, sdsp]) in [
        (0, [0x4502, 0x6502, 0xC02A, 0xE02A]),
        (1, [0x4512, 0x6522, 0xC22A, 0xE42A]),
        (2, [0x4522, 0x6542, 0xC42A, 0xE82A]),
        (4, [0x4542, 0x7502, 0xC82A, 0xF02A]),
        (8, [0x5502, 0x6506, 0xD02A, 0xE0AA]),
        (16, [0x4506, 0x650A, 0xC0AA, 0xE12A]),
        (32, [0x450A, 0x6512, 0xC12A, 0xE22A]),
        (63, [0x557E, 0x757E, 0xDFAA, 0xFFAA]),
    ] {
        is_stack_load(lwsp, steps * 4, 10, Width::Byte4);
        is_stack_load(ldsp, steps * 8, 10, Width::Byte8);
        is_stack_store(swsp, steps * 4, 10, Width::Byte4);
        is_stack_store(sdsp, steps * 8, 10, Width::Byte8);
    }
    // x0 is stored, and not loaded
    for n in 0..32 {
        if n > 0 {
            is_stack_load(0x4002 | n << 7, 0, n, Width::Byte4);
            is_stack_load(0x707E | n << 7, 504, n, Width::Byte8);
        }
        is_stack_store(0xDF82 | n << 2, 252, n, Width::Byte4);
        is_stack_store(0xE002 | n << 2, 0, n, Width::Byte8);
    }
}

#[test]
fn plain() {
    assert_eq!(EMPTY.decode_illegal_instruction(0x10500073), Ok(Wfi));
    assert_eq!(EMPTY.decode_illegal_instruction(0x30200073), Ok(Mret));
    assert_eq!(EMPTY.decode_illegal_instruction(0x10200073), Ok(Sret));
    assert_eq!(EMPTY.decode_illegal_instruction(0x22B50073), Ok(Hfencevvma { rs1: X10, rs2: X11 }));
    assert_eq!(EMPTY.decode_illegal_instruction(0x62B50073), Ok(Hfencegvma { rs1: X10, rs2: X11 }));
    // ecall, and funct3 4, which no CSR form has
    assert_eq!(EMPTY.decode_illegal_instruction(0x73), Err(Refusal::Unknown));
    assert_eq!(EMPTY.decode_illegal_instruction(0xF14042F3), Err(Refusal::Unknown));
    // immediates, and a set that writes nothing on a read-only register
    assert_eq!(EMPTY.decode_illegal_instruction(0x340FD073), Ok(Csrrwi { csr: Csr::Mscratch, rd: X0, uimm: 31 }));
    assert_eq!(EMPTY.decode_illegal_instruction(0x340FE073), Ok(Csrrsi { csr: Csr::Mscratch, rd: X0, uimm: 31 }));
    assert_eq!(EMPTY.decode_illegal_instruction(0xF14072F3), Ok(Csrrci { csr: Csr::Mhartid, rd: X5, uimm: 0 }));
    assert_eq!(EMPTY.decode_illegal_instruction(0x340FB073), Ok(Csrrc { csr: Csr::Mscratch, rd: X0, rs1: X31 }));
}

/// What is read can be written, and gives the same word: every SYSTEM word with some chosen fields, every halfword, and some loads
/// and stores.
#[test]
fn back() {
    let full = Profile::from_flags(!0, !0);
    let mut read = 0;
    for address in 0..4096 {
        for low in [0x1073, 0x22F3, 0xFA073, 0x5073, 0xFE0F3, 0x7073, 0x0073] {
            let raw = address << 20 | low;
            if let Ok(i) = full.decode_illegal_instruction(raw) {
                assert_eq!(full.encode(i), Ok(raw as u32), "{raw:#x} {i:?}");
                read += 1;
            }
        }
    }
    for raw in (0..0x10000).chain((0..1 << 20).map(|k: usize| k.wrapping_mul(0x9E37_79B1) & 0xFFFF_FFFF)) {
        for raw in [raw, raw & !0x7F | 0x03, raw & !0x7F | 0x23] {
            if let Ok(i) = EMPTY.decode_load(raw) {
                assert_eq!(EMPTY.encode(i), Ok(raw as u32 & if i.is_compressed { 0xFFFF } else { !0 }), "{raw:#x} {i:?}");
                read += 1;
            }
            if let Ok(i) = EMPTY.decode_store(raw) {
                assert_eq!(EMPTY.encode(i), Ok(raw as u32 & if i.is_compressed { 0xFFFF } else { !0 }), "{raw:#x} {i:?}");
                read += 1;
            }
        }
    }
    assert!(read > 1_000_000, "{read}");
}

#[test]
fn counts() {
    assert_eq!(EMPTY.csr_count(), 90);
    assert_eq!(Profile::from_flags(0xFF, !0).csr_count(), 266);
    for (bit, more) in [5, 58, 1, 14, 25, 1, 7, 1].into_iter().enumerate() {
        assert_eq!(Profile::from_flags(1 << bit, 0b101).csr_count(), 90 + more + 2);
    }
}

/// Availability, address and register agree for each address, and no other address has one.
#[test]
fn addresses() {
    let full = Profile::from_flags(0xFF, !0);
    let mut never = 0;
    for address in 0..0x20000 {
        match Csr::at(address) {
            Some(csr) => {
                assert_eq!(csr.idx(), Ok(address));
                if full.decode_csr(address).is_none() {
                    never += 1;
                } else {
                    assert_eq!(full.decode_csr(address), Some(csr));
                }
            }
            None => assert_eq!(full.decode_csr(address), None),
        }
    }
    assert_eq!(never, 8, "tdata1 to 3, mcontext, dcsr, dpc, dscratch0 and 1");
    assert_eq!(full.decode_csr(usize::MAX), None);
    let masked = Profile::from_flags(0, 1 << 63 | 1);
    assert_eq!(masked.decode_csr(0x7C0), Some(Csr::Custom(0x7C0)));
    assert_eq!(masked.decode_csr(0x7C1), None);
    assert_eq!(masked.decode_csr(0x7FF), Some(Csr::Custom(0x7FF)));
}

/// The registers' names, also with a payload that no register has.
#[test]
fn names() {
    for (csr, name) in [
        (Csr::Mhartid, "mhartid"),
        (Csr::Dscratch0, "dscratch0"),
        (Csr::Pmpcfg(2), "pmpcfg2"),
        (Csr::Pmpaddr(63), "pmpaddr63"),
        (Csr::Mhpmcounter(0), "mhpmcounter3"),
        (Csr::Mhpmevent(28), "mhpmevent31"),
        (Csr::Custom(0x7C5), "custom CSR 0x7c5"),
        (Csr::Mhpmcounter(usize::MAX), "mhpmcounter18446744073709551615"),
    ] {
        assert_eq!(csr.to_string(), name);
    }
}

#[test]
fn flags() {
    for flags in 0..256 {
        assert_eq!(Profile::from_flags(flags, 7).flags(), flags);
    }
    assert_eq!(Profile::from_flags(0xFF00, 0), EMPTY);
}

#[test]
fn masks() {
    assert_eq!(Csr::PMP_CFG_LOCK_MASK, 0x8080808080808080);
    assert_eq!(Csr::PMP_CFG_LEGAL_MASK, 0x9F9F9F9F9F9F9F9F);
    assert_eq!(Csr::PMP_ADDR_LEGAL_MASK, 0x003FFFFFFFFFFFFF);
    assert_eq!(Csr::MCOUNTINHIBIT_LEGAL_MASK, 0xFFFFFFFFFFFFFFFD);
}

#[test]
fn arithmetic() {
    assert_eq!(sign_extend(0x1FF, Width::Byte), usize::MAX);
    assert_eq!(sign_extend(0x17F, Width::Byte), 0x7F);
    assert_eq!(sign_extend(0x8000, Width::Byte2), 0xFFFF_FFFF_FFFF_8000);
    assert_eq!(sign_extend(0x8000_0000, Width::Byte4), 0xFFFF_FFFF_8000_0000);
    assert_eq!(sign_extend(1 << 63, Width::Byte8), 1 << 63);
    assert_eq!(calculate_addr(10, -2), 8);
    assert_eq!(calculate_addr(0, -1), usize::MAX);
    assert_eq!(calculate_addr(usize::MAX, 1), 0);
    assert_eq!(calculate_addr(0, isize::MIN), 1 << 63);
}
