//! Each refusal, given by the call that gives it, and in document 01's order where two apply.

use matnosoru::{
    Csr, CsrLookup, IllegalInst::*, Instr, LoadInstr, Profile, Reading, Reason, Record, Refusal, Register, Register::*, StoreInstr, Width,
    abi,
};

const EMPTY: Profile = Profile::EMPTY;

fn load(rd: Register, rs1: Register, imm: isize, len: Width, is_compressed: bool, is_unsigned: bool) -> LoadInstr {
    LoadInstr { rd, rs1, imm, len, is_compressed, is_unsigned }
}

fn store(rs2: Register, rs1: Register, imm: isize, len: Width, is_compressed: bool) -> StoreInstr {
    StoreInstr { rs2, rs1, imm, len, is_compressed }
}

#[test]
fn numbers() {
    for number in 0..40 {
        assert_eq!(Refusal::from_number(number).number(), number);
    }
    assert_eq!(Refusal::Unknown.number(), 1);
    assert_eq!(Refusal::UnequalLists.number(), 17);
    assert_eq!(Refusal::ReadOnlyCsr.to_string(), "8 (the CSR is read-only)");
}

#[test]
fn readings() {
    // 1, 2
    assert_eq!(EMPTY.decode_illegal_instruction(0x80052283), Err(Refusal::Unknown));
    assert!(matches!(EMPTY.decode_illegal_instruction(0xC0002573), Err(Refusal::InvalidCsrOp(_))));
    assert!(Profile::from_flags(1, 0).decode_illegal_instruction(0xC0002573).is_ok());
    // 3: foreign words, the other reading's, compressed words of neither; before 4
    for raw in [0xFEB13C23, 0x80052287, 0xFFFF_FFFF, 0xF14022F3, 0xC000, 0x0001, 0x8000, 0x2000, 0] {
        assert_eq!(EMPTY.decode_load(raw), Err(Refusal::NotTheForm), "{raw:#x}");
    }
    for raw in [0x80052283, 0xFEB12C27, 0xFFFF_FFFF, 0x4000, 0x6000, 0x0001, 0x8000, 0x2000, 0] {
        assert_eq!(EMPTY.decode_store(raw), Err(Refusal::NotTheForm), "{raw:#x}");
    }
    // 4
    assert_eq!(EMPTY.decode_load(0x7003), Err(Refusal::ReservedWidth));
    for funct3 in 4..8 {
        assert_eq!(EMPTY.decode_store(funct3 << 12 | 0x23), Err(Refusal::ReservedWidth));
    }
    // 5: low two bits 10 with another funct3 (c.slli, c.fldsp, c.jr, c.ebreak, c.fsdsp), whatever is above bit 15
    for raw in [0x0002, 0x1FFE, 0x2002, 0x3FFE, 0x8002, 0x9002, 0x9FFE, 0xA002, 0xBFFE, 0xDEAD_BEEF_C502_0002] {
        assert_eq!(EMPTY.decode_load(raw), Err(Refusal::StackForm), "{raw:#x}");
        assert_eq!(EMPTY.decode_store(raw), Err(Refusal::StackForm), "{raw:#x}");
    }
    // the stores, and the loads with rd 0
    for raw in [0xC002, 0xC502, 0xDFFE, 0xE002, 0xFFFE, 0xFFFF_FFFE, 0x4002, 0x507E, 0x6002, 0x707E, 0x4502_4002] {
        assert_eq!(EMPTY.decode_load(raw), Err(Refusal::StackForm), "{raw:#x}");
    }
    // the loads, with rd 0 too
    for raw in [0x4002, 0x4502, 0x5FFE, 0x6002, 0x6502, 0x7FFE, 0xC502_4502] {
        assert_eq!(EMPTY.decode_store(raw), Err(Refusal::StackForm), "{raw:#x}");
    }
}

/// A CSR form: funct3, the address, rd and the source field.
const fn access(funct3: usize, address: usize, rd: usize, source: usize) -> usize {
    address << 20 | source << 15 | funct3 << 12 | rd << 7 | 0x73
}

/// The refusal 2 of a word under a profile, with its reason; the number and what is left without the reason are always the same.
fn reason(profile: Profile, raw: usize) -> Reason {
    let refusal = profile.decode_illegal_instruction(raw).unwrap_err();
    assert_eq!((refusal.number(), refusal.without_reason()), (2, Refusal::InvalidCsrOp(None)), "{raw:#x}");
    refusal.reason().unwrap_or_else(|| panic!("{raw:#x} has no reason"))
}

/// a before b and c, by the address alone; then b for what some profile has, and c for the rest.
#[test]
fn reasons() {
    let full = Profile::from_flags(!0, !0);
    for profile in [EMPTY, full] {
        for address in [0xFFF, 0xC03] {
            for funct3 in [1, 2, 3, 5, 6, 7] {
                assert_eq!(reason(profile, access(funct3, address, 0, 1)), Reason::ReadOnly { address }, "{address:#x} {funct3}");
            }
            // a write with source 0 writes, and a set or clear reads
            for funct3 in [1, 5] {
                assert_eq!(reason(profile, access(funct3, address, 5, 0)), Reason::ReadOnly { address }, "{address:#x} {funct3}");
            }
            for funct3 in [2, 3, 6, 7] {
                assert_eq!(reason(profile, access(funct3, address, 5, 0)), Reason::NoSuch { address }, "{address:#x} {funct3}");
            }
        }
        assert_eq!(reason(profile, access(2, 0x7A1, 1, 0)), Reason::NoSuch { address: 0x7A1 });
        assert_eq!(reason(profile, access(1, 0x7A1, 1, 1)), Reason::NoSuch { address: 0x7A1 });
    }
    for address in 0x7C0..=0x7FF {
        let bit = 1 << (address - 0x7C0);
        for custom in [0, !bit] {
            assert_eq!(reason(Profile::from_flags(!0, custom), access(2, address, 1, 0)), Reason::GateOff { address });
        }
        assert!(Profile::from_flags(0, bit).decode_illegal_instruction(access(2, address, 1, 0)).is_ok());
    }
    // cycle is there only with Zicntr, and is read-only in any case
    assert_eq!(reason(EMPTY, access(2, 0xC00, 1, 0)), Reason::GateOff { address: 0xC00 });
    assert_eq!(reason(EMPTY, access(2, 0xC00, 1, 1)), Reason::ReadOnly { address: 0xC00 });
    // the address is in bits 20 to 31, whatever is above
    assert_eq!(reason(EMPTY, 0xDEAD_BEEF << 32 | access(2, 0x7A1, 1, 0)), Reason::NoSuch { address: 0x7A1 });
    assert_eq!(reason(EMPTY, 1 << 32 | access(1, 0xFFF, 0, 1)), Reason::ReadOnly { address: 0xFFF });
}

/// The reason is the word's: the letter that crosses, and the address in the raw word.
#[test]
fn reasons_cross() {
    let mixed = Profile::from_flags(0xA5, 0x0123_4567_89AB_CDEF);
    let forms = [1, 2, 3, 5, 6, 7].into_iter().flat_map(|funct3| [0, 1, 16, 31].map(|source| (funct3, source)));
    let words = forms.flat_map(|(funct3, source)| (0..4096).map(move |address| (address, access(funct3, address, 9, source))));
    for (address, raw) in words {
        for profile in [EMPTY, mixed, Profile::from_flags(!0, !0)] {
            let word = abi::read_system(profile.flags(), profile.custom, raw as u64);
            let crossed = (abi::read_refusal(word) == 2).then(|| (abi::reason(word) as char, address));
            let reason = profile.decode_illegal_instruction(raw).err().and_then(Refusal::reason);
            assert_eq!(reason.map(|reason| (reason.letter(), reason.address())), crossed, "{raw:#x}");
        }
    }
}

/// What each reason says, and the refusal with it.
#[test]
fn reasons_in_words() {
    let full = Profile::from_flags(!0, !0);
    for (profile, address, source, letter, text) in [
        (EMPTY, 0xF14, 1, 'a', "mhartid is read-only and would be written"),
        (EMPTY, 0xC00, 1, 'a', "cycle is read-only and would be written"),
        (full, 0xFFF, 1, 'a', "CSR 0xfff is read-only by its address and would be written"),
        (EMPTY, 0xC01, 0, 'b', "time is there only with Zicntr"),
        (EMPTY, 0xB03, 0, 'b', "mhpmcounter3 is there only with Zihpm"),
        (EMPTY, 0x33F, 0, 'b', "mhpmevent31 is there only with Zihpm"),
        (EMPTY, 0x747, 0, 'b', "mseccfg is there only with the TEE extension"),
        (EMPTY, 0x180, 0, 'b', "satp is there only with supervisor mode"),
        (EMPTY, 0x602, 0, 'b', "hedeleg is there only with the hypervisor extension"),
        (EMPTY, 0x14D, 0, 'b', "stimecmp is there only with Sstc"),
        (EMPTY, 0x008, 0, 'b', "vstart is there only with the vector extension"),
        (EMPTY, 0x015, 1, 'b', "seed is there only with the scalar crypto extension"),
        (EMPTY, 0x7C5, 0, 'b', "custom CSR 0x7c5 is there only with bit 5 of the custom mask"),
        (EMPTY, 0x7FF, 1, 'b', "custom CSR 0x7ff is there only with bit 63 of the custom mask"),
        (full, 0x7A1, 0, 'c', "no profile has tdata1 (0x7a1)"),
        (full, 0xFFF, 0, 'c', "no profile has a CSR at 0xfff"),
        (full, 0x001, 1, 'c', "no profile has a CSR at 0x001"),
    ] {
        let raw = access(2, address, 1, source);
        let reason = reason(profile, raw);
        assert_eq!((reason.letter(), reason.address(), reason.to_string().as_str()), (letter, address, text));
        assert_eq!(profile.decode_illegal_instruction(raw).unwrap_err().to_string(), format!("2 ({text})"));
    }
}

/// No reason: any other refusal, and the refusal 2 that comes from a number.
#[test]
fn no_reasons() {
    for number in 0..40 {
        let refusal = Refusal::from_number(number);
        assert_eq!((refusal.reason(), refusal.without_reason()), (None, refusal), "{number}");
    }
    assert_eq!(Refusal::from_number(2).to_string(), "2 (the CSR is not available, or is read-only and written)");
    assert_eq!(EMPTY.decode_illegal_instruction(0x73).unwrap_err().reason(), None);
    assert_eq!(EMPTY.decode_load(0x7003).unwrap_err().reason(), None);
    assert_eq!(EMPTY.decode_store(0x7023).unwrap_err().reason(), None);
}

/// The look-up at its edges, by the number that crosses.
#[test]
fn lookup_edges() {
    for (custom, address, answer) in [
        (0, 0, abi::NO_SUCH),
        (0, 0x300, abi::AVAILABLE),
        (0, 0x7C0, abi::GATE_OFF),
        (1, 0x7C0, abi::AVAILABLE),
        (!1, 0x7C0, abi::GATE_OFF),
        (1 << 63, 0x7FF, abi::AVAILABLE),
        (!(1 << 63), 0x7FF, abi::GATE_OFF),
        (!0, 0x7A1, abi::NO_SUCH),
        (!0, 0xC03, abi::NO_SUCH),
        (!0, 0xFFF, abi::NO_SUCH),
        (!0, 4096, abi::NO_SUCH),
        (!0, 4096 + 0x300, abi::NO_SUCH),
        (!0, 1 << 32 | 0x300, abi::NO_SUCH),
        (!0, u64::MAX, abi::NO_SUCH),
    ] {
        assert_eq!(abi::csr_lookup(0, custom, address), answer, "{address:#x} with mask {custom:#x}");
    }
    // flags that mean nothing are ignored
    assert_eq!(abi::csr_lookup(0xFF00, 0, 0xC00), abi::GATE_OFF);
    assert_eq!(abi::csr_lookup(0xFF01, 0, 0xC00), abi::AVAILABLE);
    assert_eq!(EMPTY.csr_lookup(0x300), CsrLookup::Found(Csr::Mstatus));
    assert_eq!(EMPTY.csr_lookup(usize::MAX), CsrLookup::NoSuch);
}

/// The look-up at every address under all flags: available where `csr` says so, gate off where the full profile has it, else no such.
#[test]
fn lookups() {
    for address in 0..=4096 {
        let some = abi::csr(0xFF, !0, address) == 1;
        for (flags, custom) in (0..256).flat_map(|flags| [(flags, 0), (flags, !0)]) {
            let here = abi::csr(flags, custom, address) == 1;
            let (answer, looked) = match Csr::at(address as usize) {
                Some(csr) if here => (abi::AVAILABLE, CsrLookup::Found(csr)),
                _ if some => (abi::GATE_OFF, CsrLookup::GateOff),
                _ => (abi::NO_SUCH, CsrLookup::NoSuch),
            };
            let profile = Profile::from_flags(flags, custom);
            assert_eq!(abi::csr_lookup(flags, custom, address), answer, "{address:#x} {profile:?}");
            assert_eq!(profile.csr_lookup(address as usize), looked, "{address:#x} {profile:?}");
        }
    }
}

#[test]
fn writings() {
    let (rd, rs1) = (X5, X6);
    // 6, before 7
    assert_eq!(EMPTY.encode(Csrrwi { csr: Csr::Mstatus, rd, uimm: 32 }), Err(Refusal::RegisterRange));
    assert_eq!(EMPTY.encode(Csrrwi { csr: Csr::Mstatus, rd, uimm: 256 }), Err(Refusal::RegisterRange));
    assert_eq!(EMPTY.encode(Csrrwi { csr: Csr::Mstatus, rd, uimm: usize::MAX }), Err(Refusal::RegisterRange));
    assert_eq!(EMPTY.encode(Csrrwi { csr: Csr::Custom(0x300), rd, uimm: 32 }), Err(Refusal::RegisterRange));
    // 7: no address of its own, or not available; before 8
    for csr in [
        Csr::Custom(0x300),
        Csr::Custom(0x7BF),
        Csr::Custom(0x800),
        Csr::Custom(usize::MAX),
        Csr::Pmpcfg(1),
        Csr::Pmpcfg(16),
        Csr::Pmpcfg(usize::MAX),
        Csr::Pmpaddr(64),
        Csr::Pmpaddr(usize::MAX),
        Csr::Mhpmcounter(29),
        Csr::Mhpmcounter(usize::MAX),
        Csr::Mhpmevent(29),
        Csr::Mhpmevent(usize::MAX),
    ] {
        assert_eq!(csr.idx(), Err(Refusal::NoSuchCsr), "{csr:?}");
        assert_eq!(Profile::from_flags(!0, !0).encode(Csrrw { csr, rd, rs1 }), Err(Refusal::NoSuchCsr), "{csr:?}");
    }
    for csr in [Csr::Tdata1, Csr::Dcsr, Csr::Dscratch1] {
        assert!(csr.idx().is_ok());
        assert_eq!(Profile::from_flags(!0, !0).encode(Csrrw { csr, rd, rs1 }), Err(Refusal::NoSuchCsr), "{csr:?}");
    }
    assert_eq!(EMPTY.encode(Csrrw { csr: Csr::Cycle, rd, rs1 }), Err(Refusal::NoSuchCsr));
    // 8
    assert_eq!(EMPTY.encode(Csrrw { csr: Csr::Mhartid, rd, rs1: X0 }), Err(Refusal::ReadOnlyCsr));
    assert_eq!(EMPTY.encode(Csrrs { csr: Csr::Mhartid, rd, rs1 }), Err(Refusal::ReadOnlyCsr));
    assert_eq!(EMPTY.encode(Csrrci { csr: Csr::Mhartid, rd, uimm: 1 }), Err(Refusal::ReadOnlyCsr));
    assert_eq!(EMPTY.encode(Csrrs { csr: Csr::Mhartid, rd, rs1: X0 }), Ok(0xF14022F3));
    // 9, before 10
    for instr in [
        Instr::Load(load(X5, X10, 0, Width::Byte8, false, true)),
        Instr::Load(load(X8, X8, 0, Width::Byte, true, false)),
        Instr::Load(load(X8, X8, 0, Width::Byte4, true, true)),
        Instr::Load(load(X7, X8, 0, Width::Byte4, true, false)),
        Instr::Load(load(X8, X16, 1, Width::Byte8, true, false)),
        Instr::Load(load(X5, X10, isize::MIN, Width::Byte8, false, true)),
        Instr::Store(store(X8, X8, 0, Width::Byte2, true)),
        Instr::Store(store(X8, X3, isize::MAX, Width::Byte4, true)),
    ] {
        assert_eq!(EMPTY.encode(instr), Err(Refusal::NoForm), "{instr:?}");
    }
    // 10
    for imm in [-2049, 2048, 1 << 15, 1 << 16, -(1 << 16), 1 << 32, 1 << 60, isize::MIN, isize::MAX] {
        assert_eq!(EMPTY.encode(load(X5, X10, imm, Width::Byte, false, false)), Err(Refusal::ImmediateRange), "{imm}");
        assert_eq!(EMPTY.encode(store(X5, X10, imm, Width::Byte, false)), Err(Refusal::ImmediateRange), "{imm}");
        assert_eq!(EMPTY.encode(load(X8, X10, imm, Width::Byte8, true, false)), Err(Refusal::ImmediateRange), "{imm}");
    }
    for imm in [-4, 2, 4 + 1, 128] {
        assert_eq!(EMPTY.encode(load(X8, X8, imm, Width::Byte4, true, false)), Err(Refusal::ImmediateRange), "{imm}");
    }
    for imm in [-8, 4, 256] {
        assert_eq!(EMPTY.encode(store(X8, X8, imm, Width::Byte8, true)), Err(Refusal::ImmediateRange), "{imm}");
    }
}

/// Writing a stack-based compressed form: 9, then 10.
#[test]
fn stack_writings() {
    for imm in [0, 4, 8, 1, -1, 512, isize::MAX] {
        // rd 0, an unsigned load
        for len in [Width::Byte4, Width::Byte8] {
            assert_eq!(EMPTY.encode(load(X0, X2, imm, len, true, false)), Err(Refusal::NoForm), "{imm}");
            assert_eq!(EMPTY.encode(load(X8, X2, imm, len, true, true)), Err(Refusal::NoForm), "{imm}");
        }
        // widths that have no such form
        for len in [Width::Byte, Width::Byte2] {
            assert_eq!(EMPTY.encode(load(X8, X2, imm, len, true, false)), Err(Refusal::NoForm), "{imm}");
            assert_eq!(EMPTY.encode(load(X8, X2, imm, len, true, true)), Err(Refusal::NoForm), "{imm}");
            assert_eq!(EMPTY.encode(store(X8, X2, imm, len, true)), Err(Refusal::NoForm), "{imm}");
        }
        // any other base out of x8 to x15
        for base in [X0, X1, X3, X7, X16, X31] {
            assert_eq!(EMPTY.encode(load(X8, base, imm, Width::Byte4, true, false)), Err(Refusal::NoForm), "{base:?} {imm}");
            assert_eq!(EMPTY.encode(store(X8, base, imm, Width::Byte8, true)), Err(Refusal::NoForm), "{base:?} {imm}");
        }
    }
    for (len, step) in [(Width::Byte4, 4), (Width::Byte8, 8)] {
        for imm in [-step, -1, 1, step / 2, step + 1, 63 * step + 1, 64 * step, 1 << 16, 1 << 32, isize::MIN, isize::MAX] {
            for register in [X1, X8, X15, X31] {
                assert_eq!(EMPTY.encode(load(register, X2, imm, len, true, false)), Err(Refusal::ImmediateRange), "{imm}");
                assert_eq!(EMPTY.encode(store(register, X2, imm, len, true)), Err(Refusal::ImmediateRange), "{imm}");
            }
            assert_eq!(EMPTY.encode(store(X0, X2, imm, len, true)), Err(Refusal::ImmediateRange), "{imm}");
        }
    }
}

/// Words that no typed instruction has: the kind, a code, and a register above 31.
#[test]
fn words() {
    let write = |word| abi::answer(abi::write(0, 0, word));
    for kind in [0, 9, 10, 0x21, 0xFF] {
        assert_eq!(write(kind), Err(Refusal::RecordKind), "{kind}");
    }
    // fence 3, operation 0 and 4, a CSR field above 4095 (with a register above 31 too), width 3 and 0, flags 4; something above the record
    for word in [0x0304, 0x0005, 0x0405, 0x1000_0306, 0x20_1000_0306, 0x0307, 0x0007, 0x04_0107, 0x02_0108, 0x0101, 1 << 63 | 4] {
        assert_eq!(write(word), Err(Refusal::RecordField), "{word:#x}");
    }
    // an address that has no register, alone and with a register above 31
    assert_eq!(write(0x0FFF_0306), Err(Refusal::NoSuchCsr));
    assert_eq!(write(0x20_0FFF_0306), Err(Refusal::RegisterRange));
    // rs1 32 of a fence, rd 32 of a CSR form, rs1 32 of a load; rd 32 of a stack-based load and rs2 32 of a stack-based store, each also
    // of a width that has no form
    for word in [0x20_0004, 0x20_0300_0105, 0x20_0000_0107, 0x02_2001_0407, 0x02_2001_0107, 0x20_0201_0808, 0x20_0201_0208] {
        assert_eq!(write(word), Err(Refusal::RegisterRange), "{word:#x}");
    }
    assert_eq!(write(1), Ok(0x10500073));
}

#[test]
fn logs() {
    assert_eq!(EMPTY.read_record(&[]), Err(Refusal::CutShort));
    for kind in [0, 0x0B, 0x21, 0xFF] {
        assert_eq!(EMPTY.read_record(&[kind; 12]), Err(Refusal::RecordKind), "{kind}");
    }
    assert_eq!(EMPTY.read_record(&[0x0A; 10]), Err(Refusal::CutShort));
    assert_eq!(EMPTY.read_record(&[0x0A; 11]), Err(Refusal::RecordField));
    // cycle needs zicntr
    let cycle = [5, 2, 0x00, 0x0C, 5, 0];
    assert_eq!(EMPTY.read_record(&cycle), Err(Refusal::RecordField));
    assert!(Profile::from_flags(1, 0).read_record(&cycle).is_ok());
    for hart in [8, 256, usize::MAX] {
        let record = Record::Profile { hart, profile: EMPTY };
        assert_eq!(EMPTY.write_record(&record, &mut [0; 16]), Err(Refusal::NoSuchHart));
        assert_eq!(EMPTY.write_record(&record, &mut []), Err(Refusal::NoSuchHart), "14 comes last");
    }
    let read_only = Record::Instr(Csrrw { csr: Csr::Mhartid, rd: X0, rs1: X0 }.into());
    let mut out = [0xEE; 16];
    assert_eq!(EMPTY.write_record(&read_only, &mut out), Err(Refusal::ReadOnlyCsr));
    assert_eq!(out, [0xEE; 16], "a refusal leaves the buffer");
}

/// The pairs of reading and number that a record may have, out of all bytes; any other pair is refused with 13.
#[test]
fn pairs() {
    let write = |reading: u64, number: u64, out: &mut [u8]| abi::answer(abi::write_refusal(reading, number, !0, out));
    for (reading, number) in (0..=255).flat_map(|reading| (0..=255).map(move |number| (reading, number))) {
        let is_pair = matches!((reading, number), (0, 1 | 2) | (1 | 2, 3..=5) | (0..=3, 15) | (3, 16));
        let record = [9, reading, number, 0xFF, 0xFF, 0xFF, 0xFF, 0xFF, 0xFF, 0xFF, 0xFF];
        let mut out = [0xEE; 11];
        let written = write(reading.into(), number.into(), &mut out);
        let read = EMPTY.read_record(&record).map(|(_, length)| length as u64);
        let (answer, bytes) = if is_pair { (Ok(11), record) } else { (Err(Refusal::RecordField), [0xEE; 11]) };
        assert_eq!((written, out, read), (answer, bytes, answer), "{reading} {number}");
        let short = if is_pair { Refusal::OutputShort } else { Refusal::RecordField };
        assert_eq!(write(reading.into(), number.into(), &mut out[..10]), Err(short), "14 comes last");
    }
    for (reading, number) in [(256, 1), (1 << 32, 15), (3 | 1 << 63, 16), (0, 256 + 15), (3, 1 << 40 | 16), (u64::MAX, u64::MAX)] {
        assert_eq!(write(reading, number, &mut [0; 16]), Err(Refusal::RecordField), "{reading} {number}");
    }
    let record = Record::Refused { reading: Reading::NoSuch, refusal: Refusal::UnequalLists, raw: 0 };
    assert_eq!(EMPTY.write_record(&record, &mut [0; 16]), Err(Refusal::RecordField));
}
