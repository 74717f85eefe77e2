//! The trap log: document 01's 35 bytes, walks and listings, records there and back, and comparing tables.

use matnosoru::{
    Bad, Csr, Difference, IllegalInst, Instr, Line, Listing, LoadInstr, Log, Profile, Reading, Reason, Record, Refusal, Register::*, State,
    StoreInstr, Text, Width, abi, first_difference,
};

const LOG: [u8; 35] = [
    0x0A, 0, 0, 0, 0, 0, 0, 0, 0, 0, 0, 0x05, 0x02, 0x14, 0x0F, 0x05, 0x00, 0x07, 0x04, 0x00, 0x05, 0x0A, 0x00, 0xF8, 0x09, 0x00, 0x02,
    0x73, 0x10, 0x40, 0xF1, 0, 0, 0, 0,
];

/// A log's listing as one text.
fn listing(log: &[u8]) -> String {
    Listing::new(log).map(|line| line.to_string()).collect()
}

#[test]
fn thirty_five() {
    assert_eq!(listing(&LOG), "at kind answer\n0 0A hart 0\n11 05 F14022F3\n17 07 80052283\n24 09 refused 2\nend 35\n");
    assert_eq!(listing(&[]), "at kind answer\nend 0\n");
    // no load has this width
    let mut bad = LOG;
    bad[18] = 3;
    assert_eq!(listing(&bad), "at kind answer\n0 0A hart 0\n11 05 F14022F3\nbad 13 at 17\n");
    assert_eq!(listing(&LOG[..34]).lines().last(), Some("bad 12 at 24"));
    assert_eq!(listing(&[1, 0]), "at kind answer\n0 01 10500073\nbad 11 at 1\n");
    // a compressed word has four digits
    assert_eq!(listing(&[7, 4, 1, 15, 15, 124, 0]), "at kind answer\n0 07 5FFC\nend 7\n");
}

/// A record of a word that was refused with 5 is accepted, also if the word is one that is read: an older log has such records.
#[test]
fn stack_forms() {
    const TRAPPED: [u8; 14] = [7, 4, 1, 10, 2, 0, 0, 8, 4, 1, 2, 0, 136, 0];
    let old = |reading, raw| Record::Refused { reading, refusal: Refusal::StackForm, raw };
    let records = [old(Reading::Load, 0x4502), old(Reading::Store, 0xC502)];
    let bytes = [[9, 1, 5, 0x02, 0x45, 0, 0, 0, 0, 0, 0], [9, 2, 5, 0x02, 0xC5, 0, 0, 0, 0, 0, 0]];
    for (record, bytes) in records.iter().zip(bytes) {
        let mut out = [0; Record::LONGEST];
        assert_eq!(Profile::EMPTY.read_record(&bytes), Ok((*record, 11)));
        assert_eq!(Profile::EMPTY.write_record(record, &mut out), Ok(11));
        assert_eq!(out, bytes);
    }
    let log = [&bytes.concat()[..], &TRAPPED].concat();
    assert_eq!(listing(&log), "at kind answer\n0 09 refused 5\n11 09 refused 5\n22 07 4502\n29 08 C502\nend 36\n");
    let walked: Vec<_> = Log::new(&log).map(|entry| entry.unwrap().record).collect();
    assert_eq!(walked[..2], records);
    // rd 0, a width, the sign, a step and a range that no such form has
    for bad in [[7, 4, 1, 0, 2, 0, 0], [7, 2, 1, 8, 2, 0, 0], [7, 8, 3, 8, 2, 0, 0], [8, 8, 1, 2, 8, 4, 0], [8, 4, 1, 2, 8, 0, 1]] {
        assert_eq!(Profile::EMPTY.read_record(&bad), Err(Refusal::RecordField), "{bad:?}");
        assert_eq!(listing(&bad), "at kind answer\nbad 13 at 0\n");
    }
}

/// The records of document 01's bytes, with their places, and what they leave behind.
#[test]
fn walk() {
    let mut log = Log::new(&LOG);
    let entries: Vec<_> = log.by_ref().map(Result::unwrap).collect();
    assert_eq!(entries.iter().map(|e| e.at).collect::<Vec<_>>(), [0, 11, 17, 24]);
    let csrrs = IllegalInst::Csrrs { csr: Csr::Mhartid, rd: X5, rs1: X0 };
    let lw = LoadInstr { rd: X5, rs1: X10, imm: -2048, len: Width::Byte4, is_compressed: false, is_unsigned: false };
    assert_eq!(
        entries.iter().map(|e| e.record).collect::<Vec<_>>(),
        [
            Record::Profile { hart: 0, profile: Profile::EMPTY },
            Record::Instr(csrrs.into()),
            Record::Instr(lw.into()),
            Record::Refused { reading: Reading::System, refusal: Refusal::InvalidCsrOp(None), raw: 0xF1401073 },
        ]
    );
    assert_eq!(entries[3].line.as_str(), "24 09 refused 2\n");
    assert_eq!((log.at(), log.rest(), log.state()), (35, &[][..], State::new()));
    assert!(log.next().is_none());
}

/// A profile record counts for its hart alone, from there on, and the walk says what is current.
#[test]
fn harts() {
    let set = |hart, flags| {
        let mut record = vec![0; Record::LONGEST];
        let profile = Profile::from_flags(flags, 1 << 63);
        assert_eq!(Profile::EMPTY.write_record(&Record::Profile { hart, profile }, &mut record), Ok(11));
        record
    };
    // cycle needs zicntr
    let cycle = [5, 2, 0x00, 0x0C, 5, 0];
    let text = [&set(7, 1)[..], &cycle, &set(0, 2), &cycle].concat();
    let mut log = Log::new(&text);
    assert_eq!((log.state().hart(), log.state().profile(7)), (0, Some(Profile::EMPTY)));
    assert!(log.next().unwrap().is_ok());
    assert_eq!((log.state().hart(), log.state().profile(7)), (7, Some(Profile::from_flags(1, 1 << 63))));
    assert!(log.next().unwrap().is_ok());
    assert!(log.next().unwrap().is_ok());
    let bad = log.next().unwrap().unwrap_err();
    assert_eq!((bad.at, bad.refusal), (28, Refusal::RecordField));
    assert_eq!(bad.to_string(), "bad record at 28: 13 (a field that no writer would write)");
    assert_eq!(bad.line().as_str(), "bad 13 at 28\n");
    // the bad record changes nothing and ends the walk
    assert!(log.next().is_none());
    assert_eq!((log.at(), log.rest()), (28, &cycle[..]));
    let state = log.state();
    assert_eq!(state.hart(), 0);
    assert_eq!([7, 0, 1, 8].map(|hart| state.profile(hart).map(|p| p.flags())), [Some(1), Some(2), Some(0), None]);
}

/// A log that comes in two parts, cut anywhere, is the whole log.
#[test]
fn parts() {
    let whole: Vec<_> = Log::new(&LOG).collect();
    for cut in 0..=LOG.len() {
        let mut first = Log::new(&LOG[..cut]);
        let mut entries: Vec<Result<_, Bad>> = first.by_ref().filter(Result::is_ok).collect();
        let second = [first.rest(), &LOG[cut..]].concat();
        entries.extend(Log::resumed(first.state(), first.at(), &second));
        assert_eq!(entries, whole, "cut at {cut}");
    }
}

/// The lines that need no record, at their longest.
#[test]
fn longest() {
    assert_eq!(Text::header().as_bytes(), b"at kind answer\n");
    assert_eq!(Text::end(0).as_str(), "end 0\n");
    assert_eq!(Text::end(u64::MAX).as_str(), "end 18446744073709551615\n");
    assert_eq!(Text::bad(Refusal::Other(255), u64::MAX).unwrap().as_str(), "bad 255 at 18446744073709551615\n");
    assert_eq!(Text::bad(Refusal::Other(0), 0), Err(Refusal::RecordField));
    assert_eq!(Text::bad(Refusal::Other(256), 0), Err(Refusal::RecordField));
    let mut refused = Log::resumed(State::new(), u64::MAX, &[9, 3, 16, 0, 0, 0, 0, 0, 0, 0, 0]);
    let line = refused.next().unwrap().unwrap().line;
    assert_eq!(line.as_str(), "18446744073709551615 09 refused 16\n");
    assert_eq!(line.as_bytes().len(), Text::LONGEST);
}

/// The calls on a state, with the refusals that the types leave out.
#[test]
fn states() {
    let mut start = [0xEE; abi::STATE_LENGTH];
    assert_eq!(abi::start(&mut start), 81);
    assert_eq!(start, [0; abi::STATE_LENGTH]);
    let refused = |number: u64| number << 32;
    for length in [0, 80, 82] {
        let (mut state, mut out) = (vec![0xEE; length], [0xEE; 64]);
        assert_eq!(abi::start(&mut state), refused(14));
        assert_eq!(abi::next(&mut state, &LOG), refused(14));
        assert_eq!(abi::next(&mut state, &[]), refused(14), "14 for the state comes first");
        assert_eq!(abi::next_line(&mut state, 0, &LOG, &mut out), refused(14));
        assert!(state.iter().chain(&out).all(|b| *b == 0xEE), "a refusal leaves the state and the buffer");
    }
    let mut nowhere = start;
    nowhere[80] = 8;
    assert_eq!(abi::next(&mut nowhere, &[]), refused(15), "15 comes before 12");
    assert_eq!(abi::next_line(&mut nowhere, 0, &LOG, &mut []), refused(15));
    for (log, number) in [(&[][..], 12), (&[0], 11), (&[0x0A, 8], 12), (&[0x0A; 11], 13)] {
        let (mut state, mut out) = (start, [0xEE; 64]);
        assert_eq!(abi::next(&mut state, log), refused(number), "{log:?}");
        assert_eq!(abi::next_line(&mut state, 0, log, &mut out), refused(number), "{log:?}");
        assert_eq!(abi::next_line(&mut state, 0, log, &mut []), refused(number), "14 for the line comes last");
        assert_eq!((state, out), (start, [0xEE; 64]));
    }
    // "0 0A hart 3\n" is twelve bytes
    let log = [0x0A, 3, 0xFF, 1, 2, 3, 4, 5, 6, 7, 8];
    let (mut state, mut out) = (start, [0xEE; 12]);
    assert_eq!(abi::next_line(&mut state, 0, &log, &mut out[..11]), refused(14));
    assert_eq!((state, out), (start, [0xEE; 12]));
    assert_eq!(abi::next_line(&mut state, 0, &log, &mut out), 11 + (12 << 16));
    assert_eq!(&out, b"0 0A hart 3\n");
    let mut after = start;
    after[30] = 0xFF;
    after[32..40].copy_from_slice(&log[3..]);
    after[80] = 3;
    assert_eq!(state, after);
    assert_eq!(abi::next(&mut start, &log), 11);
    assert_eq!(start, after);
    let mut state = State::default();
    assert_eq!(state.next(&[2, 0xFF]), Ok((Record::Instr(IllegalInst::Mret.into()), 1)));
    assert_eq!(state.next_line(5, &[3], &mut [0; Text::LONGEST]), Ok(Line { record: 1, text: 14 }));
    for short in [&mut [][..], &mut [0xEE; 5]] {
        assert_eq!([abi::header(short), abi::end_line(10, short), abi::bad_line(1, 1, short)], [refused(14); 3]);
        assert!(short.iter().all(|b| *b == 0xEE));
    }
}

#[test]
fn there_and_back() {
    let (rd, rs1, rs2) = (X9, X10, X11);
    let csr = Csr::Custom(0x7C5);
    let full = Profile::from_flags(0xFF, !0);
    let mut records: Vec<Record> = [
        IllegalInst::Wfi,
        IllegalInst::Mret,
        IllegalInst::Sret,
        IllegalInst::Sfencevma { rs1, rs2 },
        IllegalInst::Hfencevvma { rs1, rs2 },
        IllegalInst::Hfencegvma { rs1, rs2 },
        IllegalInst::Csrrw { csr, rd, rs1 },
        IllegalInst::Csrrs { csr, rd, rs1 },
        IllegalInst::Csrrc { csr, rd, rs1 },
        IllegalInst::Csrrwi { csr, rd, uimm: 31 },
        IllegalInst::Csrrsi { csr, rd, uimm: 0 },
        IllegalInst::Csrrci { csr, rd, uimm: 1 },
    ]
    .map(|i| Record::Instr(Instr::Illegal(i)))
    .into();
    for (rs1, len, imm, is_compressed, is_unsigned) in [
        (rs1, Width::Byte, -2048, false, true),
        (rs1, Width::Byte2, 2047, false, false),
        (rs1, Width::Byte4, 124, true, false),
        (rs1, Width::Byte8, 248, true, false),
        (X2, Width::Byte4, 252, true, false),
        (X2, Width::Byte8, 504, true, false),
    ] {
        records.push(Record::Instr(Instr::Load(LoadInstr { rd, rs1, imm, len, is_compressed, is_unsigned })));
        records.push(Record::Instr(Instr::Store(StoreInstr { rs2, rs1, imm, len, is_compressed })));
    }
    for (reading, refusals) in [
        (Reading::System, &[Refusal::Unknown, Refusal::InvalidCsrOp(None), Refusal::NoSuchHart][..]),
        (Reading::Load, &[Refusal::NotTheForm, Refusal::ReservedWidth, Refusal::StackForm, Refusal::NoSuchHart]),
        (Reading::Store, &[Refusal::NotTheForm, Refusal::ReservedWidth, Refusal::StackForm, Refusal::NoSuchHart]),
        (Reading::NoSuch, &[Refusal::NoSuchHart, Refusal::NoSuchReading]),
    ] {
        records.extend(refusals.iter().map(|r| Record::Refused { reading, refusal: *r, raw: 0x0123_4567_89AB_CDEF }));
    }
    for hart in 0..8 {
        records.push(Record::Profile { hart, profile: Profile::from_flags(1 << hart, 0xFEDC_BA98_7654_3210) });
    }
    for record in &records {
        let mut out = [0xEE; 16];
        let n = full.write_record(record, &mut out).unwrap();
        assert!((1..=Record::LONGEST).contains(&n));
        assert!(out[n..].iter().all(|b| *b == 0xEE), "bytes after the record are kept");
        assert_eq!(full.read_record(&out), Ok((*record, n)));
        assert_eq!(full.read_record(&out[..n]), Ok((*record, n)));
        assert_eq!(full.read_record(&out[..n - 1]), Err(Refusal::CutShort));
        let mut short = vec![0xEE; n - 1];
        assert_eq!(full.write_record(record, &mut short), Err(Refusal::OutputShort));
        assert!(short.iter().all(|b| *b == 0xEE), "a refusal leaves the buffer");
    }
}

/// A refusal's reason is in no record: it is written as it is without, read back without, and had again from the raw word.
#[test]
fn no_reason() {
    let refusal = Profile::EMPTY.decode_illegal_instruction(0xF1401073).unwrap_err();
    assert_eq!(refusal.reason(), Some(Reason::ReadOnly { address: 0xF14 }));
    let mut out = [0; Record::LONGEST];
    let refused = |refusal| Record::Refused { reading: Reading::System, refusal, raw: 0xF1401073 };
    assert_eq!(Profile::EMPTY.write_record(&refused(refusal), &mut out), Ok(11));
    assert_eq!(out, LOG[24..]);
    let Ok((read, 11)) = Profile::EMPTY.read_record(&out) else { panic!("{out:?}") };
    assert_eq!(read, refused(refusal.without_reason()));
    let Record::Refused { raw, .. } = read else { panic!("{read:?}") };
    assert_eq!(Profile::EMPTY.decode_illegal_instruction(raw as usize), Err(refusal));
}

#[test]
fn lines() {
    let mut out = [0xEE; 12];
    // "0 0A hart 0\n" is twelve bytes
    assert_eq!(Profile::EMPTY.line(0, &LOG, &mut out), Ok(Line { record: 11, text: 12 }));
    assert_eq!(&out, b"0 0A hart 0\n");
    let mut out = [0xEE; 11];
    assert_eq!(Profile::EMPTY.line(0, &LOG, &mut out), Err(Refusal::OutputShort));
    assert_eq!(out, [0xEE; 11]);
    let mut out = [0; 64];
    let Line { text, .. } = Profile::EMPTY.line(u64::MAX, &[2], &mut out).unwrap();
    assert_eq!(&out[..text], b"18446744073709551615 02 30200073\n");
}

#[test]
fn tables() {
    let a = [Profile::EMPTY; 8];
    assert_eq!(first_difference(&a, &a), None);
    let mut b = a;
    b[7].custom = 1 << 63;
    assert_eq!(first_difference(&a, &b), Some(Difference { hart: 7, address: 0x7FF }));
    b[3].has_s_extension = true;
    assert_eq!(first_difference(&a, &b), Some(Difference { hart: 3, address: 0x100 }));
    b[0].has_v_extension = true;
    assert_eq!(first_difference(&b, &a), Some(Difference { hart: 0, address: 8 }));
    assert_eq!(abi::answer(abi::tables_differ(&[0; 79], &[0; 80])), Err(Refusal::OutputShort));
    assert_eq!(abi::answer(abi::tables_differ(&[0; 80], &[])), Err(Refusal::OutputShort));
    assert_eq!(abi::tables_differ(&[0; 80], &[0; 80]), abi::SAME);
}
