//! Writes the list of answers that crates/vectors replays, most of them the Rust's own: `vectors FILE`.
//!
//! An entry is 32 bytes: the reading (0 SYSTEM, 1 load, 2 store); the flags of the hart's profile; its mask in eight bytes, low first;
//! the raw word in eight bytes, low first; the log record of the answer in a slot of twelve, zeros after it; the hart; the letter of the
//! refusal 2's reason, or a zero.
//!
//! The first entries are document 01's own words, with the answers typed in by hand as the document has them. Where the Rust's answer
//! is the wanted one too, it is held to the typed one. Then come the Rust's own answers. After them come words with low two bits
//! 10, which the Rust does not read: their answers are the fields that the words are made of. Then come words that are refused with 2,
//! the letters of the reasons typed in by hand. All these have the harts 0 to 7 in turn. Then each hart has each gate open alone and
//! closed alone, so that its neighbour's profile would change the answer. The last entries have no such hart or no such reading, and
//! document 02's records for that.
//!
//! The Rust gives no reasons. A letter follows from the word and from the Rust's look-up (`compare::reasons`), and a typed one is held to
//! that.

#[cfg(not(have_miralis))]
fn main() {
    eprintln!("vectors: there was no Miralis text when this was built (MIRALIS_SRC names its folder), so no list is written");
    std::process::exit(1);
}

#[cfg(have_miralis)]
fn main() {
    let mut names = std::env::args_os().skip(1);
    let (Some(file), None) = (names.next(), names.next()) else {
        eprintln!("usage: vectors FILE");
        std::process::exit(2);
    };
    let list = run::list();
    if let Err(e) = std::fs::write(&file, list.bytes()) {
        eprintln!("{}: {e}", file.display());
        std::process::exit(1);
    }
    println!("{} entries", list.len());
}

#[cfg(have_miralis)]
mod run {
    use std::collections::HashSet;

    use compare::Reading::{self, Load, Store, System};
    use compare::random::Random;
    use compare::reasons::Reasons;
    use compare::sides::{Checked, Original, Side};
    use compare::{Profile, domain, letter, refusal};

    /// The list so far. An input that `push` adds is in it once, and the harts 0 to 7 take turns.
    #[derive(Default)]
    pub struct List {
        entries: Vec<[u8; 32]>,
        seen: HashSet<[u8; 18]>,
    }

    impl List {
        pub fn len(&self) -> usize {
            self.entries.len()
        }

        pub fn bytes(&self) -> Vec<u8> {
            self.entries.concat()
        }

        fn push(&mut self, reading: Reading, p: Profile, raw: u64, answer: u64) {
            let entry = entry(reading as u8, p, raw, answer, (self.len() % 8) as u8);
            let mut input = [0; 18];
            input.copy_from_slice(&entry[..18]);
            if self.seen.insert(input) {
                self.entries.push(entry);
            }
        }

        /// What the document says of a word.
        fn typed(&mut self, reading: Reading, raw: u64, bytes: &[u8]) {
            let mut answer = [0; 8];
            answer[..bytes.len()].copy_from_slice(bytes);
            self.told(reading, Profile::EMPTY, raw, u64::from_le_bytes(answer));
        }

        /// An answer that is not taken from the Rust, but held to the Rust's or to the wanted one.
        fn told(&mut self, reading: Reading, p: Profile, raw: u64, answer: u64) {
            let other = if domain::contains(reading, raw) { ask(reading, p, raw) } else { domain::wanted(reading, raw) };
            assert_eq!(other, answer, "{} {raw:#X}", reading.name());
            self.push(reading, p, raw, answer);
        }

        /// What the Rust says of it.
        fn asked(&mut self, reading: Reading, p: Profile, raw: u64) {
            self.push(reading, p, raw, ask(reading, p, raw));
        }
    }

    fn entry(reading: u8, p: Profile, raw: u64, answer: u64, hart: u8) -> [u8; 32] {
        let mut entry = [0; 32];
        entry[0] = reading;
        entry[1] = p.flags as u8;
        entry[2..10].copy_from_slice(&p.custom.to_le_bytes());
        entry[10..18].copy_from_slice(&raw.to_le_bytes());
        entry[18..26].copy_from_slice(&answer.to_le_bytes());
        if refusal(answer).is_some() {
            // in the log the raw word follows the number
            entry[21..29].copy_from_slice(&raw.to_le_bytes());
        }
        entry[30] = hart;
        entry[31] = letter(answer);
        entry
    }

    /// The Rust's answer, which is the same with and without overflow checks, with the letter that it leaves out.
    fn ask(reading: Reading, p: Profile, raw: u64) -> u64 {
        assert!(domain::contains(reading, raw), "{raw:#X} is outside the domain");
        let answer = Original::new(p).read(reading, raw);
        assert_eq!(answer, Checked::new(p).read(reading, raw), "{raw:#X}");
        assert_ne!(answer, u64::MAX, "{raw:#X}: the register read is not the one of its address");
        Reasons::get().with_letter(answer, raw)
    }

    fn document(list: &mut List) {
        // thirteen words at the edges
        list.typed(System, 0xF140_22F3, &[0x05, 2, 0x14, 0x0F, 5, 0]);
        list.typed(System, 0xF140_1073, &[0x09, 0, 2, b'a']);
        list.typed(System, 0xF140_A2F3, &[0x09, 0, 2, b'a']);
        list.typed(System, 0x3A03_1073, &[0x05, 1, 0xA0, 0x03, 0, 6]);
        list.typed(System, 0x3A13_1073, &[0x09, 0, 2, b'c']);
        list.typed(System, 0x3F03_1073, &[0x09, 0, 2, b'c']);
        list.typed(System, 0x3EF3_1073, &[0x05, 1, 0xEF, 0x03, 0, 6]);
        list.typed(System, 0x12B5_0073, &[0x04, 0, 10, 11]);
        list.typed(System, 0x12B5_00F3, &[0x09, 0, 1]);
        list.typed(System, 0x1_1050_0073, &[0x09, 0, 1]);
        list.typed(System, 0x1_F140_22F3, &[0x05, 2, 0x14, 0x0F, 5, 0]);
        list.typed(Load, 0x8005_2283, &[0x07, 4, 0, 5, 10, 0x00, 0xF8]);
        list.typed(Load, 0x8005_7283, &[0x09, 1, 4]);
        // further ones
        list.typed(Store, 0xFEB1_3C23, &[0x08, 8, 0, 2, 11, 0xF8, 0xFF]);
        list.typed(Load, 0x5FFC, &[0x07, 4, 1, 15, 15, 124, 0]);
        list.typed(Load, 0x7D64, &[0x07, 8, 1, 9, 10, 248, 0]);
        list.typed(Load, 0x2000, &[0x09, 1, 3]);
        list.typed(Load, 0, &[0x09, 1, 3]);
        // whole words
        list.typed(System, 0x1050_0073, &[0x01]);
        list.typed(System, 0x3020_0073, &[0x02]);
        list.typed(System, 0x1020_0073, &[0x03]);
        // easy ways to get it wrong: a read of a read-only CSR, a write of one with rs1 field 0, pmpcfg 2 and 14, the odd one between,
        // bits above 31, funct3 4
        list.typed(System, 0xF110_2573, &[0x05, 2, 0x11, 0x0F, 10, 0]);
        list.typed(System, 0xF110_7573, &[0x06, 3, 0x11, 0x0F, 10, 0]);
        list.typed(System, 0xF110_1573, &[0x09, 0, 2, b'a']);
        list.typed(System, 0xF110_5073, &[0x09, 0, 2, b'a']);
        list.typed(System, 0x3A23_1073, &[0x05, 1, 0xA2, 0x03, 0, 6]);
        list.typed(System, 0x3AE3_1073, &[0x05, 1, 0xAE, 0x03, 0, 6]);
        list.typed(System, 0x3AF3_1073, &[0x09, 0, 2, b'c']);
        list.typed(System, 0x8000_0000_1050_0073, &[0x09, 0, 1]);
        list.typed(System, 0x1_3020_0073, &[0x09, 0, 1]);
        list.typed(System, 0x1_12B5_0073, &[0x09, 0, 1]);
        list.typed(System, 0x3000_4073, &[0x09, 0, 1]);
        list.typed(System, 0xF140_42F3, &[0x09, 0, 1]);
        // each refusal of the readings where the Rust has no answer or guesses
        list.typed(Load, 0x4002, &[0x09, 1, 5]);
        list.typed(Store, 0x4502, &[0x09, 2, 5]);
        list.typed(Load, 0x4501, &[0x09, 1, 3]);
        list.typed(Store, 0xC501, &[0x09, 2, 3]);
        list.typed(Load, 0x8000, &[0x09, 1, 3]);
        list.typed(Load, 0xA000, &[0x09, 1, 3]);
        list.typed(Load, 0xDFFC, &[0x09, 1, 3]);
        list.typed(Store, 0x5FFC, &[0x09, 2, 3]);
        list.typed(Store, 0, &[0x09, 2, 3]);
        list.typed(Load, 0x8005_2287, &[0x09, 1, 3]);
        list.typed(Load, 0xFEB1_3C23, &[0x09, 1, 3]);
        list.typed(Load, 0xF140_22F3, &[0x09, 1, 3]);
        list.typed(Load, 0xFFFF_FFFF, &[0x09, 1, 3]);
        list.typed(Store, 0xFEB1_2C27, &[0x09, 2, 3]);
        list.typed(Store, 0x8005_2283, &[0x09, 2, 3]);
        list.typed(Store, 0xFFFF_FFFF, &[0x09, 2, 3]);
        list.typed(Store, 0xFEB1_4C23, &[0x09, 2, 4]);
        list.typed(Store, 0xFEB1_7C23, &[0x09, 2, 4]);
    }

    /// A word in CSR form.
    fn access(funct3: u64, address: u64, rd: u64, source: u64) -> u64 {
        address << 20 | source << 15 | funct3 << 12 | rd << 7 | 0x73
    }

    const OPS: [u64; 6] = [1, 2, 3, 5, 6, 7];
    /// The edges of a field of five bits: each bit alone, none, all.
    const FIVE: [u64; 7] = [0, 1, 2, 4, 8, 16, 31];
    /// The edges of an immediate of twelve.
    const TWELVE: [u64; 17] = [0, 1, 2, 4, 8, 16, 32, 64, 128, 256, 512, 1024, 2047, 2048, 4095, 4094, 0x555];
    const MIXED: [Profile; 6] = [
        Profile { flags: 0xA5, custom: 0x0123_4567_89AB_CDEF },
        Profile { flags: 0x5A, custom: 0xFEDC_BA98_7654_3210 },
        Profile { flags: 0x0F, custom: 1 },
        Profile { flags: 0xF0, custom: 1 << 63 },
        Profile { flags: 0xFF, custom: 0 },
        Profile { flags: 0x00, custom: u64::MAX },
    ];

    fn system(list: &mut List, random: &mut Random) {
        // every address, with the most and the least: written, and read only
        for p in [Profile::FULL, Profile::EMPTY] {
            for address in 0..4096 {
                list.asked(System, p, access(1, address, address % 32, 0));
                list.asked(System, p, access(2, address, (address + 7) % 32, 0));
            }
        }
        // every address that some profile has, and those that have a register and are never available, under each flag alone
        let full = Original::new(Profile::FULL);
        let never = [0x7A1, 0x7A2, 0x7A3, 0x7A8, 0x7B0, 0x7B1, 0x7B2, 0x7B3];
        let known: Vec<u64> = (0..4096).filter(|a| full.decode_csr(*a).is_some()).chain(never).collect();
        for bit in 0..8 {
            for &address in &known {
                list.asked(System, Profile { flags: 1 << bit, custom: 0 }, access(6, address, 5, 0));
            }
        }
        // each custom register alone, and all but it
        for k in 0..64 {
            for custom in [1 << k, !(1 << k)] {
                list.asked(System, Profile { flags: 0, custom }, access(3, 0x7C0 + k, 1, 2));
            }
        }
        // the edges of the fields
        for address in [0x340, 0x3A2, 0x7C0, 0xF14, 0xC00, 0x015] {
            for funct3 in OPS {
                for rd in FIVE {
                    for source in FIVE {
                        list.asked(System, Profile::FULL, access(funct3, address, rd, source));
                    }
                }
            }
        }
        // the fences, and what is one bit from one
        for upper in [0x12, 0x22, 0x62] {
            let fence = |rs1: u64, rs2: u64| upper << 24 | rs2 << 20 | rs1 << 15 | 0x73;
            for rs1 in FIVE {
                for rs2 in FIVE {
                    list.asked(System, Profile::EMPTY, fence(rs1, rs2));
                }
            }
            for bit in 0..64 {
                list.asked(System, Profile::EMPTY, fence(10, 11) ^ 1 << bit);
                list.asked(System, Profile::FULL, fence(0, 0) ^ 1 << bit);
            }
        }
        // what is one bit from the three whole words, from a read and from a write
        for raw in [0x1050_0073, 0x3020_0073, 0x1020_0073, 0xF140_22F3, 0x3A23_1073] {
            for bit in 0..64 {
                list.asked(System, Profile::EMPTY, raw ^ 1 << bit);
                list.asked(System, Profile::FULL, raw ^ 1 << bit);
            }
            for low in 0..128 {
                list.asked(System, Profile::FULL, raw & !0x7F | low);
            }
        }
        // rubbish above bit 31
        for _ in 0..600 {
            let above = random.next() << 32;
            let (op, source) = (random.of(&OPS), random.of(&[0, 0, 1, 31]));
            let (address, rd) = (random.of(&known), random.below(32));
            list.asked(System, Profile::FULL, above | access(op, address, rd, source));
            list.asked(System, Profile::FULL, above | random.of(&[0x12B5_0073, 0x1050_0073, 0x3020_0073, 0x1020_0073]));
        }
        // samples under mixed profiles
        for p in MIXED {
            for _ in 0..300 {
                let (op, address) = (random.of(&OPS), random.of(&known));
                let (rd, source) = (random.below(32), random.below(4) / 3 * random.below(32));
                list.asked(System, p, access(op, address, rd, source));
            }
        }
        for _ in 0..1000 {
            let p = Profile { flags: random.below(256), custom: random.next() };
            let (op, rd) = (random.of(&OPS), random.below(32));
            list.asked(System, p, access(op, random.of(&known), rd, 0));
            let custom = 0x7B0 + random.below(0x60);
            list.asked(System, p, access(op, custom, rd, random.below(32)));
            list.asked(System, p, random.next() & 0xFFFF_FF80 | 0x73);
        }
        for _ in 0..200 {
            list.asked(System, Profile::FULL, random.next());
            list.asked(System, Profile::FULL, random.next() & !0x707F | 0x4073);
        }
    }

    /// A load's or a store's word of 32 bits.
    fn word(reading: Reading, funct3: u64, imm: u64, base: u64, other: u64) -> u64 {
        match reading {
            Store => imm >> 5 << 25 | other << 20 | base << 15 | funct3 << 12 | (imm & 31) << 7 | 0x23,
            _ => imm << 20 | base << 15 | funct3 << 12 | other << 7 | 0x03,
        }
    }

    fn memory(list: &mut List, random: &mut Random) {
        for (reading, widths, halves) in [(Load, 7, [2, 3]), (Store, 4, [6, 7])] {
            for funct3 in 0..widths {
                for imm in TWELVE {
                    list.asked(reading, Profile::EMPTY, word(reading, funct3, imm, 2, 11));
                    list.asked(reading, Profile::FULL, word(reading, funct3, imm, 31, 0));
                }
                for base in FIVE {
                    for other in FIVE {
                        list.asked(reading, Profile::EMPTY, word(reading, funct3, 0xA5A, base, other));
                    }
                }
                for _ in 0..100 {
                    let raw = word(reading, funct3, random.below(4096), random.below(32), random.below(32));
                    list.asked(reading, Profile::EMPTY, raw);
                    list.asked(reading, MIXED[random.below(6) as usize], raw | random.next() << 32);
                }
            }
            // every immediate of twelve bits, so every code of either sign
            for imm in 0..4096 {
                list.asked(reading, Profile::EMPTY, word(reading, 2, imm, 9, 21));
            }
            // every immediate and every pair of registers, not all together; then rubbish above bit 15
            for funct3 in halves {
                let half = |imm: u64, base: u64, other: u64| funct3 << 13 | imm >> 2 << 10 | base << 7 | (imm & 3) << 5 | other << 2;
                for imm in 0..32 {
                    for (base, other) in [(0, 0), (7, 7), (2, 5), (5, 2)] {
                        list.asked(reading, Profile::EMPTY, half(imm, base, other));
                    }
                }
                for base in 0..8 {
                    for other in 0..8 {
                        list.asked(reading, Profile::EMPTY, half(0, base, other));
                        list.asked(reading, Profile::FULL, half(31, base, other));
                    }
                }
                for _ in 0..100 {
                    let raw = half(random.below(32), random.below(8), random.below(8));
                    list.asked(reading, Profile::EMPTY, raw | random.next() << 16);
                }
            }
        }
    }

    /// A stack-based compressed form, as Volume I draws it.
    struct StackForm {
        reading: Reading,
        funct3: u64,
        bytes: u64,
        /// The lowest of the five bits of the word that hold the register.
        register: u64,
        /// The bits of the word that hold the immediate's, from that of one step up.
        places: [u64; 6],
    }

    const STACK_FORMS: [StackForm; 4] = [
        StackForm { reading: Load, funct3: 2, bytes: 4, register: 7, places: [4, 5, 6, 12, 2, 3] },
        StackForm { reading: Load, funct3: 3, bytes: 8, register: 7, places: [5, 6, 12, 2, 3, 4] },
        StackForm { reading: Store, funct3: 6, bytes: 4, register: 2, places: [9, 10, 11, 12, 7, 8] },
        StackForm { reading: Store, funct3: 7, bytes: 8, register: 2, places: [10, 11, 12, 7, 8, 9] },
    ];

    impl StackForm {
        /// Adds a word with rubbish above bit 15 (or none), in both readings. The immediate is in steps.
        fn add(&self, list: &mut List, p: Profile, above: u64, register: u64, steps: u64) {
            let imm: u64 = self.places.iter().enumerate().map(|(k, place)| (steps >> k & 1) << place).sum();
            let raw = above << 16 | self.funct3 << 13 | register << self.register | imm | 2;
            let [low, high, ..] = (steps * self.bytes).to_le_bytes();
            let bytes = match self.reading {
                // no load has rd 0
                Load if register == 0 => Load.refused(5).to_le_bytes(),
                Load => [0x07, self.bytes as u8, 1, register as u8, 2, low, high, 0],
                _ => [0x08, self.bytes as u8, 1, 2, register as u8, low, high, 0],
            };
            list.told(self.reading, p, raw, u64::from_le_bytes(bytes));
            let other = if self.reading == Load { Store } else { Load };
            list.told(other, p, raw, other.refused(5));
        }
    }

    /// The words with low two bits 10: every immediate and every register of the forms, not all together; rubbish above bit 15; the
    /// other values of funct3, with no bit between it and the low two, each alone and all.
    fn stack(list: &mut List, random: &mut Random) {
        for form in STACK_FORMS {
            for register in [0, 1, 8, 15, 31] {
                for steps in 0..64 {
                    form.add(list, Profile::EMPTY, 0, register, steps);
                }
            }
            for register in 0..32 {
                form.add(list, Profile::FULL, 0, register, 0);
                form.add(list, Profile::FULL, 0, register, 63);
            }
            for _ in 0..100 {
                let p = MIXED[random.below(6) as usize];
                form.add(list, p, random.next(), random.below(32), random.below(64));
            }
        }
        for funct3 in [0, 1, 4, 5] {
            for middle in (2..13).map(|bit| 1 << bit).chain([0, 0x1FFC]) {
                for reading in [Load, Store] {
                    let raw = funct3 << 13 | middle | 2;
                    list.told(reading, Profile::EMPTY, raw, reading.refused(5));
                    list.told(reading, Profile::FULL, raw | random.next() << 16, reading.refused(5));
                }
            }
        }
    }

    /// A word for each flag, whose register waits for it: cycle, mhpmcounter3, mseccfg, satp, hedeleg, stimecmp, vstart, seed.
    const BEHIND: [u64; 8] = [0xC000_20F3, 0xB030_20F3, 0x7470_20F3, 0x1800_20F3, 0x6020_20F3, 0x14D0_20F3, 0x0080_20F3, 0x0150_10F3];

    /// Words that are refused with 2, each with its reason's letter.
    fn reasons(list: &mut List) {
        let mut refused = |p: Profile, letter: u8, words: &[u64]| {
            let answer = u64::from_le_bytes([0x09, 0, 2, letter, 0, 0, 0, 0]);
            words.iter().for_each(|raw| list.told(System, p, *raw, answer));
        };
        for p in [Profile::EMPTY, Profile::FULL] {
            // writes to 0xFFF and 0xC03, where there is no register: csrrw of x1; csrrwi of 0; csrrsi and csrrci of 1
            refused(p, b'a', &[0xFFF0_9073, 0xFFF0_50F3, 0xFFF0_E0F3, 0xFFF0_F0F3]);
            refused(p, b'a', &[0xC030_9073, 0xC030_50F3, 0xC030_E0F3, 0xC030_F0F3]);
            // reads of the same: csrrs of x0; csrrsi and csrrci of 0
            refused(p, b'c', &[0xFFF0_20F3, 0xFFF0_60F3, 0xFFF0_70F3]);
            refused(p, b'c', &[0xC030_20F3, 0xC030_60F3, 0xC030_70F3]);
            // tdata1 read and written, and bits above 31
            refused(p, b'c', &[0x7A10_20F3, 0x7A10_90F3, 0xDEAD_BEEF_7A10_20F3]);
            refused(p, b'a', &[0x1_FFF0_9073, 0x8000_0000_F140_1073]);
        }
        // 0x7C0 and 0x7FF, the first and the last custom CSR
        refused(Profile::EMPTY, b'b', &[0x7C00_20F3, 0x7FF0_20F3, 0x7C00_90F3, 0xDEAD_BEEF_7FF0_20F3]);
        let all_but = |flag: u64, bit: u64| Profile { flags: 0xFF & !flag, custom: !bit };
        refused(all_but(0, 1), b'b', &[0x7C00_20F3]);
        refused(all_but(0, 1 << 63), b'b', &[0x7FF0_20F3]);
        for (bit, raw) in BEHIND.into_iter().enumerate() {
            refused(Profile::EMPTY, b'b', &[raw]);
            refused(all_but(1 << bit, 0), b'b', &[raw]);
        }
        // cycle and hgeip written, whether or not they are available
        for p in [Profile::EMPTY, all_but(1, 0), all_but(1 << 4, 0), Profile::FULL] {
            refused(p, b'a', &[0xC000_9073, 0xE120_9073]);
        }
    }

    /// Each hart with each gate open alone, where the word is read, and closed alone, where it is not: the eight flags, the first and the
    /// last custom CSR.
    fn gates(list: &mut List) {
        let flags = BEHIND.into_iter().enumerate().map(|(bit, raw)| (raw, Profile { flags: 1 << bit, custom: 0 }));
        let custom = [(0x7C00_20F3, 0), (0x7FF0_20F3, 63)].map(|(raw, bit)| (raw, Profile { flags: 0, custom: 1 << bit }));
        for (raw, open) in flags.chain(custom) {
            let closed = Profile { flags: 0xFF ^ open.flags, custom: !open.custom };
            let (read, refused) = (ask(System, open, raw), ask(System, closed, raw));
            assert!(refusal(read).is_none() && refusal(refused) == Some(2), "{raw:#X}");
            for hart in 0..8 {
                list.entries.push(entry(System as u8, open, raw, read, hart));
                list.entries.push(entry(System as u8, closed, raw, refused, hart));
            }
        }
    }

    /// No such hart, with each reading and with none, and no such reading, whatever the word is.
    fn spoilt(list: &mut List) {
        for raw in [0, u64::MAX, 0x1050_0073, 0xF140_22F3, 0x8005_2283, 0xFEB1_3C23, 0x4502, 0xDEAD_BEEF_0000_E002] {
            let mut add = |hart, reading, [named, number]: [u8; 2]| {
                let answer = u64::from_le_bytes([0x09, named, number, 0, 0, 0, 0, 0]);
                list.entries.push(entry(reading, Profile::FULL, raw, answer, hart));
            };
            for hart in [8, 9, 15, 128, 255] {
                for (reading, named) in [(0, 0), (1, 1), (2, 2), (3, 3), (255, 3)] {
                    add(hart, reading, [named, 15]);
                }
            }
            for hart in 0..8 {
                for reading in [3, 4, 255] {
                    add(hart, reading, [3, 16]);
                }
            }
        }
    }

    pub fn list() -> List {
        let mut list = List::default();
        let mut random = Random::new(7);
        document(&mut list);
        system(&mut list, &mut random);
        memory(&mut list, &mut random);
        stack(&mut list, &mut random);
        reasons(&mut list);
        gates(&mut list);
        spoilt(&mut list);
        list
    }
}
