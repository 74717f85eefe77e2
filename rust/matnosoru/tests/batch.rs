//! Many trapped words in one call: each slot is that of the single call, the refusals, slots read back, and one hart's slots in two
//! nights that differ in everything else.

use std::collections::BTreeMap;

use matnosoru::{Instr, Listing, Profile, Reading, Record, Refusal, abi};

type Slot = [u8; abi::SLOT_LENGTH];

/// Eight profiles that differ in flags and in custom CSRs.
fn profiles() -> [Profile; 8] {
    [(0x00, 0), (0xFF, !0), (0x01, 1), (0x08, 1 << 63), (0xA5, 0x0123_4567_89AB_CDEF), (0x5A, 0xFEDC_BA98_7654_3210), (0x00, !0), (0xFF, 0)]
        .map(|(flags, custom)| Profile::from_flags(flags, custom))
}

/// Numbers with no pattern that matters here, the same in every run: xorshift.
struct Random(u64);

impl Random {
    fn next(&mut self) -> u64 {
        self.0 ^= self.0 << 13;
        self.0 ^= self.0 >> 7;
        self.0 ^= self.0 << 17;
        self.0
    }

    fn below(&mut self, n: u64) -> u64 {
        self.next() % n
    }
}

/// A word: WFI, MRET, SRET; a fence; any SYSTEM word, or one of a custom CSR; a load; a store; a compressed one, register-based or
/// stack-based; rubbish. One in four has rubbish above bit 31.
fn word(random: &mut Random) -> u64 {
    let (sort, pick, any) = (random.below(8), random.below(4) as usize, random.next());
    let word = match sort {
        0 => [0x1050_0073, 0x3020_0073, 0x1020_0073, 0x1050_0073][pick],
        1 => [0x1200_0073, 0x2200_0073, 0x6200_0073, 0x1200_0073][pick] | any & 0x01FF_8000,
        2 => 0x73 | any & 0xFFFF_FF80,
        3 => 0x7C00_0073 | any & 0x03FF_FF80,
        4 => 0x03 | any & 0xFFFF_FF80,
        5 => 0x23 | any & 0xFFFF_FF80,
        6 => [0x4000, 0xC000, 0x4002, 0xC002][pick] | any & 0x3FFC,
        _ => any,
    };
    if random.below(4) == 0 { word | random.next() << 32 } else { word }
}

/// A trapped word with its hart and its reading. One hart in sixteen and one reading in sixteen is any byte.
fn trap(random: &mut Random) -> (u64, u8, u8) {
    let word = word(random);
    let mut below = |end| if random.below(16) == 0 { random.next() as u8 } else { random.below(end) as u8 };
    (word, below(8), below(3))
}

/// The record of the single call: read by itself under the hart's profile; or document 02's for no such hart, then for no such reading.
fn single(profiles: &[Profile; 8], raw: u64, hart: u8, reading: u8) -> Slot {
    let mut slot = [0; abi::SLOT_LENGTH];
    let mut refused = |reading, number| {
        slot[..3].copy_from_slice(&[9, reading, number]);
        slot[3..11].copy_from_slice(&raw.to_le_bytes());
        slot
    };
    let Some(profile) = profiles.get(hart as usize) else { return refused(reading.min(3), 15) };
    let (name, read) = match reading {
        0 => (Reading::System, profile.decode_illegal_instruction(raw as usize).map(Instr::from)),
        1 => (Reading::Load, profile.decode_load(raw as usize).map(Instr::from)),
        2 => (Reading::Store, profile.decode_store(raw as usize).map(Instr::from)),
        _ => return refused(3, 16),
    };
    let record = read.map_or_else(|refusal| Record::Refused { reading: name, refusal, raw }, Record::Instr);
    profile.write_record(&record, &mut slot).unwrap();
    slot
}

/// What a slot has: the kind; of a fence which one; of a load or a store whether it is compressed and its base x2; of a refusal its
/// reading and its number.
fn sort(slot: &Slot) -> [u8; 3] {
    match *slot {
        [4, which, ..] => [4, which, 0],
        [kind @ 7, _, flags, _, base, ..] | [kind @ 8, _, flags, base, ..] => [kind, flags & 1, flags & u8::from(base == 2)],
        [9, reading, number, ..] => [9, reading, number],
        [kind, ..] => [kind, 0, 0],
    }
}

/// Every sort of slot that there is.
fn sorts() -> Vec<[u8; 3]> {
    let mut sorts = vec![[1, 0, 0], [2, 0, 0], [3, 0, 0], [4, 0, 0], [4, 1, 0], [4, 2, 0], [5, 0, 0], [6, 0, 0]];
    for kind in [7, 8] {
        sorts.extend([[kind, 0, 0], [kind, 1, 0], [kind, 1, 1]]);
    }
    for (reading, numbers) in [(0, &[1, 2, 15][..]), (1, &[3, 4, 5, 15]), (2, &[3, 4, 5, 15]), (3, &[15, 16])] {
        sorts.extend(numbers.iter().map(|number| [9, reading, *number]));
    }
    sorts
}

/// What the batch is handed, but for the output.
struct Night {
    profiles: [Profile; 8],
    words: Vec<u64>,
    harts: Vec<u8>,
    readings: Vec<u8>,
}

impl Night {
    fn new(profiles: [Profile; 8], traps: &[(u64, u8, u8)]) -> Night {
        let words = traps.iter().map(|trap| trap.0).collect();
        let harts = traps.iter().map(|trap| trap.1).collect();
        let readings = traps.iter().map(|trap| trap.2).collect();
        Night { profiles, words, harts, readings }
    }

    fn random(count: usize, random: &mut Random) -> Night {
        Night::new(profiles(), &(0..count).map(|_| trap(random)).collect::<Vec<_>>())
    }

    /// Another night with the same harts. One hart has the same words, readings and profile; every other hart has the flags and custom
    /// CSRs that it lacked, and other words and readings.
    fn but_for(&self, own: u8, random: &mut Random) -> Night {
        let mut profiles = self.profiles.map(|profile| Profile::from_flags(!profile.flags(), !profile.custom));
        profiles[own as usize] = self.profiles[own as usize];
        let traps = self.harts.iter().enumerate().map(|(i, &hart)| match trap(random) {
            _ if hart == own => (self.words[i], hart, self.readings[i]),
            (word, _, reading) => (word, hart, reading),
        });
        Night::new(profiles, &traps.collect::<Vec<_>>())
    }

    /// The slots, in an output that was full of a byte and has room for some more, which stay.
    fn slots(&self, before: u8, more: usize) -> Vec<Slot> {
        let count = self.words.len();
        let mut out = vec![[before; abi::SLOT_LENGTH]; count + more];
        assert_eq!(Profile::batch(&self.profiles, &self.words, &self.harts, &self.readings, &mut out), Ok(count));
        assert_eq!(out.split_off(count), vec![[before; abi::SLOT_LENGTH]; more]);
        out
    }
}

/// A million words over eight harts: each slot is the single call's, every sort of slot and every byte as a hart and as a reading comes
/// up, and the slots after the last stay.
#[test]
fn night() {
    const COUNT: usize = 1_000_000;
    let night = Night::random(COUNT, &mut Random(2));
    let mut counts = BTreeMap::new();
    for (i, slot) in night.slots(0xEE, 2).iter().enumerate() {
        let (raw, hart, reading) = (night.words[i], night.harts[i], night.readings[i]);
        assert_eq!(*slot, single(&night.profiles, raw, hart, reading), "{raw:#x}, hart {hart}, reading {reading}");
        *counts.entry(sort(slot)).or_insert(0) += 1;
    }
    assert!(counts.keys().eq(&sorts()), "{counts:?}");
    let spoilt: usize = counts.iter().filter(|(sort, _)| sort[2] > 14).map(|(_, count)| count).sum();
    assert!((COUNT / 20..COUNT / 4).contains(&spoilt), "{spoilt}");
    for byte in 0..=255 {
        assert!(night.harts.contains(&byte) && night.readings.contains(&byte), "{byte}");
    }
}

/// Two nights with the same harts: the slots of a hart whose words, readings and profile agree are the same, byte for byte, whatever else
/// differs. Each other hart's profile, read by mistake for some of these words, would make the nights differ; and the other harts' slots do.
#[test]
fn apart() {
    const COUNT: usize = 100_000;
    let mut random = Random(5);
    let one = Night::random(COUNT, &mut random);
    let slots = one.slots(0x00, 0);
    for hart in 0..8 {
        let other = one.but_for(hart, &mut random);
        let others = other.slots(0xEE, 3);
        let (mut telling, mut changed) = ([0; 8], 0);
        for i in 0..COUNT {
            if one.harts[i] != hart {
                changed += usize::from(slots[i] != others[i]);
                continue;
            }
            assert_eq!(slots[i], others[i], "hart {hart}, entry {i}");
            for wrong in 0..8 {
                let [first, second] = [&one, &other].map(|night| single(&night.profiles, one.words[i], wrong, one.readings[i]));
                telling[wrong as usize] += usize::from(first != second);
            }
        }
        let shows = |wrong: usize| telling[wrong] > COUNT / 1000 || wrong == hart as usize && telling[wrong] == 0;
        assert!((0..8).all(shows) && changed > COUNT / 2, "hart {hart}: {telling:?}, {changed} changed");
    }
}

/// The bytes that were in the output and its length change no slot.
#[test]
fn old_bytes_gone() {
    let night = Night::random(10_000, &mut Random(6));
    let slots = night.slots(0x00, 0);
    for (before, more) in [(0x00, 1), (0xEE, 0), (0xFF, 100), (0x09, 7)] {
        assert_eq!(slots, night.slots(before, more), "{before:#x}, {more} more");
    }
}

/// A slot of a hart above 7 is made of its word and its reading alone: at another place, of another such hart, under other profiles it is
/// the same.
#[test]
fn above_7() {
    let mut random = Random(7);
    let traps: Vec<(u64, u8, u8)> = (8..=255).map(|hart| (word(&mut random), hart, random.below(5) as u8)).collect();
    let others: Vec<(u64, u8, u8)> = traps.iter().rev().map(|&(word, hart, reading)| (word, 8 + (255 - hart), reading)).collect();
    let (one, other) = (Night::new(profiles(), &traps), Night::new([Profile::EMPTY; 8], &others));
    let mut slots = other.slots(0xEE, 1);
    slots.reverse();
    assert_eq!(one.slots(0x00, 0), slots);
}

/// The answer for lists of zeros and an output of these lengths, where the first bytes of the output are as many of these slots.
fn answer(table: usize, [words, harts, readings]: [usize; 3], room: usize, slots: &[Slot]) -> u64 {
    let mut out = vec![0xEE; room];
    let answer = abi::batch(&vec![0; table], &vec![0; words], &vec![0; harts], &vec![0; readings], &mut out);
    let written = slots.as_flattened();
    assert!(out.starts_with(written) && out[written.len()..].iter().all(|byte| *byte == 0xEE), "{words} words, room {room}");
    answer
}

/// 17, then 14 for the table, then 14 for the output. Each leaves every byte.
#[test]
fn refusals() {
    for lists in [[2, 2, 1], [2, 1, 2], [1, 2, 2], [0, 2, 2], [2, 0, 0], [1, 2, 3], [0, 0, 1]] {
        for (table, room) in [(80, 100), (80, 0), (79, 100), (0, 0)] {
            assert_eq!(answer(table, lists, room, &[]), 17 << 32, "{lists:?}, table {table}, room {room}");
        }
    }
    for table in [0, 79, 81] {
        for (count, room) in [(2, 24), (2, 0), (0, 0), (0, 24)] {
            assert_eq!(answer(table, [count; 3], room, &[]), 14 << 32, "table {table}, {count} words, room {room}");
        }
    }
    for (count, room) in [(1, 0), (1, 11), (2, 12), (2, 23), (1000, 11_999)] {
        assert_eq!(answer(80, [count; 3], room, &[]), 14 << 32, "{count} words, room {room}");
    }
}

/// The answer depends on the lengths alone: with any contents it is that of zeros. A refusal leaves every byte of the output.
#[test]
fn lengths_alone() {
    let mut random = Random(8);
    for i in 0..64 {
        let lists @ [words, harts, readings] = [i % 4, i / 4 % 4, i / 16];
        for (table, room) in [80, 79].into_iter().flat_map(|table| [0, 11, 12, 23, 24, 35, 36, 37].map(|room| (table, room))) {
            let zeros = abi::batch(&vec![0; table], &vec![0; words], &vec![0; harts], &vec![0; readings], &mut vec![0; room]);
            let mut bytes = |n: usize| (0..n).map(|_| random.next() as u8).collect::<Vec<u8>>();
            let (table, harts, readings, before) = (bytes(table), bytes(harts), bytes(readings), bytes(room));
            let words: Vec<u64> = (0..words).map(|_| random.next()).collect();
            let mut out = before.clone();
            assert_eq!(abi::batch(&table, &words, &harts, &readings, &mut out), zeros, "{lists:?}, table {}, room {room}", table.len());
            assert!(zeros >> 32 == 0 || out == before, "{lists:?}, table {}, room {room}", table.len());
        }
    }
}

/// The bytes after the last slot stay, where they are fewer than a slot too; with no words these are all.
#[test]
fn bytes_after() {
    const UNKNOWN: Slot = [9, 0, 1, 0, 0, 0, 0, 0, 0, 0, 0, 0];
    for (count, room) in [(0, 0), (0, 24), (1, 12), (1, 13), (2, 24), (2, 35), (2, 100)] {
        assert_eq!(answer(80, [count; 3], room, &vec![UNKNOWN; count]), count as u64, "{count} words, room {room}");
    }
}

/// The same by the types.
#[test]
fn slots_stay() {
    let mut out = [[0xEE; abi::SLOT_LENGTH]; 2];
    assert_eq!(Profile::batch(&profiles(), &[0; 3], &[0; 3], &[0; 2], &mut out), Err(Refusal::UnequalLists));
    assert_eq!(Profile::batch(&profiles(), &[0; 3], &[0; 3], &[0; 3], &mut out), Err(Refusal::OutputShort));
    assert_eq!(Profile::batch(&profiles(), &[], &[], &[], &mut out), Ok(0));
    assert_eq!(out, [[0xEE; abi::SLOT_LENGTH]; 2]);
    assert_eq!(Profile::batch(&profiles(), &[], &[], &[], &mut []), Ok(0));
}

/// A slot is read back and listed as the record that it begins with.
#[test]
fn read_back() {
    let (words, harts, readings) = ([0xF140_22F3, 0x4502, 0xF140_1073, !0, 0x73, 7], [0, 0, 0, 8, 255, 0], [0, 1, 0, 2, 255, 3]);
    let mut out = [[0xEE; abi::SLOT_LENGTH]; 6];
    assert_eq!(Profile::batch(&profiles(), &words, &harts, &readings, &mut out), Ok(6));
    let read = out.map(|slot| Profile::EMPTY.read_record(&slot).unwrap());
    let refused = |reading, refusal, raw| Record::Refused { reading, refusal, raw };
    assert_eq!(
        read[3..].iter().map(|(record, _)| *record).collect::<Vec<_>>(),
        [
            refused(Reading::Store, Refusal::NoSuchHart, !0),
            refused(Reading::NoSuch, Refusal::NoSuchHart, 0x73),
            refused(Reading::NoSuch, Refusal::NoSuchReading, 7),
        ]
    );
    let log: Vec<u8> = out.iter().zip(read).flat_map(|(slot, (_, length))| slot[..length].to_vec()).collect();
    let listing: String = Listing::new(&log).map(|line| line.to_string()).collect();
    let lines = "0 05 F14022F3\n6 07 4502\n13 09 refused 2\n24 09 refused 15\n35 09 refused 15\n46 09 refused 16\n";
    assert_eq!(listing, format!("at kind answer\n{lines}end 57\n"));
}
