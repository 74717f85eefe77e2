//! The numbers of include/matnosoru.h are this crate's, and the archive is of this version.

use matnosoru::{Reason, Record, Refusal, Text, VERSION, abi, version};

const HEADER: &str = include_str!("../../../include/matnosoru.h");

/// What the header says that a name is.
fn named(name: &str) -> u64 {
    let mut values = HEADER.lines().filter_map(|line| line.strip_prefix("#define ")?.strip_prefix(name)?.strip_prefix(' '));
    let value = values.next().unwrap_or_else(|| panic!("no {name}"));
    assert_eq!(values.next(), None, "{name} once");
    value.parse().unwrap()
}

#[test]
fn versions() {
    assert_eq!(version(), VERSION);
    assert_eq!(named("MATNOSORU_VERSION"), VERSION);
}

#[test]
fn lengths() {
    assert_eq!(named("MATNOSORU_LONGEST_RECORD"), Record::LONGEST as u64);
    assert_eq!(named("MATNOSORU_LONGEST_LINE"), Text::LONGEST as u64);
    assert_eq!(named("MATNOSORU_SLOT_LENGTH"), abi::SLOT_LENGTH as u64);
    assert_eq!(named("MATNOSORU_TABLE_LENGTH"), abi::TABLE_LENGTH as u64);
    assert_eq!(named("MATNOSORU_STATE_LENGTH"), abi::STATE_LENGTH as u64);
    assert_eq!(named("MATNOSORU_SAME"), abi::SAME);
}

/// What the header says that the names of a list are, in its order.
fn listed(list: &str) -> Vec<&'static str> {
    let names = HEADER.split_once(&format!("enum {list} {{")).unwrap().1.split_once("};").unwrap().0;
    names.lines().filter_map(|line| line.split_once(" = ")?.1.split([',', ' ']).next()).collect()
}

/// The header's list of refusals counts up from 1, and this crate has a name for each and for no more.
#[test]
fn refusals() {
    let numbers: Vec<u64> = listed("matnosoru_refusal").into_iter().map(|number| number.parse().unwrap()).collect();
    let count = numbers.len() as u64;
    assert!(numbers.into_iter().eq(1..=count));
    for number in 0..=256 {
        assert_eq!(matches!(Refusal::from_number(number), Refusal::Other(_)), !(1..=count).contains(&number), "{number}");
    }
}

/// The header's letters are those of the reasons here, in its order.
#[test]
fn reasons() {
    let address = 0;
    let reasons = [Reason::ReadOnly { address }, Reason::GateOff { address }, Reason::NoSuch { address }];
    assert_eq!(listed("matnosoru_reason"), reasons.map(|reason| format!("{:?}", reason.letter())));
}

#[test]
fn lookups() {
    assert_eq!(listed("matnosoru_lookup"), [abi::AVAILABLE, abi::GATE_OFF, abi::NO_SUCH].map(|answer| answer.to_string()));
}

/// A reading's refusal and its reason are taken only from a word of kind 9.
#[test]
fn words() {
    assert_eq!((abi::read_refusal(0x05_0109), abi::reason(0x05_0109)), (5, 0));
    for (raw, number, letter) in [(0xF140_1073, 2, b'a'), (0xC000_2573, 2, b'b'), (0x7A10_20F3, 2, b'c'), (0x73, 1, 0)] {
        let word = abi::read_system(0, 0, raw);
        assert_eq!(word, u64::from_le_bytes([9, 0, number, letter, 0, 0, 0, 0]), "{raw:#x}");
        assert_eq!((abi::read_refusal(word), abi::reason(word)), (number as u64, letter), "{raw:#x}");
    }
    // rs2 and rs1 of a fence are where the letter and the number would be
    let fence = abi::read_system(0, 0, 0x12B5_0073);
    assert_eq!((fence, abi::read_refusal(fence), abi::reason(fence)), (0x0B0A_0004, 0, 0));
    assert_eq!((abi::read_refusal(0x6105_0108), abi::reason(0x6105_0108)), (0, 0));
}
