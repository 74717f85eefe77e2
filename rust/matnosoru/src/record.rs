//! Records of the trap log, as bytes and back.

use crate::{Instr, Profile, Refusal, abi};

/// Which reading refused a word. A later log may name others.
#[derive(Clone, Copy, Debug, PartialEq, Eq, Hash)]
#[non_exhaustive]
#[repr(u8)]
pub enum Reading {
    /// [`Profile::decode_illegal_instruction`]
    System = 0,
    /// [`Profile::decode_load`]
    Load = 1,
    /// [`Profile::decode_store`]
    Store = 2,
    /// None of these: [`Profile::batch`] was given a number that is no reading
    NoSuch = 3,
}

/// A record of the trap log. A later log may have further kinds.
#[derive(Clone, Copy, Debug, PartialEq, Eq, Hash)]
#[non_exhaustive]
pub enum Record {
    /// Kinds 01 to 08: a word that was read as this instruction
    Instr(Instr),
    /// Kind 09: a word that was refused
    Refused {
        /// The reading that refused it
        reading: Reading,
        /// Its refusal; a log keeps no reason
        refusal: Refusal,
        /// The raw word
        raw: u64,
    },
    /// Kind 0A: from here on this hart has this profile, and is the current one
    Profile {
        /// The hart, 0 to 7
        hart: usize,
        /// Its profile
        profile: Profile,
    },
}

/// How long a record and its line of the listing are.
#[derive(Clone, Copy, Debug, PartialEq, Eq, Hash)]
pub struct Line {
    /// The record's length
    pub record: usize,
    /// The line's length, its line feed included
    pub text: usize,
}

impl Line {
    /// The two lengths of an answer, or its refusal.
    pub(crate) fn from_answer(answer: u64) -> Result<Line, Refusal> {
        let lengths = abi::answer(answer)?;
        Ok(Line { record: (lengths & 0xFFFF) as usize, text: (lengths >> 16) as usize })
    }
}

impl Record {
    /// The most bytes that a record has.
    pub const LONGEST: usize = 11;

    /// The first record of a log, where the library has accepted it with this length.
    pub(crate) fn accepted(log: &[u8], length: usize) -> Result<Record, Refusal> {
        let mut bytes = [0; abi::SLOT_LENGTH];
        for (byte, value) in bytes.iter_mut().zip(log.iter().take(length)) {
            *byte = *value;
        }
        // The library accepts no record that has no such reading, so the refusal here does not come up.
        Record::from_bytes(bytes).ok_or(Refusal::RecordField)
    }

    /// The record in a slot whose bytes the library has accepted.
    fn from_bytes(bytes: [u8; abi::SLOT_LENGTH]) -> Option<Record> {
        let [kind, b1, b2, b3, b4, b5, b6, b7, b8, b9, b10, _] = bytes;
        match kind {
            1..=8 => Instr::from_word(u64::from_le_bytes([kind, b1, b2, b3, b4, b5, b6, 0])).map(Record::Instr),
            9 => {
                let reading = match b1 {
                    0 => Reading::System,
                    1 => Reading::Load,
                    2 => Reading::Store,
                    3 => Reading::NoSuch,
                    _ => return None,
                };
                let raw = u64::from_le_bytes([b3, b4, b5, b6, b7, b8, b9, b10]);
                Some(Record::Refused { reading, refusal: Refusal::from_number(b2 as u64), raw })
            }
            10 => {
                let custom = u64::from_le_bytes([b3, b4, b5, b6, b7, b8, b9, b10]);
                Some(Record::Profile { hart: b1 as usize, profile: Profile::from_flags(b2 as u64, custom) })
            }
            _ => None,
        }
    }
}

impl Profile {
    /// Writes a record to the start of `out` and answers its length, 1 to [`Record::LONGEST`].
    ///
    /// Refusals: an instruction's own (6 to 10); 13 for a pair of reading and refusal that no record has; 15 for a hart above 7;
    /// and last 14, for an `out` shorter than the record. `out` is then unchanged.
    pub fn write_record(&self, record: &Record, out: &mut [u8]) -> Result<usize, Refusal> {
        let length = match *record {
            Record::Instr(instr) => abi::write_instruction(self.flags(), self.custom, instr.to_word(), out),
            Record::Refused { reading, refusal, raw } => abi::write_refusal(reading as u64, refusal.number(), raw, out),
            Record::Profile { hart, profile } => abi::write_profile(hart as u64, profile.flags(), profile.custom, out),
        };
        abi::answer(length).map(|n| n as usize)
    }

    /// Reads the first record of a log under this profile: the record and its length. What follows is not looked at. (A whole log is
    /// walked by [`Log`](crate::Log).)
    ///
    /// Refusals: 12 for an empty log, 11, 12, 13.
    pub fn read_record(&self, log: &[u8]) -> Result<(Record, usize), Refusal> {
        let length = abi::answer(abi::read_record(self.flags(), self.custom, log))? as usize;
        Record::accepted(log, length).map(|record| (record, length))
    }

    /// Writes the listing's line for the first record of `log`, whose place in the whole log is `at`, to the start of `out`.
    ///
    /// Refusals: the record's, and last 14 for an `out` shorter than the line. `out` is then unchanged.
    pub fn line(&self, at: u64, log: &[u8], out: &mut [u8]) -> Result<Line, Refusal> {
        Line::from_answer(abi::line(self.flags(), self.custom, at, log, out))
    }
}
