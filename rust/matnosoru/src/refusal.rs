//! The numbers that say no.

use core::fmt;

use crate::{Reason, abi};

/// Why a call says no. Each has its number in the log and in the library's answers. A later library may have further ones.
#[derive(Clone, Copy, Debug, PartialEq, Eq, Hash)]
#[non_exhaustive]
pub enum Refusal {
    /// 1, SYSTEM reading: no such instruction. Miralis's `IllegalInst::Unknown`.
    Unknown,
    /// 2, SYSTEM reading: the CSR is not available, or is read-only and written. Miralis's `IllegalInst::InvalidCsrOp`.
    ///
    /// A reading says which ([`Refusal::reason`]). A log keeps the number alone, so what comes from a log has no reason; nor has
    /// what is made from a number. The two are not equal: [`Refusal::without_reason`] makes them so.
    InvalidCsrOp(Option<Reason>),
    /// 3, load or store reading: not such a form.
    NotTheForm,
    /// 4, load or store reading: load funct3 7, store funct3 4 to 7.
    ReservedWidth,
    /// 5, load or store reading: low two bits 10, and no stack-based form of this reading.
    StackForm,
    /// 6, writing: a register or an immediate of a CSR form above 31.
    RegisterRange,
    /// 7: the CSR has no address of its own, or is not available.
    NoSuchCsr,
    /// 8, writing: the CSR operation writes a read-only CSR.
    ReadOnlyCsr,
    /// 9, writing: no form with this width, sign, compression and registers.
    NoForm,
    /// 10, writing: the immediate is outside the form's range or step.
    ImmediateRange,
    /// 11, log: the kind byte is not one of those listed.
    RecordKind,
    /// 12, log: empty, or the body is cut short.
    CutShort,
    /// 13, log: a field that no writer would write under this profile.
    RecordField,
    /// 14: the output buffer is shorter than what is to be written.
    OutputShort,
    /// 15: the hart is above 7.
    NoSuchHart,
    /// 16: the reading is above 2. Only a record has this number.
    NoSuchReading,
    /// 17: the lists are not of one length.
    UnequalLists,
    /// A number that this crate has no name for, as a later library may give.
    Other(u64),
}

impl Refusal {
    /// The refusal's number.
    #[must_use]
    pub const fn number(self) -> u64 {
        match self {
            Refusal::Unknown => 1,
            Refusal::InvalidCsrOp(_) => 2,
            Refusal::NotTheForm => 3,
            Refusal::ReservedWidth => 4,
            Refusal::StackForm => 5,
            Refusal::RegisterRange => 6,
            Refusal::NoSuchCsr => 7,
            Refusal::ReadOnlyCsr => 8,
            Refusal::NoForm => 9,
            Refusal::ImmediateRange => 10,
            Refusal::RecordKind => 11,
            Refusal::CutShort => 12,
            Refusal::RecordField => 13,
            Refusal::OutputShort => 14,
            Refusal::NoSuchHart => 15,
            Refusal::NoSuchReading => 16,
            Refusal::UnequalLists => 17,
            Refusal::Other(number) => number,
        }
    }

    /// The refusals by their numbers, from 0 up. (With a match in place of this table, a reading has more to do even where it accepts.)
    const NAMED: [Refusal; 18] = [
        Refusal::Other(0),
        Refusal::Unknown,
        Refusal::InvalidCsrOp(None),
        Refusal::NotTheForm,
        Refusal::ReservedWidth,
        Refusal::StackForm,
        Refusal::RegisterRange,
        Refusal::NoSuchCsr,
        Refusal::ReadOnlyCsr,
        Refusal::NoForm,
        Refusal::ImmediateRange,
        Refusal::RecordKind,
        Refusal::CutShort,
        Refusal::RecordField,
        Refusal::OutputShort,
        Refusal::NoSuchHart,
        Refusal::NoSuchReading,
        Refusal::UnequalLists,
    ];

    /// The refusal with this number, and with no reason.
    #[inline]
    #[must_use]
    pub const fn from_number(number: u64) -> Refusal {
        match Refusal::NAMED.split_at_checked(number as usize) {
            Some((_, [named, ..])) => *named,
            _ => Refusal::Other(number),
        }
    }

    /// The refusal of a word of kind 9 that the SYSTEM reading of a raw word answered.
    #[inline]
    pub(crate) const fn of_system(word: u64, raw: usize) -> Refusal {
        match abi::read_refusal(word) {
            2 => Refusal::InvalidCsrOp(Reason::from_word(word, raw)),
            number => Refusal::from_number(number),
        }
    }

    /// Why the CSR was refused, where this is the refusal 2 of a reading.
    #[must_use]
    pub const fn reason(self) -> Option<Reason> {
        match self {
            Refusal::InvalidCsrOp(reason) => reason,
            _ => None,
        }
    }

    /// The same refusal with no reason, as a log keeps it.
    #[must_use]
    pub const fn without_reason(self) -> Refusal {
        match self {
            Refusal::InvalidCsrOp(_) => Refusal::InvalidCsrOp(None),
            refusal => refusal,
        }
    }
}

impl fmt::Display for Refusal {
    fn fmt(&self, f: &mut fmt::Formatter<'_>) -> fmt::Result {
        let why = match self {
            Refusal::Unknown => "no such SYSTEM instruction",
            Refusal::InvalidCsrOp(Some(reason)) => return write!(f, "{} ({reason})", self.number()),
            Refusal::InvalidCsrOp(None) => "the CSR is not available, or is read-only and written",
            Refusal::NotTheForm => "not a word of this reading",
            Refusal::ReservedWidth => "a reserved width",
            Refusal::StackForm => "low two bits 10, and no stack-based form of this reading",
            Refusal::RegisterRange => "a register or immediate above 31",
            Refusal::NoSuchCsr => "no such CSR, or not available",
            Refusal::ReadOnlyCsr => "the CSR is read-only",
            Refusal::NoForm => "no form with these operands",
            Refusal::ImmediateRange => "the immediate is outside the form's range or step",
            Refusal::RecordKind => "no such kind of record",
            Refusal::CutShort => "the log is cut short",
            Refusal::RecordField => "a field that no writer would write",
            Refusal::OutputShort => "the output is too short",
            Refusal::NoSuchHart => "no such hart",
            Refusal::NoSuchReading => "no such reading",
            Refusal::UnequalLists => "the lists are not of one length",
            Refusal::Other(_) => "refused",
        };
        write!(f, "{} ({why})", self.number())
    }
}

impl core::error::Error for Refusal {}
