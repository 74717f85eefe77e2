//! The inputs on which the Rust's answer is the wanted one, and the classes of all others (docs/DIFFERENCES.md has one row for each).

use crate::Reading;

/// Whether the Rust's answer to this word is the wanted one: every word in the SYSTEM reading; in the other two, the words that are
/// such a load or store.
#[inline]
pub const fn contains(reading: Reading, raw: u64) -> bool {
    let (low, half3, word3) = (raw & 3, raw >> 13 & 7, raw >> 12 & 7);
    match reading {
        Reading::System => true,
        Reading::Load => (low == 0 && (half3 == 2 || half3 == 3)) || (raw & 0x7F == 0x03 && word3 != 7),
        Reading::Store => (low == 0 && (half3 == 6 || half3 == 7)) || (raw & 0x7F == 0x23 && word3 < 4),
    }
}

/// The answer to a stack-based compressed load or store, by Volume I's bits; `None` for any other word. No load has rd 0.
#[inline]
pub const fn stack_form(reading: Reading, raw: u64) -> Option<u64> {
    // bits high:low of the word, as bits from `to` up
    const fn bits(raw: u64, high: u32, low: u32, to: u32) -> u64 {
        (raw >> low & ((2 << (high - low)) - 1)) << to
    }
    if raw & 3 != 2 {
        return None;
    }
    let (rd, rs2) = (bits(raw, 11, 7, 0), bits(raw, 6, 2, 0));
    // c.lwsp, c.ldsp, c.swsp, c.sdsp
    let (kind, width, first, second, imm) = match (reading, bits(raw, 15, 13, 0)) {
        (Reading::Load, 2) if rd != 0 => (7, 4, rd, 2, bits(raw, 12, 12, 5) | bits(raw, 6, 4, 2) | bits(raw, 3, 2, 6)),
        (Reading::Load, 3) if rd != 0 => (7, 8, rd, 2, bits(raw, 12, 12, 5) | bits(raw, 6, 5, 3) | bits(raw, 4, 2, 6)),
        (Reading::Store, 6) => (8, 4, 2, rs2, bits(raw, 12, 9, 2) | bits(raw, 8, 7, 6)),
        (Reading::Store, 7) => (8, 8, 2, rs2, bits(raw, 12, 10, 3) | bits(raw, 9, 7, 6)),
        _ => return None,
    };
    Some(u64::from_le_bytes([kind, width, 1, first as u8, second as u8, imm as u8, (imm >> 8) as u8, 0]))
}

/// The answer that is wanted for a word outside the domain: a stack-based form, or document 01's number.
#[inline]
pub const fn wanted(reading: Reading, raw: u64) -> u64 {
    if let Some(answer) = stack_form(reading, raw) {
        return answer;
    }
    let opcode = if matches!(reading, Reading::Load) { 0x03 } else { 0x23 };
    reading.refused(match raw & 3 {
        2 => 5,
        // the form, of a reserved width
        _ if raw & 0x7F == opcode => 4,
        _ => 3,
    })
}

/// A class of words outside the domain.
pub struct Class {
    pub reading: Reading,
    pub name: &'static str,
    /// The word of it that docs/DIFFERENCES.md has.
    pub example: u64,
    /// The number that all of it is refused with; `None` for the stack-based forms, which are read.
    pub refusal: Option<u8>,
    of: fn(low: u64, opcode: u64, half3: u64, word3: u64) -> bool,
}

impl Class {
    /// Whether the class has this word.
    pub fn has(&self, raw: u64) -> bool {
        self.refusal.is_none() == stack_form(self.reading, raw).is_some() && (self.of)(raw & 3, raw & 0x7F, raw >> 13 & 7, raw >> 12 & 7)
    }
}

/// All words outside the domain; each word is in exactly one class of its reading.
pub const CLASSES: &[Class] = {
    use Reading::{Load, Store};
    &[
        Class { reading: Load, name: "low two bits 10, C.LWSP, C.LDSP", example: 0x4502, refusal: None, of: |l, _, _, _| l == 2 },
        Class { reading: Load, name: "low two bits 10, any other", example: 0x4002, refusal: Some(5), of: |l, _, _, _| l == 2 },
        Class { reading: Load, name: "low two bits 01", example: 0x4501, refusal: Some(3), of: |l, _, _, _| l == 1 },
        Class { reading: Load, name: "00, funct3 0", example: 0x0, refusal: Some(3), of: |l, _, h, _| l == 0 && h == 0 },
        Class { reading: Load, name: "00, funct3 1", example: 0x2000, refusal: Some(3), of: |l, _, h, _| l == 0 && h == 1 },
        Class { reading: Load, name: "00, funct3 4", example: 0x8000, refusal: Some(3), of: |l, _, h, _| l == 0 && h == 4 },
        Class { reading: Load, name: "00, funct3 5", example: 0xA000, refusal: Some(3), of: |l, _, h, _| l == 0 && h == 5 },
        Class { reading: Load, name: "00, funct3 6, 7", example: 0xDFFC, refusal: Some(3), of: |l, _, h, _| l == 0 && h >= 6 },
        Class { reading: Load, name: "11, opcode 0x07", example: 0x8005_2287, refusal: Some(3), of: |_, o, _, _| o == 0x07 },
        Class { reading: Load, name: "11, opcode 0x23", example: 0xFEB1_3C23, refusal: Some(3), of: |_, o, _, _| o == 0x23 },
        Class { reading: Load, name: "11, opcode 0x2F", example: 0x1005_22AF, refusal: Some(3), of: |_, o, _, _| o == 0x2F },
        Class { reading: Load, name: "11, opcode 0x73", example: 0xF140_22F3, refusal: Some(3), of: |_, o, _, _| o == 0x73 },
        Class {
            reading: Load,
            name: "11, any other opcode but 0x03",
            example: 0xFFFF_FFFF,
            refusal: Some(3),
            of: |l, o, _, _| l == 3 && !matches!(o, 0x03 | 0x07 | 0x23 | 0x2F | 0x73),
        },
        Class {
            reading: Load,
            name: "opcode 0x03, funct3 7",
            example: 0x8005_7283,
            refusal: Some(4),
            of: |_, o, _, w| o == 0x03 && w == 7,
        },
        Class { reading: Store, name: "low two bits 10, C.SWSP, C.SDSP", example: 0xC502, refusal: None, of: |l, _, _, _| l == 2 },
        Class { reading: Store, name: "low two bits 10, any other", example: 0x4502, refusal: Some(5), of: |l, _, _, _| l == 2 },
        Class { reading: Store, name: "low two bits 01", example: 0xC501, refusal: Some(3), of: |l, _, _, _| l == 1 },
        Class {
            reading: Store,
            name: "00, funct3 0, 1, 4, 5",
            example: 0x0,
            refusal: Some(3),
            of: |l, _, h, _| l == 0 && matches!(h, 0 | 1 | 4 | 5),
        },
        Class { reading: Store, name: "00, funct3 2, 3", example: 0x5FFC, refusal: Some(3), of: |l, _, h, _| l == 0 && (h == 2 || h == 3) },
        Class {
            reading: Store,
            name: "11, opcode 0x27, funct3 0 to 3",
            example: 0xFEB1_2C27,
            refusal: Some(3),
            of: |_, o, _, w| o == 0x27 && w < 4,
        },
        Class {
            reading: Store,
            name: "11, opcode 0x03, funct3 0 to 3",
            example: 0x8005_2283,
            refusal: Some(3),
            of: |_, o, _, w| o == 0x03 && w < 4,
        },
        Class {
            reading: Store,
            name: "11, opcode 0x2F, funct3 0 to 3",
            example: 0x18B5_22AF,
            refusal: Some(3),
            of: |_, o, _, w| o == 0x2F && w < 4,
        },
        Class {
            reading: Store,
            name: "11, any other opcode but 0x23, funct3 0 to 3",
            example: 0xFFFF_BFFF,
            refusal: Some(3),
            of: |l, o, _, w| l == 3 && w < 4 && !matches!(o, 0x03 | 0x23 | 0x27 | 0x2F),
        },
        Class {
            reading: Store,
            name: "11, any opcode but 0x23, funct3 4 to 7",
            example: 0xFFFF_FFFF,
            refusal: Some(3),
            of: |l, o, _, w| l == 3 && w >= 4 && o != 0x23,
        },
        Class {
            reading: Store,
            name: "opcode 0x23, funct3 4 to 7",
            example: 0xFEB1_4C23,
            refusal: Some(4),
            of: |_, o, _, w| o == 0x23 && w >= 4,
        },
    ]
};

#[cfg(test)]
mod tests {
    use super::*;
    use Reading::{Load, Store};

    /// The domain and the classes take every word once: all that decides is in the low 16 bits.
    #[test]
    fn each_word_once() {
        for reading in [Load, Store] {
            for raw in 0..0x1_0000 {
                let classes = CLASSES.iter().filter(|c| c.reading == reading && c.has(raw)).count();
                assert_eq!(classes, usize::from(!contains(reading, raw)), "{reading:?} {raw:#x}");
            }
        }
        for class in CLASSES {
            assert!(class.has(class.example), "{}", class.name);
            for raw in (0..0x1_0000).filter(|raw| class.has(*raw)) {
                assert_eq!(crate::refusal(wanted(class.reading, raw)), class.refusal, "{} {raw:#x}", class.name);
            }
        }
    }
}
