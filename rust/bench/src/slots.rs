//! The cases that make slots, each a loop over trapped words.

use std::hint::black_box;

use bench::program::Work;
use bench::streams;
use compare::sides::original;
use compare::{Reading, domain};
use matnosoru::abi;

type Slot = [u8; abi::SLOT_LENGTH];

/// The flags of the eight harts. None has a custom CSR.
const FLAGS: [u64; 8] = [0xFF, 0x00, 0x01, 0x0F, 0x3F, 0x08, 0xF0, 0x7F];

/// What the cases read under: the harts' profiles, as each case takes them.
struct Under {
    here: [crate::host::MiralisContext; 8],
    there: [oracle::host::MiralisContext; 8],
    flags: [u64; 8],
    ours: [matnosoru::Profile; 8],
}

impl Under {
    fn new() -> Under {
        Under {
            here: FLAGS.map(crate::host::MiralisContext::with_flags),
            there: FLAGS.map(oracle::host::MiralisContext::with_flags),
            flags: FLAGS,
            ours: FLAGS.map(|flags| matnosoru::Profile::from_flags(flags, 0)),
        }
    }
}

/// Trapped words, each with its hart and its reading.
struct Traps {
    words: Vec<u64>,
    harts: Vec<u8>,
    readings: Vec<u8>,
}

impl Traps {
    /// Each word in its own reading, with the harts in turn.
    fn new(traps: &[(u64, Reading)]) -> Traps {
        let (words, readings) = traps.iter().map(|(word, reading)| (*word, *reading as u8)).unzip();
        Traps { words, harts: (0..8).cycle().take(traps.len()).collect(), readings }
    }
}

/// Makes the slot of an answer: an instruction word's bytes, or a refusal's and the raw word.
#[inline(always)]
fn put(out: &mut Slot, answer: u64, raw: u64) {
    let [bytes @ .., _, _, _, _] = (answer as u128).to_le_bytes();
    *out = bytes;
    if answer as u8 == 9 {
        out[3..11].copy_from_slice(&raw.to_le_bytes());
    }
}

/// One loop over the traps, by itself: a call of it is the only place where its decoder is called. The three expressions answer a
/// word in each reading under a hart's profile. Each has its own `put`: with one for all, the Rust takes three instructions more.
macro_rules! over {
    ($name:ident, $hart:ident, $word:ident, [$system:expr, $load:expr, $store:expr $(,)?]) => {
        #[inline(never)]
        fn $name(under: &Under, traps: &Traps, out: &mut [Slot]) {
            let lists = traps.words.iter().zip(&traps.harts).zip(&traps.readings);
            for (((&$word, &hart), &reading), out) in lists.zip(out) {
                match (under.$hart.get(hart as usize), reading) {
                    (None, _) => put(out, u64::from_le_bytes([9, reading.min(3), 15, 0, 0, 0, 0, 0]), $word),
                    (Some($hart), 0) => put(out, $system, $word),
                    (Some($hart), 1) => put(out, $load, $word),
                    (Some($hart), 2) => put(out, $store, $word),
                    _ => put(out, u64::from_le_bytes([9, 3, 16, 0, 0, 0, 0, 0]), $word),
                }
            }
        }
    };
}

/// The instruction words of Miralis's types in this program.
mod inlined {
    compare::instruction_words!(crate);
}

/// The address in a CSR form. The Rust's slots have it from the word: `idx` of the CSR that was read takes longer.
#[inline(always)]
fn address(word: u64) -> usize {
    word as usize >> 20 & 0xFFF
}

over!(
    rust_inlined,
    here,
    w,
    [
        inlined::system(here.decode_illegal_instruction(w as usize), |_| Some(address(w))),
        inlined::load(here.decode_load(w as usize)),
        inlined::store(here.decode_store(w as usize)),
    ]
);
over!(
    rust,
    there,
    w,
    [
        original::system(oracle::calls::system(there, w as usize), |_| Some(address(w))),
        original::load(oracle::calls::load(there, w as usize)),
        original::store(oracle::calls::store(there, w as usize)),
    ]
);
over!(single, flags, w, [abi::read_system(*flags, 0, w), abi::read_load(*flags, 0, w), abi::read_store(*flags, 0, w)]);

fn batch(under: &Under, traps: &Traps, out: &mut [Slot]) {
    let made = matnosoru::Profile::batch(&under.ours, &traps.words, &traps.harts, &traps.readings, out);
    assert_eq!(made, Ok(traps.words.len()));
}

struct Case {
    name: &'static str,
    is_rust: bool,
    work: fn(&Under, &Traps, &mut [Slot]),
}

const CASES: [Case; 4] = [
    Case { name: "rust-inlined", is_rust: true, work: rust_inlined },
    Case { name: "rust", is_rust: true, work: rust },
    Case { name: "single", is_rust: false, work: single },
    Case { name: "batch", is_rust: false, work: batch },
];

/// A stream, and the slots that a case makes of it.
pub struct Slots {
    name: &'static str,
    under: Under,
    traps: Traps,
    out: Vec<Slot>,
}

impl Slots {
    fn new(name: &'static str, traps: &[(u64, Reading)]) -> Slots {
        let out = vec![[0; abi::SLOT_LENGTH]; traps.len()];
        Slots { name, under: black_box(Under::new()), traps: Traps::new(traps), out }
    }

    /// Whether the Rust can read each word.
    fn is_readable(&self) -> bool {
        let Traps { words, readings, .. } = &self.traps;
        words.iter().zip(readings).all(|(word, reading)| domain::contains(Reading::ALL[*reading as usize], *word))
    }
}

/// The image's SYSTEM words, loads and stores in its order; those of them that the Rust can read.
pub fn all() -> Vec<Slots> {
    let Some(words) = streams::image() else { return vec![] };
    let all: Vec<_> = words.into_iter().filter_map(|word| Some((word, streams::own_reading(word)?))).collect();
    let readable: Vec<_> = all.iter().copied().filter(|(word, reading)| domain::contains(*reading, *word)).collect();
    vec![Slots::new("opensbi-traps", &all), Slots::new("opensbi-traps-readable", &readable)]
}

impl Work for Slots {
    const UNIT: &'static str = "slot";

    fn cases() -> [&'static str; 4] {
        CASES.map(|case| case.name)
    }

    fn name(&self) -> &'static str {
        self.name
    }

    fn lengths(&self) -> [usize; 4] {
        let is_readable = self.is_readable();
        CASES.map(|case| if case.is_rust && !is_readable { 0 } else { self.out.len() })
    }

    /// The cases make the same slots, byte for byte.
    fn assert_same(&self) {
        let made = |case: &Case| {
            let mut out = vec![[0xEE; abi::SLOT_LENGTH]; self.out.len()];
            (case.work)(&self.under, &self.traps, &mut out);
            out
        };
        let [.., last] = &CASES;
        let wanted = made(last);
        for (case, _) in CASES.iter().zip(self.lengths()).filter(|(_, length)| *length > 0) {
            assert!(made(case) == wanted, "{}: {} and {} make other slots", self.name, case.name, last.name);
        }
    }

    fn run(&mut self, case: usize) {
        (CASES[case].work)(&self.under, &self.traps, &mut self.out);
    }
}
