//! The cases, each a loop over the words of a reading whose answers are made and not used.

use std::hint::black_box;

use bench::program::Work;
use bench::streams::{self, PROFILE, Stream};
use compare::reasons::Reasons;
use compare::sides::{Library, Original, Side};
use compare::{Reading, domain};

/// What the cases read under.
struct Under {
    here: crate::host::MiralisContext,
    there: oracle::host::MiralisContext,
    ours: matnosoru::Profile,
}

impl Under {
    fn new() -> Under {
        Under {
            here: crate::host::MiralisContext::with_flags(PROFILE.flags),
            there: oracle::host::MiralisContext::with_flags(PROFILE.flags),
            ours: matnosoru::Profile::from_flags(PROFILE.flags, PROFILE.custom),
        }
    }
}

/// One loop over words, by itself: a call of it is the only place where its decoder is called.
macro_rules! over {
    ($name:ident, $under:ident, $word:ident, $answer:expr) => {
        #[inline(never)]
        fn $name($under: &Under, words: &[u64]) {
            for &$word in words {
                let _ = black_box($answer);
            }
        }
    };
}

over!(inlined_system, u, w, u.here.decode_illegal_instruction(w as usize));
over!(inlined_load, u, w, u.here.decode_load(w as usize));
over!(inlined_store, u, w, u.here.decode_store(w as usize));
over!(rust_system, u, w, oracle::calls::system(&u.there, w as usize));
over!(rust_load, u, w, oracle::calls::load(&u.there, w as usize));
over!(rust_store, u, w, oracle::calls::store(&u.there, w as usize));
over!(crate_system, u, w, u.ours.decode_illegal_instruction(w as usize));
over!(crate_load, u, w, u.ours.decode_load(w as usize));
over!(crate_store, u, w, u.ours.decode_store(w as usize));

/// The library's loops have the profile as the two words that cross.
macro_rules! over_library {
    ($name:ident, $call:ident) => {
        #[inline(never)]
        fn $name(_: &Under, words: &[u64]) {
            let (flags, custom) = black_box((PROFILE.flags, PROFILE.custom));
            for &w in words {
                black_box(matnosoru::abi::$call(flags, custom, w));
            }
        }
    };
}

over_library!(library_system, read_system);
over_library!(library_load, read_load);
over_library!(library_store, read_store);

/// A case, by the loop of each reading.
struct Case {
    name: &'static str,
    is_rust: bool,
    work: [fn(&Under, &[u64]); 3],
}

const CASES: [Case; 4] = [
    Case { name: "rust-inlined", is_rust: true, work: [inlined_system, inlined_load, inlined_store] },
    Case { name: "rust", is_rust: true, work: [rust_system, rust_load, rust_store] },
    Case { name: "library", is_rust: false, work: [library_system, library_load, library_store] },
    Case { name: "crate", is_rust: false, work: [crate_system, crate_load, crate_store] },
];

impl Case {
    /// The words of a stream that this case reads.
    fn words(&self, stream: &Stream) -> Stream {
        if self.is_rust { stream.readable() } else { stream.clone() }
    }

    fn run(&self, under: &Under, stream: &Stream) {
        for (work, words) in self.work.iter().zip(&stream.words) {
            if !words.is_empty() {
                work(under, words);
            }
        }
    }
}

/// A stream, and the words of it that each case reads.
pub struct Words {
    under: Under,
    stream: Stream,
    read: [Stream; 4],
}

pub fn all() -> Vec<Words> {
    let words = |stream| Words { under: black_box(Under::new()), read: CASES.map(|case| case.words(&stream)), stream };
    streams::all().into_iter().map(words).collect()
}

impl Work for Words {
    const UNIT: &'static str = "word";

    fn cases() -> [&'static str; 4] {
        CASES.map(|case| case.name)
    }

    fn name(&self) -> &'static str {
        self.stream.name
    }

    fn lengths(&self) -> [usize; 4] {
        self.read.each_ref().map(Stream::count)
    }

    /// The library answers each word as the Rust does, with the reason that the Rust leaves out, or as is wanted where the Rust cannot
    /// read it.
    fn assert_same(&self) {
        let (rust, library) = (Original::new(PROFILE), Library::new(PROFILE));
        for reading in Reading::ALL {
            for &word in &self.stream.words[reading as usize] {
                let wanted = if domain::contains(reading, word) {
                    Reasons::get().with_letter(rust.read(reading, word), word)
                } else {
                    domain::wanted(reading, word)
                };
                assert_eq!(wanted, library.read(reading, word), "{} {word:#X}", reading.name());
            }
        }
    }

    fn run(&mut self, case: usize) {
        CASES[case].run(&self.under, &self.read[case]);
    }
}
