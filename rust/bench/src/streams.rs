//! The words that are read.

use compare::random::Random;
use compare::{Profile, Reading, domain};

use crate::image;

/// The profile of the runs: all flags, no custom CSR.
pub const PROFILE: Profile = Profile { flags: 0xFF, custom: 0 };

/// A stream: words for each reading, by its number.
#[derive(Clone)]
pub struct Stream {
    pub name: &'static str,
    pub words: [Vec<u64>; 3],
}

impl Stream {
    pub fn count(&self) -> usize {
        self.words.iter().map(Vec::len).sum()
    }

    /// The words of it that the Rust can read. The others make it panic.
    pub fn readable(&self) -> Stream {
        self.part(self.name, domain::contains)
    }

    fn part(&self, name: &'static str, has: impl Fn(Reading, u64) -> bool) -> Stream {
        let words = Reading::ALL.map(|reading| self.words[reading as usize].iter().copied().filter(|w| has(reading, *w)).collect());
        Stream { name, words }
    }
}

fn is_stack(reading: Reading, word: u64) -> bool {
    domain::stack_form(reading, word).is_some()
}

/// The reading of a SYSTEM word, of a load or of a store; other words have none.
pub fn own_reading(word: u64) -> Option<Reading> {
    if word & 0x7F == 0x73 {
        return Some(Reading::System);
    }
    [Reading::Load, Reading::Store].into_iter().find(|reading| domain::contains(*reading, word) || is_stack(*reading, word))
}

/// The words of the image that OPENSBI_ELF names, if it names one.
pub fn image() -> Option<Vec<u64>> {
    let file = std::env::var_os("OPENSBI_ELF")?;
    let elf = std::fs::read(&file).unwrap_or_else(|e| panic!("{}: {e}", file.display()));
    Some(image::words(&elf).unwrap_or_else(|| panic!("{} has no .text section that can be read", file.display())))
}

/// The SYSTEM words of the image; its loads and stores; three parts of these, to tell the costs of the kinds apart.
fn of_image(words: &[u64]) -> Vec<Stream> {
    let of = |reading| words.iter().copied().filter(|w| own_reading(*w) == Some(reading)).collect();
    let system = Stream { name: "opensbi-system", words: [of(Reading::System), vec![], vec![]] };
    let memory = Stream { name: "opensbi-memory", words: [vec![], of(Reading::Load), of(Reading::Store)] };
    let readable = memory.part("opensbi-readable", domain::contains);
    let compressed = memory.part("opensbi-compressed", |_, w| w & 3 == 0);
    let stack = memory.part("opensbi-stack", is_stack);
    vec![system, memory, readable, compressed, stack]
}

pub fn all() -> Vec<Stream> {
    let mut all = image().map_or(vec![], |words| of_image(&words));
    let mut random = Random::new(1);
    // half of the set and clear forms are reads, as most of them are
    let csr = (0..65536).map(|_| {
        let source = random.below(2) * random.below(32);
        random.below(4096) << 20 | source << 15 | random.of(&[1, 2, 3, 5, 6, 7]) << 12 | random.below(32) << 7 | 0x73
    });
    all.push(Stream { name: "random-csr", words: [csr.collect(), vec![], vec![]] });
    all
}
