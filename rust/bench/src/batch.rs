//! Times the library's batch in one run with three other loops that make the same slots: a word's log record, then zeros.
//!
//! ```text
//! batch                       best and median of many rounds, all cases interleaved, in ns per slot
//! batch count STREAM CASE N   runs one case N times over a stream: the difference of two such runs counts its instructions
//! batch streams, batch cases  the streams, each with how many slots every case makes; the cases
//! ```
//!
//! OPENSBI_ELF names the image whose words are the streams; without it there are none. The Rust makes slots of those streams alone of
//! which it can read each word.
//!
//! This is a program by itself, so that Miralis's text can be inlined in it as in the program `bench`.

#![cfg_attr(have_miralis, allow(dead_code))]

#[cfg(have_miralis)]
include!("text.rs");

#[cfg(have_miralis)]
mod slots;

#[cfg(not(have_miralis))]
fn main() {
    println!("batch: no Miralis text here (MIRALIS_SRC names its folder): nothing is timed");
}

#[cfg(have_miralis)]
fn main() {
    bench::program::asked(|words| bench::program::run(words, slots::all()));
}
