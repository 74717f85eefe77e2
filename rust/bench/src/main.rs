//! Times Miralis's own decoder and the proved library in one run, on the same words.
//!
//! ```text
//! bench                       best and median of many rounds, all cases interleaved, in ns per word
//! bench count STREAM CASE N   runs one case N times over a stream: the difference of two such runs counts its instructions
//! bench count listing CASE N  the same for the listing of a log of 1 MB
//! bench streams, bench cases  the streams, each with how many of its words every case reads; the cases
//! bench listing               the listing of a log of 64 MB
//! ```
//!
//! OPENSBI_ELF names the image whose words are the first five streams; without it there is only the sixth. A case reads those words of
//! a stream that it can read, and all figures are for each word that it reads.

#![cfg_attr(have_miralis, allow(dead_code))]

#[cfg(have_miralis)]
include!("text.rs");

#[cfg(have_miralis)]
mod cases;
#[cfg(have_miralis)]
mod listing;

#[cfg(not(have_miralis))]
fn main() {
    println!("bench: no Miralis text here (MIRALIS_SRC names its folder): nothing is timed");
}

#[cfg(have_miralis)]
fn main() {
    use bench::program;
    program::asked(|words| match words {
        ["listing"] => listing::time(),
        ["count", "listing", case, times] => listing::count(case, times.parse().unwrap_or_else(|_| program::usage())),
        words => program::run(words, cases::all()),
    });
}
