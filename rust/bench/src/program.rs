//! What the two programs have in common: the cases take turns on each stream, or one of them is run for its instructions to be counted.

use std::time::Instant;

/// A stream, and the cases that are run on it.
pub trait Work {
    /// What the figures are for: each word that is read, or each slot that is made.
    const UNIT: &'static str;

    /// The names of the cases.
    fn cases() -> [&'static str; 4];

    fn name(&self) -> &'static str;

    /// How many of these each case has.
    fn lengths(&self) -> [usize; 4];

    /// Panics if the cases do not answer alike: then there is nothing to time.
    fn assert_same(&self);

    /// Runs one case over the stream once.
    fn run(&mut self, case: usize);
}

/// Hands on the words that a program is called with.
pub fn asked(answer: impl FnOnce(&[&str])) {
    let words: Vec<String> = std::env::args().skip(1).collect();
    answer(&words.iter().map(String::as_str).collect::<Vec<&str>>());
}

pub fn usage() -> ! {
    eprintln!("usage: bench [count STREAM CASE N | streams | cases | listing], batch [count STREAM CASE N | streams | cases]");
    std::process::exit(2);
}

/// Does what a program was asked for, on these streams.
pub fn run<W: Work>(words: &[&str], streams: Vec<W>) {
    match words {
        [] => time(streams),
        ["count", stream, case, times] => count(streams, stream, case, times),
        ["streams"] => {
            for stream in streams {
                println!("{} {}", stream.name(), stream.lengths().map(|length| length.to_string()).join(" "));
            }
        }
        ["cases"] => W::cases().iter().for_each(|case| println!("{case}")),
        _ => usage(),
    }
}

fn count<W: Work>(streams: Vec<W>, stream: &str, case: &str, times: &str) {
    let stream = streams.into_iter().find(|s| s.name() == stream);
    let (Some(mut stream), Some(case), Ok(times)) = (stream, W::cases().iter().position(|c| *c == case), times.parse::<u32>()) else {
        usage()
    };
    for _ in 0..times {
        stream.run(case);
    }
}

fn time<W: Work>(streams: Vec<W>) {
    println!("| ns per {}, best (median) | {} |\n|---|---|---|---|---|", W::UNIT, W::cases().join(" | "));
    for mut stream in streams {
        stream.assert_same();
        let cells = time_all(&mut stream).map(|took| match &took[..] {
            [] => "-".into(),
            took => format!("{:.1} ({:.1})", took[0], took[took.len() / 2]),
        });
        println!("| {} | {} |", stream.name(), cells.join(" | "));
    }
}

/// How long each case takes for each of its words, in rounds that take turns: from the best up, or none where it has no word.
fn time_all<W: Work>(stream: &mut W) -> [Vec<f64>; 4] {
    const ROUNDS: usize = 400;
    let (lengths, mut took): (_, [Vec<f64>; 4]) = (stream.lengths(), Default::default());
    for _ in 0..ROUNDS {
        for ((case, length), took) in lengths.into_iter().enumerate().zip(&mut took).filter(|((_, length), _)| *length > 0) {
            // a round is long enough for the clock
            let repeat = 20_000usize.div_ceil(length);
            let began = Instant::now();
            for _ in 0..repeat {
                stream.run(case);
            }
            took.push(began.elapsed().as_secs_f64() * 1e9 / (repeat * length) as f64);
        }
    }
    took.iter_mut().for_each(|took| took.sort_by(f64::total_cmp));
    took
}
