//! A whole log: the state that it leaves behind, a walk over its records, and its listing.

use core::fmt;
use core::iter::FusedIterator;

use crate::profile::in_table;
use crate::{Line, Profile, Record, Refusal, abi};

/// What a log leaves behind: the profile of each hart, and which hart is current.
///
/// Each record is read under the current hart's profile. A [`Record::Profile`] sets a hart's profile and makes that hart current.
#[derive(Clone, Copy, Debug, PartialEq, Eq, Hash)]
pub struct State {
    bytes: [u8; abi::STATE_LENGTH],
}

impl State {
    /// The state with which a log begins: all profiles empty, and hart 0 current.
    #[must_use]
    pub fn new() -> State {
        let mut bytes = [0; abi::STATE_LENGTH];
        // the length is right, so there is no refusal
        let _ = abi::start(&mut bytes);
        State { bytes }
    }

    /// The current hart, 0 to 7.
    #[must_use]
    pub fn hart(&self) -> usize {
        let [.., hart] = self.bytes;
        hart as usize
    }

    /// The profile of a hart, or `None` for a hart above 7.
    #[must_use]
    pub fn profile(&self, hart: usize) -> Option<Profile> {
        in_table(self.bytes.first_chunk()?, hart)
    }

    /// Reads the first record of a log under the current hart's profile: the record and its length. The state is then the one after
    /// that record. What follows the record is not looked at.
    ///
    /// Refusals: those of [`Profile::read_record`]. The state is then unchanged.
    pub fn next(&mut self, log: &[u8]) -> Result<(Record, usize), Refusal> {
        let length = abi::answer(abi::next(&mut self.bytes, log))? as usize;
        Record::accepted(log, length).map(|record| (record, length))
    }

    /// Moves over the first record of a log as [`State::next`] does, and writes its line of the listing to the start of `out`. The
    /// record's place in the whole log is `at`.
    ///
    /// Refusals: the record's, and last 14 for an `out` shorter than the line; [`Text::LONGEST`] bytes are always enough. The state
    /// and `out` are then unchanged.
    pub fn next_line(&mut self, at: u64, log: &[u8], out: &mut [u8]) -> Result<Line, Refusal> {
        Line::from_answer(abi::next_line(&mut self.bytes, at, log, out))
    }
}

impl Default for State {
    fn default() -> State {
        State::new()
    }
}

/// A line of the listing, its line feed included.
#[derive(Clone, Copy, PartialEq, Eq, Hash)]
pub struct Text {
    bytes: [u8; Text::LONGEST],
    length: usize,
}

impl Text {
    /// The most bytes that a line has.
    pub const LONGEST: usize = 35;

    /// The line that a call writes to the start of a buffer, with its answer.
    fn by(write: impl FnOnce(&mut [u8]) -> u64) -> Result<Text, Refusal> {
        let mut bytes = [0; Text::LONGEST];
        let length = abi::answer(write(&mut bytes))? as usize;
        Ok(Text { bytes, length })
    }

    /// No text, for a call that is refused. There is room for every line, so this does not come up.
    const NONE: Text = Text { bytes: [0; Text::LONGEST], length: 0 };

    /// The first line of a listing.
    #[must_use]
    pub fn header() -> Text {
        Text::by(abi::header).unwrap_or(Text::NONE)
    }

    /// The last line of a log that is accepted throughout and has `at` bytes.
    #[must_use]
    pub fn end(at: u64) -> Text {
        Text::by(|out| abi::end_line(at, out)).unwrap_or(Text::NONE)
    }

    /// The last line of a log with a bad record, of its refusal and its place. The refusal is 13 for a number that is not 1 to 255.
    pub fn bad(refusal: Refusal, at: u64) -> Result<Text, Refusal> {
        Text::by(|out| abi::bad_line(refusal.number(), at, out))
    }

    /// The line as bytes.
    #[must_use]
    pub fn as_bytes(&self) -> &[u8] {
        self.bytes.get(..self.length).unwrap_or_default()
    }

    /// The line as a string.
    #[must_use]
    pub fn as_str(&self) -> &str {
        // every byte of a line is ASCII
        core::str::from_utf8(self.as_bytes()).unwrap_or_default()
    }
}

impl fmt::Display for Text {
    fn fmt(&self, f: &mut fmt::Formatter<'_>) -> fmt::Result {
        f.write_str(self.as_str())
    }
}

impl fmt::Debug for Text {
    fn fmt(&self, f: &mut fmt::Formatter<'_>) -> fmt::Result {
        fmt::Debug::fmt(self.as_str(), f)
    }
}

/// A record of a log that was accepted.
#[derive(Clone, Copy, Debug, PartialEq, Eq, Hash)]
#[non_exhaustive]
pub struct Entry {
    /// The record's place: how many bytes of the log come before it
    pub at: u64,
    /// The record
    pub record: Record,
    /// The record's line of the listing
    pub line: Text,
}

/// A record of a log that was not accepted, which ends the walk.
#[derive(Clone, Copy, Debug, PartialEq, Eq, Hash)]
#[non_exhaustive]
pub struct Bad {
    /// The record's place: how many bytes of the log come before it
    pub at: u64,
    /// Why it is bad: 11, 12 or 13
    pub refusal: Refusal,
}

impl Bad {
    /// The last line of the log's listing.
    #[must_use]
    pub fn line(&self) -> Text {
        Text::bad(self.refusal, self.at).unwrap_or(Text::NONE)
    }
}

impl fmt::Display for Bad {
    fn fmt(&self, f: &mut fmt::Formatter<'_>) -> fmt::Result {
        write!(f, "bad record at {}: {}", self.at, self.refusal)
    }
}

impl core::error::Error for Bad {}

/// A walk over the records of a log, from the first on. Each is an [`Entry`]. The walk ends after the last record, or after the first
/// [`Bad`] one. Nothing is allocated.
#[derive(Clone, Debug)]
#[must_use]
pub struct Log<'a> {
    rest: &'a [u8],
    at: u64,
    state: State,
    is_bad: bool,
}

impl<'a> Log<'a> {
    /// The walk over a whole log.
    pub fn new(log: &'a [u8]) -> Log<'a> {
        Log::resumed(State::new(), 0, log)
    }

    /// The walk over what follows the first `at` bytes of a log, from the state that those leave behind. So a log may come in parts:
    /// after 12 for a record that is cut by a part's end, the walk goes on with [`Log::rest`] and the next part behind it.
    pub fn resumed(state: State, at: u64, rest: &'a [u8]) -> Log<'a> {
        Log { rest, at, state, is_bad: false }
    }

    /// How many bytes were accepted: the place of the next record, or the log's length at its end.
    #[must_use]
    pub fn at(&self) -> u64 {
        self.at
    }

    /// What the records that were accepted leave behind.
    #[must_use]
    pub fn state(&self) -> State {
        self.state
    }

    /// The bytes after the records that were accepted. A bad record is at their front.
    #[must_use]
    pub fn rest(&self) -> &'a [u8] {
        self.rest
    }

    /// The record at the front of what is left.
    fn step(&mut self) -> Result<Entry, Refusal> {
        let mut bytes = [0; Text::LONGEST];
        let Line { record: length, text } = self.state.next_line(self.at, self.rest, &mut bytes)?;
        let record = Record::accepted(self.rest, length)?;
        let entry = Entry { at: self.at, record, line: Text { bytes, length: text } };
        self.at = self.at.wrapping_add(length as u64);
        self.rest = self.rest.get(length..).unwrap_or_default();
        Ok(entry)
    }
}

impl Iterator for Log<'_> {
    type Item = Result<Entry, Bad>;

    fn next(&mut self) -> Option<Result<Entry, Bad>> {
        if self.is_bad || self.rest.is_empty() {
            return None;
        }
        let entry = self.step().map_err(|refusal| Bad { at: self.at, refusal });
        self.is_bad = entry.is_err();
        Some(entry)
    }
}

impl FusedIterator for Log<'_> {}

/// The lines of a log's listing: the first, one for each record, and the last. Nothing is allocated.
#[derive(Clone, Debug)]
#[must_use]
pub struct Listing<'a> {
    log: Log<'a>,
    part: Part,
}

/// Where in a listing the next line is.
#[derive(Clone, Copy, Debug)]
enum Part {
    Header,
    Records,
    Done,
}

impl<'a> Listing<'a> {
    /// The listing of a whole log.
    pub fn new(log: &'a [u8]) -> Listing<'a> {
        Listing { log: Log::new(log), part: Part::Header }
    }
}

impl Iterator for Listing<'_> {
    type Item = Text;

    fn next(&mut self) -> Option<Text> {
        let (line, part) = match self.part {
            Part::Header => (Text::header(), Part::Records),
            Part::Records => match self.log.next() {
                Some(Ok(entry)) => (entry.line, Part::Records),
                Some(Err(bad)) => (bad.line(), Part::Done),
                None => (Text::end(self.log.at()), Part::Done),
            },
            Part::Done => return None,
        };
        self.part = part;
        Some(line)
    }
}

impl FusedIterator for Listing<'_> {}
