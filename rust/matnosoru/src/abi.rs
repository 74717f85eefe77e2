//! The proved library's functions, with the numbers and bytes that cross: the rest of the crate is types over these.
//!
//! `flags` and `custom` are a profile (see [`Profile`](crate::Profile)). An instruction crosses as its *instruction word*, the bytes
//! of its log record, lowest byte first, zeros above. The three readings answer such a word, of kind 9 for a refusal
//! ([`read_refusal`], [`reason`]). Any other answer that may be a refusal is its number times 2^32 for one, and below 2^32 otherwise
//! ([`answer`]).

// The one place of the crate that calls out of Rust.
#![allow(unsafe_code)]

use crate::Refusal;

mod ffi {
    // One declaration for each exported function of the library, as in include/matnosoru.h: a slice is a pointer and a length.
    // None of them has a condition on numbers, keeps anything, or unwinds; those that take numbers alone are `safe` for that.
    unsafe extern "C" {
        pub safe fn matnosoru_version() -> u64;
        pub safe fn matnosoru_read_system(flags: u64, custom: u64, raw: u64) -> u64;
        pub safe fn matnosoru_read_load(flags: u64, custom: u64, raw: u64) -> u64;
        pub safe fn matnosoru_read_store(flags: u64, custom: u64, raw: u64) -> u64;
        pub safe fn matnosoru_write(flags: u64, custom: u64, instruction_word: u64) -> u64;
        pub safe fn matnosoru_csr(flags: u64, custom: u64, address: u64) -> u64;
        pub safe fn matnosoru_csr_lookup(flags: u64, custom: u64, address: u64) -> u64;
        pub safe fn matnosoru_csr_count(flags: u64, custom: u64) -> u64;
        pub safe fn matnosoru_sign_extend(value: u64, bytes: u64) -> u64;
        pub safe fn matnosoru_calculate_addr(base: u64, imm: u64) -> u64;
        pub fn matnosoru_write_instruction(flags: u64, custom: u64, instruction_word: u64, out: *mut u8, out_len: usize) -> u64;
        pub fn matnosoru_write_refusal(reading: u64, number: u64, raw: u64, out: *mut u8, out_len: usize) -> u64;
        pub fn matnosoru_write_profile(hart: u64, flags: u64, custom: u64, out: *mut u8, out_len: usize) -> u64;
        pub fn matnosoru_batch(
            table: *const u8,
            table_len: usize,
            words: *const u64,
            words_len: usize,
            harts: *const u8,
            harts_len: usize,
            readings: *const u8,
            readings_len: usize,
            out: *mut u8,
            out_len: usize,
        ) -> u64;
        pub fn matnosoru_read_record(flags: u64, custom: u64, log: *const u8, log_len: usize) -> u64;
        pub fn matnosoru_line(flags: u64, custom: u64, at: u64, log: *const u8, log_len: usize, out: *mut u8, out_len: usize) -> u64;
        pub fn matnosoru_start(state: *mut u8, state_len: usize) -> u64;
        pub fn matnosoru_next(state: *mut u8, state_len: usize, log: *const u8, log_len: usize) -> u64;
        pub fn matnosoru_next_line(
            state: *mut u8,
            state_len: usize,
            at: u64,
            log: *const u8,
            log_len: usize,
            out: *mut u8,
            out_len: usize,
        ) -> u64;
        pub fn matnosoru_header(out: *mut u8, out_len: usize) -> u64;
        pub fn matnosoru_end_line(at: u64, out: *mut u8, out_len: usize) -> u64;
        pub fn matnosoru_bad_line(number: u64, at: u64, out: *mut u8, out_len: usize) -> u64;
        pub fn matnosoru_tables_differ(a: *const u8, a_len: usize, b: *const u8, b_len: usize) -> u64;
    }
}

/// The length of a table: for each of the eight harts the flags in two bytes and the mask in eight, low byte first.
pub const TABLE_LENGTH: usize = 80;

/// The length of a log's state: a table, then the current hart in one byte.
pub const STATE_LENGTH: usize = 81;

/// The length of a slot: a record, then zeros.
pub const SLOT_LENGTH: usize = 12;

/// What [`tables_differ`] answers where two tables make the same CSRs available.
pub const SAME: u64 = 32768;

/// What [`csr_lookup`] answers where the profile makes the CSR available.
pub const AVAILABLE: u64 = 1;

/// What [`csr_lookup`] answers where another profile makes the CSR available, and this one does not.
pub const GATE_OFF: u64 = 2;

/// What [`csr_lookup`] answers where no profile makes a CSR available.
pub const NO_SUCH: u64 = 3;

/// An answer that may be a refusal, taken apart.
#[inline]
pub const fn answer(answer: u64) -> Result<u64, Refusal> {
    match answer >> 32 {
        0 => Ok(answer),
        number => Err(Refusal::from_number(number)),
    }
}

/// The refusal's number in the answer of a reading: that of a word of kind 9, and 0 for any other word.
#[inline]
#[must_use]
pub const fn read_refusal(word: u64) -> u64 {
    match word.to_le_bytes() {
        [9, _, number, ..] => number as u64,
        _ => 0,
    }
}

/// The reason's letter in the answer of a reading: that of a word of kind 9, if it has one, and 0 for any other word.
#[inline]
#[must_use]
pub const fn reason(word: u64) -> u8 {
    match word.to_le_bytes() {
        [9, _, _, letter, ..] => letter,
        _ => 0,
    }
}

/// The number of the header that the library fits.
#[inline]
#[must_use]
pub fn version() -> u64 {
    ffi::matnosoru_version()
}

/// The SYSTEM reading of a raw word: an instruction word of kind 1 to 6, or for a refusal the bytes 9, reading, number and, with the
/// number 2, the reason's letter.
#[inline]
#[must_use]
pub fn read_system(flags: u64, custom: u64, raw: u64) -> u64 {
    ffi::matnosoru_read_system(flags, custom, raw)
}

/// The load reading of a raw word: an instruction word of kind 7, or for a refusal the bytes 9, reading, number.
#[inline]
#[must_use]
pub fn read_load(flags: u64, custom: u64, raw: u64) -> u64 {
    ffi::matnosoru_read_load(flags, custom, raw)
}

/// The store reading of a raw word: an instruction word of kind 8, or for a refusal the bytes 9, reading, number.
#[inline]
#[must_use]
pub fn read_store(flags: u64, custom: u64, raw: u64) -> u64 {
    ffi::matnosoru_read_store(flags, custom, raw)
}

/// The RISC-V word of an instruction word, or the refusal.
#[inline]
#[must_use]
pub fn write(flags: u64, custom: u64, instruction_word: u64) -> u64 {
    ffi::matnosoru_write(flags, custom, instruction_word)
}

/// Whether the CSR at an address is available: 1 or 0.
#[inline]
#[must_use]
pub fn csr(flags: u64, custom: u64, address: u64) -> u64 {
    ffi::matnosoru_csr(flags, custom, address)
}

/// What is at a CSR address, which may be any number: [`AVAILABLE`], [`GATE_OFF`] or [`NO_SUCH`].
#[inline]
#[must_use]
pub fn csr_lookup(flags: u64, custom: u64, address: u64) -> u64 {
    ffi::matnosoru_csr_lookup(flags, custom, address)
}

/// How many CSRs are available.
#[inline]
#[must_use]
pub fn csr_count(flags: u64, custom: u64) -> u64 {
    ffi::matnosoru_csr_count(flags, custom)
}

/// Writes the log record of an instruction word to the start of `out`: its length, or the refusal.
#[inline]
#[must_use]
pub fn write_instruction(flags: u64, custom: u64, instruction_word: u64, out: &mut [u8]) -> u64 {
    // SAFETY: the pointer and the length are those of one slice, which is borrowed alone.
    unsafe { ffi::matnosoru_write_instruction(flags, custom, instruction_word, out.as_mut_ptr(), out.len()) }
}

/// Writes the log record of a refused word to the start of `out`: its length, or the refusal.
#[inline]
#[must_use]
pub fn write_refusal(reading: u64, number: u64, raw: u64, out: &mut [u8]) -> u64 {
    // SAFETY: the pointer and the length are those of one slice, which is borrowed alone.
    unsafe { ffi::matnosoru_write_refusal(reading, number, raw, out.as_mut_ptr(), out.len()) }
}

/// Writes the log record that sets a hart's profile to the start of `out`: its length, or the refusal.
#[inline]
#[must_use]
pub fn write_profile(hart: u64, flags: u64, custom: u64, out: &mut [u8]) -> u64 {
    // SAFETY: the pointer and the length are those of one slice, which is borrowed alone.
    unsafe { ffi::matnosoru_write_profile(hart, flags, custom, out.as_mut_ptr(), out.len()) }
}

/// Writes the log record of each trapped word to its slot of [`SLOT_LENGTH`] bytes, with the harts' profiles in a table of
/// [`TABLE_LENGTH`]: the low 32 bits of the number of slots, or the refusal.
#[inline]
#[must_use]
pub fn batch(table: &[u8], words: &[u64], harts: &[u8], readings: &[u8], out: &mut [u8]) -> u64 {
    // SAFETY: each pointer and length are those of one slice, and `out` is borrowed alone.
    unsafe {
        ffi::matnosoru_batch(
            table.as_ptr(),
            table.len(),
            words.as_ptr(),
            words.len(),
            harts.as_ptr(),
            harts.len(),
            readings.as_ptr(),
            readings.len(),
            out.as_mut_ptr(),
            out.len(),
        )
    }
}

/// The length of the first record of a log, or the refusal.
#[inline]
#[must_use]
pub fn read_record(flags: u64, custom: u64, log: &[u8]) -> u64 {
    // SAFETY: the pointer and the length are those of one slice.
    unsafe { ffi::matnosoru_read_record(flags, custom, log.as_ptr(), log.len()) }
}

/// Writes the listing's line for the first record of `log`, whose place is `at`: the record's length plus 2^16 times the line's, or the
/// refusal.
#[inline]
#[must_use]
pub fn line(flags: u64, custom: u64, at: u64, log: &[u8], out: &mut [u8]) -> u64 {
    // SAFETY: each pointer and length are those of one slice, and `out` is borrowed alone.
    unsafe { ffi::matnosoru_line(flags, custom, at, log.as_ptr(), log.len(), out.as_mut_ptr(), out.len()) }
}

/// Makes the state with which a log begins: [`STATE_LENGTH`], or the refusal.
#[inline]
#[must_use]
pub fn start(state: &mut [u8]) -> u64 {
    // SAFETY: the pointer and the length are those of one slice, which is borrowed alone.
    unsafe { ffi::matnosoru_start(state.as_mut_ptr(), state.len()) }
}

/// Reads the first record of `log` under the state's current hart: its length, with the state moved past it, or the refusal.
#[inline]
#[must_use]
pub fn next(state: &mut [u8], log: &[u8]) -> u64 {
    // SAFETY: each pointer and length are those of one slice, and `state` is borrowed alone.
    unsafe { ffi::matnosoru_next(state.as_mut_ptr(), state.len(), log.as_ptr(), log.len()) }
}

/// The same, with the record's line at the start of `out`: the record's length plus 2^16 times the line's, or the refusal.
#[inline]
#[must_use]
pub fn next_line(state: &mut [u8], at: u64, log: &[u8], out: &mut [u8]) -> u64 {
    // SAFETY: each pointer and length are those of one slice, and `state` and `out` are each borrowed alone.
    unsafe { ffi::matnosoru_next_line(state.as_mut_ptr(), state.len(), at, log.as_ptr(), log.len(), out.as_mut_ptr(), out.len()) }
}

/// Writes the listing's first line to the start of `out`: its length, or the refusal.
#[inline]
#[must_use]
pub fn header(out: &mut [u8]) -> u64 {
    // SAFETY: the pointer and the length are those of one slice, which is borrowed alone.
    unsafe { ffi::matnosoru_header(out.as_mut_ptr(), out.len()) }
}

/// Writes the last line of a log that is accepted throughout: its length, or the refusal.
#[inline]
#[must_use]
pub fn end_line(at: u64, out: &mut [u8]) -> u64 {
    // SAFETY: the pointer and the length are those of one slice, which is borrowed alone.
    unsafe { ffi::matnosoru_end_line(at, out.as_mut_ptr(), out.len()) }
}

/// Writes the last line of a log with a bad record: its length, or the refusal.
#[inline]
#[must_use]
pub fn bad_line(number: u64, at: u64, out: &mut [u8]) -> u64 {
    // SAFETY: the pointer and the length are those of one slice, which is borrowed alone.
    unsafe { ffi::matnosoru_bad_line(number, at, out.as_mut_ptr(), out.len()) }
}

/// Compares two tables of [`TABLE_LENGTH`] bytes: `hart * 4096 + address` of the first difference, [`SAME`] where they differ nowhere,
/// or the refusal.
#[inline]
#[must_use]
pub fn tables_differ(a: &[u8], b: &[u8]) -> u64 {
    // SAFETY: each pointer and length are those of one slice.
    unsafe { ffi::matnosoru_tables_differ(a.as_ptr(), a.len(), b.as_ptr(), b.len()) }
}

/// A value of so many bytes with its sign copied upwards; a width that is not 1, 2, 4 or 8 leaves the value.
#[inline]
#[must_use]
pub fn sign_extend(value: u64, bytes: u64) -> u64 {
    ffi::matnosoru_sign_extend(value, bytes)
}

/// Base plus immediate modulo 2^64, the immediate in two's complement.
#[inline]
#[must_use]
pub fn calculate_addr(base: u64, imm: u64) -> u64 {
    ffi::matnosoru_calculate_addr(base, imm)
}
