//! A proved RISC-V decoder, encoder and trap log, with the names of Miralis's own decoder.
//!
//! The work is done by the proved library `libmatnosoru.a`; this crate gives it types. What a call needs to know of a hart is a
//! [`Profile`], and the readings and writings are its methods:
//!
//! ```
//! use matnosoru::{Csr, IllegalInst, Profile, Refusal, Register};
//!
//! let hart = Profile::default();
//! let read = hart.decode_illegal_instruction(0xF14022F3);
//! assert_eq!(read, Ok(IllegalInst::Csrrs { csr: Csr::Mhartid, rd: Register::X5, rs1: Register::X0 }));
//! assert!(matches!(hart.decode_illegal_instruction(0xF1401073), Err(Refusal::InvalidCsrOp(_))));
//! ```
//!
//! The refusal of a CSR has a [`Reason`]: (a) it is read-only and would be written, (b) this profile does not make it available and
//! another does, (c) no profile does. It prints as a sentence:
//!
//! ```
//! use matnosoru::{Profile, Reason};
//!
//! // csrrs x10,mhpmcounter3,x0
//! let refusal = Profile::default().decode_illegal_instruction(0xB030_2573).unwrap_err();
//! assert_eq!(refusal.number(), 2);
//! assert_eq!(refusal.reason(), Some(Reason::GateOff { address: 0xB03 }));
//! assert_eq!(refusal.to_string(), "2 (mhpmcounter3 is there only with Zihpm)");
//! ```
//!
//! A trap log is walked by [`Log`], record by record, and listed by [`Listing`]:
//!
//! ```
//! use matnosoru::{IllegalInst, Instr, Listing, Log, Record};
//!
//! let log = [1, 0x0A, 3, 0, 0, 0, 0, 0, 0, 0, 0, 0, 0xFF];
//! let mut walk = Log::new(&log);
//! assert_eq!(walk.next().unwrap()?.record, Record::Instr(Instr::Illegal(IllegalInst::Wfi)));
//! assert!(matches!(walk.next().unwrap()?.record, Record::Profile { hart: 3, .. }));
//! let bad = walk.next().unwrap().unwrap_err();
//! assert_eq!((bad.refusal.number(), bad.at), (11, 12));
//!
//! let text: String = Listing::new(&log).map(|line| line.to_string()).collect();
//! assert_eq!(text, "at kind answer\n0 01 10500073\n1 0A hart 3\nbad 11 at 12\n");
//! # Ok::<(), matnosoru::Bad>(())
//! ```
//!
//! A log keeps a refusal's number and no reason. The reason is had by reading the record's raw word again, under the profile of the hart
//! that is current there:
//!
//! ```
//! use matnosoru::{Log, Record, Refusal};
//!
//! let bytes = [9, 0, 2, 0x73, 0x25, 0x30, 0xB0, 0, 0, 0, 0];
//! let mut log = Log::new(&bytes);
//! while let Some(entry) = log.next() {
//!     let Record::Refused { refusal: Refusal::InvalidCsrOp(_), raw, .. } = entry?.record else { continue };
//!     let hart = log.state().profile(log.state().hart()).unwrap_or_default();
//!     let reason = hart.decode_illegal_instruction(raw as usize).err().and_then(Refusal::reason);
//!     assert_eq!(reason.unwrap().to_string(), "mhpmcounter3 is there only with Zihpm");
//! }
//! # Ok::<(), matnosoru::Bad>(())
//! ```
//!
//! The records of many trapped words are written in one call, [`Profile::batch`], each into a slot of twelve bytes:
//!
//! ```
//! use matnosoru::Profile;
//!
//! let (words, harts, readings) = ([0x1050_0073, 0x8005_2283], [0, 7], [0, 1]);
//! let mut slots = [[0xEE; 12]; 2];
//! assert_eq!(Profile::batch(&[Profile::EMPTY; 8], &words, &harts, &readings, &mut slots), Ok(2));
//! assert_eq!(slots, [[1, 0, 0, 0, 0, 0, 0, 0, 0, 0, 0, 0], [7, 4, 0, 5, 10, 0x00, 0xF8, 0, 0, 0, 0, 0]]);
//! ```
//!
//! Where the answer is no, it is a [`Refusal`]; nothing here panics, whatever it is given. The lints below hold the code to that:
//! `cargo clippy` refuses an index, an `unwrap` or a sum that could fail.
//!
//! The proofs are of the library's functions as they cross ([`abi`]). That the types here say the same as the words which cross is
//! tested, by running it against Miralis's text.

#![no_std]
#![warn(missing_docs)]
#![deny(unsafe_code)]
#![deny(clippy::indexing_slicing, clippy::unwrap_used, clippy::expect_used, clippy::panic, clippy::unreachable, clippy::todo)]
#![deny(clippy::arithmetic_side_effects)]
#![warn(clippy::must_use_candidate)]

// Addresses and raw words are `usize` as in Miralis, and cross as 64-bit numbers.
const _: () = assert!(usize::BITS == 64, "matnosoru is for machines with 64-bit addresses");

pub mod abi;
mod batch;
mod instr;
mod log;
mod profile;
mod reason;
mod record;
mod refusal;
mod registers;
mod utils;

pub use instr::{IllegalInst, Instr, LoadInstr, StoreInstr};
pub use log::{Bad, Entry, Listing, Log, State, Text};
pub use profile::{CsrLookup, Difference, Profile, first_difference};
pub use reason::Reason;
pub use record::{Line, Reading, Record};
pub use refusal::Refusal;
pub use registers::{Csr, Register, csr};
pub use utils::{Width, calculate_addr, sign_extend};

/// The version of the library that this crate is for: MATNOSORU_VERSION of include/matnosoru.h.
pub const VERSION: u64 = 4;

/// The version of the library that is linked. Where it is not [`VERSION`], archive and crate are of different releases.
#[must_use]
pub fn version() -> u64 {
    abi::version()
}
