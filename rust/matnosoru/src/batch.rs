//! Many trapped words in one call.

use crate::profile::table;
use crate::{Profile, Refusal, abi};

impl Profile {
    /// Writes the log record of each trapped word to the word's slot of `out`: the record, then zeros. Answers the number of slots; those
    /// after them are unchanged. Nothing is allocated.
    ///
    /// The word `words[i]` is read in the reading `readings[i]` (0 [`decode_illegal_instruction`](Profile::decode_illegal_instruction),
    /// 1 [`decode_load`](Profile::decode_load), 2 [`decode_store`](Profile::decode_store)) under the profile of the hart `harts[i]`. What
    /// is no hart or no reading makes a record too, with the refusal 15 or 16.
    ///
    /// A hart's slots depend on its own words, readings and profile alone. Nothing of another hart shows in them, and nothing that was in
    /// `out`.
    ///
    /// Refusals: 17 for lists that are not of one length, then 14 for fewer slots than words. `out` is then unchanged. They depend on the
    /// lengths alone.
    ///
    /// [`Profile::read_record`] reads a slot back, under the profile of its hart; under any, if the hart is above 7:
    ///
    /// ```
    /// use matnosoru::{Csr, IllegalInst, Profile, Reading, Record, Refusal, Register};
    ///
    /// // cycle is there on hart 1, and not on hart 0; there is no hart 8
    /// let mut profiles = [Profile::EMPTY; 8];
    /// profiles[1].has_zicntr = true;
    /// let raw = 0xC000_2573;
    /// let mut slots = [[0; 12]; 3];
    /// Profile::batch(&profiles, &[raw; 3], &[0, 1, 8], &[0; 3], &mut slots)?;
    ///
    /// let refused = |refusal| Record::Refused { reading: Reading::System, refusal, raw };
    /// assert_eq!(profiles[0].read_record(&slots[0])?, (refused(Refusal::InvalidCsrOp(None)), 11));
    /// let read = IllegalInst::Csrrs { csr: Csr::Cycle, rd: Register::X10, rs1: Register::X0 };
    /// assert_eq!(profiles[1].read_record(&slots[1])?, (Record::Instr(read.into()), 6));
    /// assert_eq!(Profile::EMPTY.read_record(&slots[2])?, (refused(Refusal::NoSuchHart), 11));
    /// # Ok::<(), Refusal>(())
    /// ```
    pub fn batch(
        profiles: &[Profile; 8],
        words: &[u64],
        harts: &[u8],
        readings: &[u8],
        out: &mut [[u8; abi::SLOT_LENGTH]],
    ) -> Result<usize, Refusal> {
        // there is a slot for each word; the answer has only the low 32 bits of their number
        abi::answer(abi::batch(&table(profiles), words, harts, readings, out.as_flattened_mut())).map(|_| words.len())
    }
}
