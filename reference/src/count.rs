//! Steps and cycles of a run or of a station's records (document 02, E3 and
//! E4).

use crate::fault::{self, fault};
use crate::isa::MOVT;
use crate::machine::Machine;

/// Completed steps, and the cycles that they took.
#[derive(Clone, Copy, Debug, Default, PartialEq, Eq)]
pub struct Count {
    pub steps: u32,
    pub cycles: u32,
}

impl Count {
    /// One completed step more, of so many cycles.
    #[inline(always)]
    pub(crate) fn add(&mut self, cycles: u8) {
        self.steps += 1;
        self.cycles += u32::from(cycles);
        if fault(fault::CYCLES_OF_16_BITS) {
            self.cycles &= 0xFFFF;
        }
    }

    /// A refused step adds nothing.
    #[inline(always)]
    pub(crate) fn refused(&mut self, word: u16) {
        if fault(fault::REFUSED_CYCLES) {
            self.cycles += u32::from(cycles(word, false));
        }
    }

    /// A step that stays in standby is not completed, and adds nothing; HALT's,
    /// which moves the timer by a cycle, neither.
    #[inline(always)]
    pub(crate) fn stood(&mut self, standby: u8) {
        self.cycles += u32::from(fault(fault::STANDBY_CYCLE));
        if fault(fault::HALT_COUNTED) && standby == Machine::HALT {
            self.add(1);
        }
    }
}

/// The cycles of a completed step: MOVT takes two and every other word one
/// (source 000, 18.3, note). A skipped word is a NOP and takes as long as one
/// (3.2.6), a skipped MOVT too.
#[inline(always)]
pub(crate) fn cycles(word: u16, skipped: bool) -> u8 {
    if skipped && fault(fault::SKIPPED_FREE) {
        return 0;
    }
    let run = !skipped || fault(fault::SKIPPED_MOVT_TWO);
    1 + u8::from(word == MOVT && run && !fault(fault::MOVT_ONE_CYCLE))
}
