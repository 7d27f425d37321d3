//! Events of lists of calls on ROMs that pass.

use reference::{Machine, Model};

use crate::board::Board;
use crate::clock;
use crate::host::RunReply;
use crate::sheets::is_wide;
use crate::tally::Tally;
use crate::transfers;
use crate::walk::Walk;
use crate::words;

/// The events that the part must see.
pub const ALL: &[&str] = &[
    "wraps at 1,023",
    "skipped MOVTs",
    "other skipped words",
    "CALLs with the clause",
    "CALLs without it",
    "RETs at a level with RETSK",
    "RETs at a level without",
    "RETSKs",
    "MOVTs",
    "PEEKs",
    "POKEs",
    "GETs",
    "PUTs",
    "pulses of the INT pin",
    "steps in HALT",
    "steps in STOP",
    "CALLs of the 17120",
    "RETs and RETSKs of the 17120",
    "refused with 31 at level 0",
    "refused with 31 at a higher level",
    "refused with 31 again",
    "refused with 1 after 31",
    "budget 0 after 31",
    "runs refused with 31 at once",
    "runs refused with 31 after some steps",
    "runs of 1,000 steps on the 17120",
    "CALLs at a range",
    "RETs at a range",
    "RETSKs at a range",
    "MOVTs at a range",
    "skipped words at a range",
    "steps in HALT at a range",
    "refused with 31 at a range",
    "open calls at the lowest of a range",
    "open calls at the highest of a range",
    "open calls between the two",
    "runs with two depths at one word",
    "runs with three depths at one word",
];

impl Walk<'_> {
    /// A refusal with 31 leaves the machine at its word, so that the calls after it
    /// are refused as well.
    pub fn count_refusal(&mut self, number: u8, tally: &mut Tally) {
        let wide = self.entry(&self.machine).is_some_and(is_wide);
        tally.see_those(&[
            (number == 31 && wide, "refused with 31 at a range"),
            (number == 31 && self.stopped, "refused with 31 again"),
            (number == 31 && self.open == 0, "refused with 31 at level 0"),
            (number == 31 && self.open > 0, "refused with 31 at a higher level"),
            (number == 1 && self.stopped, "refused with 1 after 31"),
        ]);
        self.stopped |= number == 31;
    }

    pub fn count_run(&self, report: RunReply, budget: u32, tally: &mut Tally) {
        let RunReply { steps, number, .. } = report;
        let small = self.case.model == Model::Upd17120;
        let depths = self.met.iter().map(|levels| levels.count_ones()).max();
        tally.see_those(&[
            (depths >= Some(2), "runs with two depths at one word"),
            (depths >= Some(3), "runs with three depths at one word"),
            (number == 31 && steps == 0, "runs refused with 31 at once"),
            (number == 31 && steps > 0, "runs refused with 31 after some steps"),
            (self.stopped && budget == 0 && number == 0, "budget 0 after 31"),
            (small && steps >= 1_000, "runs of 1,000 steps on the 17120"),
        ]);
    }

    /// A completed step: what it adds to the open calls, and what is worth
    /// counting. A skipped word adds nothing.
    pub fn count(&mut self, before: &Machine, board: &Board, tally: &mut Tally) {
        self.stopped = false;
        let word = self.case.rom[usize::from(before.pc)];
        let skipped = before.skip == 1;
        self.count_pulse(before, board, tally);
        self.count_range(before, word, tally);
        let goes_on = skipped || !words::jumps(word);
        if goes_on && before.pc == 1023 && self.machine.pc == 0 {
            tally.see("wraps at 1,023");
        }
        if skipped {
            tally.see(if word == words::MOVT { "skipped MOVTs" } else { "other skipped words" });
            return;
        }
        let small = self.case.model == Model::Upd17120;
        tally.see_those(&[
            (small && words::is_call(word), "CALLs of the 17120"),
            (small && words::is_return(word), "RETs and RETSKs of the 17120"),
        ]);
        if words::is_call(word) {
            self.open = self.open.wrapping_add(1);
            tally.see(if self.clause() { "CALLs with the clause" } else { "CALLs without it" });
        } else if words::is_return(word) {
            tally.see(match (word == words::RET, self.clause()) {
                (false, _) => "RETSKs",
                (true, true) => "RETs at a level with RETSK",
                (true, false) => "RETs at a level without",
            });
            self.open = self.open.wrapping_sub(1);
        } else if word == words::MOVT {
            tally.see("MOVTs");
        } else if let Some((kind, _)) = transfers::taken(word) {
            tally.see(kind.name());
        }
    }

    /// A completed step at a range of more than one level.
    fn count_range(&self, before: &Machine, word: u16, tally: &mut Tally) {
        let Some([lowest, highest]) = self.entry(before).filter(|&entry| is_wide(entry)) else {
            return;
        };
        let (open, runs) = (self.open, before.skip == 0);
        tally.see_those(&[
            (open == lowest, "open calls at the lowest of a range"),
            (open == highest, "open calls at the highest of a range"),
            (lowest < open && open < highest, "open calls between the two"),
            (!runs, "skipped words at a range"),
            (runs && words::is_call(word), "CALLs at a range"),
            (runs && word == words::RET, "RETs at a range"),
            (runs && word == words::RETSK, "RETSKs at a range"),
            (runs && word == words::MOVT, "MOVTs at a range"),
        ]);
    }

    /// Rule 5's clause for the innermost call: some reached RETSK has its level.
    fn clause(&self) -> bool {
        self.skipping.checked_shr(self.open.into()).unwrap_or(0) & 1 == 1
    }

    /// A step in which the INT clock counts.
    fn count_pulse(&self, before: &Machine, board: &Board, tally: &mut Tally) {
        let after = &self.machine.peripherals;
        let pin = after.registers[0] & clock::TMCK == clock::TMCK;
        if board.pulse == 1 && pin && after.counter != before.peripherals.counter {
            tally.see("pulses of the INT pin");
        }
    }
}
