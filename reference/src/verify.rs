//! The check of a ROM with its level sheet (document 01, "Clearance rules"), for
//! one model (document 02, E1), with a range of levels at each word (E5).

use crate::fault::{self, fault};
use crate::isa::{decode, unsupported, Instruction, RETSK};
use crate::machine::{rom_in_range, LAST_ADDRESS};
use crate::model::Model;
use crate::register_file::missing;
use crate::sheet::{Range, ENTRY_BYTES};

/// What the check answers.
#[derive(Clone, Copy, Debug, PartialEq, Eq)]
pub enum Verdict {
    Pass,
    /// The lowest word that breaks a rule, and its lowest rule.
    Fail {
        word: u16,
        rule: u8,
    },
    /// 1: the ROM's length; 9: the sheet has not two bytes a word.
    Refused(u8),
}

/// Checks a ROM with its level sheet: for each word two bytes, the lowest and
/// the highest number of open calls there, or 15 15 for never reached.
///
/// The model decides how long the ROM can be, and nothing else: an operand that
/// it lacks breaks no rule.
pub fn verify(model: Model, rom: &[u16], sheet: &[u8]) -> Verdict {
    let lengths_of = if fault(fault::CHECK_OF_17132) { Model::Upd17132 } else { model };
    if !rom_in_range(lengths_of, rom) {
        return Verdict::Refused(1);
    }
    if !fits(sheet, rom) {
        return Verdict::Refused(9);
    }
    let (entries, _) = sheet.as_chunks();
    let check = Check { model, rom, entries, skipped_returns: skipped_returns(rom, entries) };
    for ((word, &code), &entry) in (0..).zip(rom).zip(entries) {
        if let Some(rule) = check.broken_rule(word, code, Range::of(entry)) {
            return Verdict::Fail { word, rule };
        }
    }
    Verdict::Pass
}

/// Has the sheet an entry for each word? An odd number of bytes fits no ROM.
fn fits(sheet: &[u8], rom: &[u16]) -> bool {
    if fault(fault::CHECK_BYTE_A_WORD) {
        return sheet.len() == rom.len();
    }
    if fault(fault::CHECK_ODD_LENGTH) {
        return sheet.len() / ENTRY_BYTES == rom.len();
    }
    sheet.len() == ENTRY_BYTES * rom.len()
}

/// The levels of all reached RETSK, one bit each.
fn skipped_returns(rom: &[u16], entries: &[[u8; ENTRY_BYTES]]) -> u8 {
    let returns = rom.iter().zip(entries).filter(|&(&word, _)| word == RETSK);
    returns.fold(0, |levels, (_, &entry)| levels | return_levels(Range::of(entry)))
}

/// The levels of one RETSK, none where it is not reached.
fn return_levels(mut range: Range) -> u8 {
    if fault(fault::CHECK_ODD_RETSK) {
        range = range.cut();
    }
    if !range.reached() {
        return 0;
    }
    if fault(fault::CHECK_RETSK_AT_LOWEST) {
        return 1 << range.lowest;
    }
    range.levels()
}

/// The words of a ROM in which MOVT finds one at every AR.
const TABLE_WORDS: usize = LAST_ADDRESS as usize + 1;

/// The ROM and its sheet under check.
struct Check<'a> {
    model: Model,
    rom: &'a [u16],
    entries: &'a [[u8; ENTRY_BYTES]],
    /// Bit d is set where some reached RETSK has level d.
    skipped_returns: u8,
}

impl Check<'_> {
    /// The lowest rule that this word breaks. Rule 1 is tried at word 0 and
    /// rule 2 at every entry, reached or not; the others at reached words.
    fn broken_rule(&self, word: u16, code: u16, range: Range) -> Option<u8> {
        if word == 0 && !starts(range) {
            return Some(1);
        }
        if !entry_allowed(range) {
            return Some(2);
        }
        if !range.reached() {
            return None;
        }
        let Some(instruction) = decode(code) else {
            return Some(3);
        };
        if !self.allowed(instruction, range) {
            return Some(3);
        }
        if !self.keeps_level(instruction, word, range) {
            return Some(4);
        }
        if !self.calls_well(instruction, word, range) {
            return Some(5);
        }
        if !returns_well(instruction, range) {
            return Some(6);
        }
        None
    }

    /// Rule 3, for a word that is an instruction. PEEK, POKE, GET and PUT are
    /// allowed where refusal 30 does not meet them (document 02, E4).
    fn allowed(&self, instruction: Instruction, range: Range) -> bool {
        use Instruction::*;
        match instruction {
            BrAr | CallAr | PushAr | PopAr => false,
            Movt => {
                let at_lowest = fault(fault::CHECK_MOVT_AT_LOWEST);
                self.rom.len() == self.table_words() && has_free_level(range, at_lowest)
            }
            Peek { .. } | Poke { .. } | Get { .. } | Put { .. }
                if fault(fault::CHECK_BANS_FOUR) =>
            {
                false
            }
            Peek { rf } | Poke { rf }
                if fault(fault::CHECK_BANS_MISSING) && self.model.lacks(rf) =>
            {
                false
            }
            other => !unsupported(other) && (!missing(other) || fault(fault::CHECK_WITHOUT_30)),
        }
    }

    /// Rule 4: the words named hold the word's whole range.
    fn keeps_level(&self, instruction: Instruction, word: u16, range: Range) -> bool {
        use Instruction::*;
        match instruction {
            Br { addr } => self.has(addr, range),
            Ret | Retsk => true,
            Ske { .. } | Skne { .. } | Skge { .. } | Sklt { .. } | Skt { .. } | Skf { .. } => {
                self.has(self.next(word), range) && self.has(self.after_next(word), range)
            }
            _ => self.has(self.next(word), range),
        }
    }

    /// Rule 5: the target holds the range raised by one. Where some reached
    /// RETSK shares a level with that, a return can skip the word after CALL,
    /// and the word after next holds CALL's own range.
    fn calls_well(&self, instruction: Instruction, word: u16, range: Range) -> bool {
        let Instruction::Call { addr } = instruction else {
            return true;
        };
        let called = raised(range);
        let shared = self.shared(called);
        has_free_level(range, fault(fault::CHECK_CALL_AT_LOWEST))
            && self.has(addr, called)
            && (shared == 0 || self.has(self.after_next(word), left(range, shared)))
    }

    /// The called levels that some reached RETSK has too, one bit each.
    fn shared(&self, called: Range) -> u8 {
        if fault(fault::CHECK_NO_RETSK_CLAUSE) {
            return 0;
        }
        if fault(fault::CHECK_CALLED_AT_LOWEST) {
            return self.skipped_returns & 1 << called.lowest;
        }
        self.skipped_returns & called.levels()
    }

    /// Rule 3 lets MOVT stand in a ROM of 1,024 words, which the 17120 never has.
    fn table_words(&self) -> usize {
        if fault(fault::CHECK_MOVT_OF_ROM) {
            return self.model.rom_words();
        }
        TABLE_WORDS
    }

    /// "Next": PC + 1, 0 after 1,023, in every model.
    fn next(&self, word: u16) -> u16 {
        let next = word + 1;
        if fault(fault::CHECK_WRAPS_AT_768) && usize::from(next) == self.model.rom_words() {
            return 0;
        }
        next & LAST_ADDRESS
    }

    fn after_next(&self, word: u16) -> u16 {
        self.next(self.next(word))
    }

    /// Does the named word lie in the ROM and hold this range?
    fn has(&self, word: u16, range: Range) -> bool {
        let Some(&entry) = self.entries.get(usize::from(word)) else {
            return false;
        };
        let named = Range::of(entry);
        if fault(fault::CHECK_HOLDS_INVERTED) {
            return named.reached() && range.holds(named);
        }
        if fault(fault::CHECK_SAME_RANGE) {
            return named == range;
        }
        if fault(fault::CHECK_ODD_HOLDS) {
            return named.cut().holds(range);
        }
        named.holds(range)
    }
}

/// Rule 1, at word 0, reached or not.
fn starts(range: Range) -> bool {
    if fault(fault::CHECK_ODD_START) && !range.in_range() {
        return true;
    }
    if fault(fault::CHECK_START_OF_0_ALONE) {
        return range == Range::RESET;
    }
    range.holds(Range::RESET)
}

/// Rule 2, at every entry. One that breaks it is not reached and has no level.
fn entry_allowed(range: Range) -> bool {
    range.in_range()
        || fault(fault::CHECK_ODD_ENTRY)
        || fault(fault::CHECK_HALF_NEVER) && range.half_never()
        || fault(fault::CHECK_TURNED_RANGE) && range.turned()
}

/// CALL and MOVT take a level, so that the highest is 4 or less.
fn has_free_level(range: Range, at_lowest: bool) -> bool {
    let level = if at_lowest { range.lowest } else { range.highest };
    level <= 4
}

/// The range one call further in.
fn raised(Range { lowest, highest }: Range) -> Range {
    if fault(fault::CHECK_LOWEST_RAISED) {
        return Range { lowest: lowest + 1, highest: highest.max(lowest + 1) };
    }
    if fault(fault::CHECK_HIGHEST_RAISED) && lowest != highest {
        return Range { lowest, highest: highest + 1 };
    }
    let called = Range { lowest: lowest + 1, highest: highest + 1 };
    if fault(fault::CHECK_CALL_AT_LOWEST) {
        return called.cut();
    }
    called
}

/// What the word after next must hold: CALL's whole range, however many of its
/// levels are shared.
fn left(range: Range, shared: u8) -> Range {
    if fault(fault::CHECK_SHARED_ALONE) {
        return Range::around(shared >> 1);
    }
    range
}

/// Rule 6: a call is open wherever RET and RETSK run.
fn returns_well(instruction: Instruction, range: Range) -> bool {
    let least = if fault(fault::CHECK_RETURN_AT_HIGHEST) { range.highest } else { range.lowest };
    !matches!(instruction, Instruction::Ret | Instruction::Retsk) || least >= 1
}
