//! Events of the check with ranges (document 02, E5).

use crate::host::VerdictReply;
use crate::pair;
use crate::roms::Passing;
use crate::rules::{next, Rules};
use crate::sheets::{entries, holds, is_proper, is_reached, is_single, is_wide, levels, Entry};
use crate::tally::Tally;
use crate::words;

/// The events, each of which the part must see.
pub const ALL: &[&str] = &[
    "sheets of single levels that pass",
    "sheets that pass with word 0 at more levels than 0",
    "sheets that pass with a wide CALL",
    "sheets that pass with a wide CALL and RETSK's clause",
    "sheets that pass with a wide CALL though a RETSK is reached",
    "sheets that pass with a wide RET",
    "sheets that pass with a wide RETSK",
    "sheets that pass with a wide MOVT",
    "sheets that pass with a wide skip",
    "sheets that pass with a next word of more levels",
    "by rule 1 with an entry that is none",
    "by rule 1 with the levels from 1 on",
    "by rule 2 with 15 for the lowest alone",
    "by rule 2 with 15 for the highest alone",
    "by rule 2 with the lowest above the highest",
    "by rule 2 with a highest of 6 or more",
    "by rule 3 for MOVT with 5 among its levels",
    "by rule 4 with only some of the levels",
    "by rule 4 with an entry that is none",
    "by rule 5 with 5 among the levels of CALL",
    "by rule 5 with only some of the raised levels",
    "by rule 5 with an entry that is none",
    "by rule 5 for a shared depth",
    "by rule 5 for a shared depth at the lowest alone",
    "by rule 5 for a shared depth at the highest alone",
    "by rule 5 for a shared depth between",
    "by rule 5 though the shared depths are held",
    "by rule 6 with 0 among the levels",
    "refused with 9 for an odd byte",
    "refused with 9 for a byte a word",
];

/// Counts the events of one check.
pub fn count(case: &Passing, checked: VerdictReply, tally: &mut Tally) {
    let (bytes, words) = (case.sheet.len(), case.rom.len());
    match checked.number {
        pair::DONE => passed(case, tally),
        pair::FAIL => failed(case, usize::from(checked.word), checked.rule, tally),
        9 => tally.see_those(&[
            (bytes == 2 * words + 1, "refused with 9 for an odd byte"),
            (bytes == words, "refused with 9 for a byte a word"),
        ]),
        _ => {}
    }
}

fn passed(case: &Passing, tally: &mut Tally) {
    let Passing { rom, sheet, .. } = case;
    let rules = Rules::new(rom, sheet);
    let all = entries(sheet);
    let wide = |at: usize| is_wide(all[at]);
    let some = |wanted: &dyn Fn(usize) -> bool| (0..rom.len()).any(|at| wide(at) && wanted(at));
    let call = |at: usize| words::is_call(rom[at]);
    let retsk = |at: usize| rom[at] == words::RETSK;
    let reached_retsk = (0..rom.len()).any(|at| retsk(at) && is_reached(all[at]));
    let goes_on = |at: usize| !words::jumps(rom[at]) && is_reached(all[at]);
    let wider = |at: usize| goes_on(at) && rules.levels(next(at)) != levels(all[at]);
    tally.see_those(&[
        (is_single(sheet), "sheets of single levels that pass"),
        (wide(0), "sheets that pass with word 0 at more levels than 0"),
        (some(&call), "sheets that pass with a wide CALL"),
        (
            some(&|at| call(at) && rules.shared(at) != 0),
            "sheets that pass with a wide CALL and RETSK's clause",
        ),
        (
            reached_retsk && some(&|at| call(at) && rules.shared(at) == 0),
            "sheets that pass with a wide CALL though a RETSK is reached",
        ),
        (some(&|at| rom[at] == words::RET), "sheets that pass with a wide RET"),
        (some(&retsk), "sheets that pass with a wide RETSK"),
        (some(&|at| rom[at] == words::MOVT), "sheets that pass with a wide MOVT"),
        (some(&|at| words::is_skip(rom[at])), "sheets that pass with a wide skip"),
        ((0..rom.len()).any(wider), "sheets that pass with a next word of more levels"),
    ]);
}

fn failed(case: &Passing, at: usize, rule: u8, tally: &mut Tally) {
    let entry = entries(&case.sheet)[at];
    let own = levels(entry);
    let word = case.rom[at];
    let [lowest, highest] = entry;
    match rule {
        1 => tally.see_those(&[
            (!is_proper(entry), "by rule 1 with an entry that is none"),
            (lowest > 0 && is_wide(entry), "by rule 1 with the levels from 1 on"),
        ]),
        2 => tally.see(of_rule_2(entry)),
        3 => tally.see_those(&[(
            word == words::MOVT && case.rom.len() == 1024 && is_wide(entry),
            "by rule 3 for MOVT with 5 among its levels",
        )]),
        4 => named(case, next_named(at, word), own, tally),
        5 => of_rule_5(case, at, tally),
        _ => tally.see_those(&[(highest > 0, "by rule 6 with 0 among the levels")]),
    }
}

fn of_rule_2([lowest, highest]: Entry) -> &'static str {
    match (lowest, highest) {
        (15, 0..=5) => "by rule 2 with 15 for the lowest alone",
        (0..=5, 15) => "by rule 2 with 15 for the highest alone",
        (0..=5, 0..=5) => "by rule 2 with the lowest above the highest",
        _ => "by rule 2 with a highest of 6 or more",
    }
}

/// BR's target, or the next word.
fn next_named(at: usize, word: u16) -> usize {
    if words::is_br(word) {
        usize::from(word & 0x7FF)
    } else {
        next(at)
    }
}

/// The word that breaks rule 4.
fn named(case: &Passing, word: usize, own: u8, tally: &mut Tally) {
    let Some(&entry) = entries(&case.sheet).get(word) else {
        return;
    };
    let some = levels(entry) & own;
    tally.see_those(&[
        (!is_proper(entry), "by rule 4 with an entry that is none"),
        (some != 0 && some != own, "by rule 4 with only some of the levels"),
    ]);
}

fn of_rule_5(case: &Passing, at: usize, tally: &mut Tally) {
    let rules = Rules::new(&case.rom, &case.sheet);
    let own = rules.levels(at);
    let target = usize::from(case.rom[at] & 0x7FF);
    let (called, reached) = (own << 1, rules.levels(target));
    let none = entries(&case.sheet).get(target).is_some_and(|&entry| !is_proper(entry));
    let full = own >> 5 == 1;
    if full || !holds(reached, called) {
        let some = reached & called;
        return tally.see_those(&[
            (full && own != 1 << 5, "by rule 5 with 5 among the levels of CALL"),
            (!full && none, "by rule 5 with an entry that is none"),
            (!full && some != 0, "by rule 5 with only some of the raised levels"),
        ]);
    }
    let shared = rules.shared(at);
    let (low, high) = (1 << called.trailing_zeros(), 1 << called.ilog2());
    let left = rules.levels(next(next(at)));
    tally.see_those(&[
        (shared != called, "by rule 5 for a shared depth"),
        (shared == low && low != high, "by rule 5 for a shared depth at the lowest alone"),
        (shared == high && low != high, "by rule 5 for a shared depth at the highest alone"),
        (shared & (low | high) == 0, "by rule 5 for a shared depth between"),
        (holds(left, shared >> 1), "by rule 5 though the shared depths are held"),
    ]);
}
