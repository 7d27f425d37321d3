//! The two checks on random ROMs and sheets, for each model in turn.

use reference::Model;

use crate::damages::damage;
use crate::events;
use crate::host::VerdictReply;
use crate::pair::{self, Finding};
use crate::places::{lacks, most_words};
use crate::random::Random;
use crate::roms::{passing, Passing};
use crate::rules::{self, meets_30};
use crate::shapes;
use crate::sheets::{entries, is_reached};
use crate::tally::Tally;
use crate::transfers::{self, Kind};
use crate::words;

/// The things that the part must see besides those of ranges.
const OTHERS: [&str; 16] = [
    "by rule 1",
    "by rule 2",
    "by rule 3",
    "by rule 4",
    "by rule 5",
    "by rule 6",
    "by rule 3 for refusal 30",
    "ROMs that pass with the four",
    "ROMs that pass with a missing operand",
    "ROMs of 769 to 1,024 words for the 17120",
    "by rule 3 for MOVT in 768 words",
    "by rule 4 at 767",
    "by rule 4 for BR past 767",
    "by rule 5 past 767",
    "sheets of more than 65,536 bytes",
    "ROMs of more than 65,536 words",
];

/// All that the part must see.
pub const ALL: &[&str] = &{
    let ranges = events::sheets::ALL;
    let mut all = [""; OTHERS.len() + events::sheets::ALL.len()];
    let mut at = 0;
    while at < all.len() {
        all[at] = if at < OTHERS.len() { OTHERS[at] } else { ranges[at - OTHERS.len()] };
        at += 1;
    }
    all
};

/// A passing ROM of each length in turn, then damaged forms of it, then small
/// random ones and a longest one. Some ROMs and sheets are far too long.
pub fn checks(random: &mut Random, index: u64, tally: &mut Tally) -> Result<(), Finding> {
    let model = Model::ALL[(index % 2) as usize];
    let words = (index / 2) as usize % most_words(model) + 1;
    let case = passing(random, model, words);
    passes(&case)?;
    judge(&case, tally)?;
    tally.see_those(&[
        (
            reached(&case).any(|word| transfers::taken(word).is_some()),
            "ROMs that pass with the four",
        ),
        (
            reached(&case).any(|word| names_missing(model, word)),
            "ROMs that pass with a missing operand",
        ),
    ]);
    for changes in [1, 1, 1, 2, 4] {
        let mut damaged = case.clone();
        (0..changes).for_each(|_| damage(random, &mut damaged));
        judge(&damaged, tally)?;
    }
    if index % 512 < 2 {
        too_long(&case, tally)?;
    }
    if model == Model::Upd17120 {
        for_the_other(random, tally)?;
    }
    judge(&shapes::table(random), tally)?;
    judge(&shapes::call(random, model), tally)?;
    judge(&shapes::small(random, model), tally)
}

/// A ROM that passes for the 17132 and is too long for the 17120, or just not;
/// then with a MOVT, and with a last word that names one past it.
fn for_the_other(random: &mut Random, tally: &mut Tally) -> Result<(), Finding> {
    let words = random.pick(&[767, 768, 769, 770, 1023, 1024]);
    let mut case = passing(random, Model::Upd17132, words);
    passes(&case)?;
    case.model = Model::Upd17120;
    judge(&case, tally)?;
    if words > 768 {
        case.sheet.pop();
        judge(&case, tally)?;
        tally.see("ROMs of 769 to 1,024 words for the 17120");
        return Ok(());
    }
    let mut table = case.clone();
    if let Some(at) = (0..words - 1).find(|&at| case.sheet[2 * at..2 * at + 4] == [0; 4]) {
        table.rom[at] = words::MOVT;
        judge(&table, tally)?;
    }
    let past = 768 + random.word(256);
    case.rom[words - 1] = random.pick(&[words::NOP, words::br(past), words::call(past)]);
    judge(&case, tally)
}

/// Both checks pass a ROM that was made to pass.
pub fn passes(case: &Passing) -> Result<(), Finding> {
    let Passing { model, rom, sheet } = case;
    let checked = pair::verify(*model, rom, sheet)?;
    if checked.number == pair::DONE {
        return Ok(());
    }
    let checked = pair::named(rom, &checked);
    Err(Finding(format!(
        "a ROM made to pass for the {model:?}, and both answer {checked}\n\
         ROM: {rom:04X?}\nsheet: {sheet:?}\n"
    )))
}

/// Lengths that are those of a good case in their low sixteen bits.
fn too_long(case: &Passing, tally: &mut Tally) -> Result<(), Finding> {
    let Passing { model, mut rom, mut sheet } = case.clone();
    sheet.resize(65_536 + sheet.len(), 0);
    judge(&Passing { model, rom: case.rom.clone(), sheet: sheet.clone() }, tally)?;
    tally.see("sheets of more than 65,536 bytes");
    rom.resize(65_536 + rom.len(), words::NOP);
    judge(&Passing { model, rom: rom.clone(), sheet: case.sheet.clone() }, tally)?;
    sheet.resize(65_536 + sheet.len(), 0);
    judge(&Passing { model, rom, sheet }, tally)?;
    tally.see("ROMs of more than 65,536 words");
    Ok(())
}

/// Both checks, held to what the papers tell.
fn judge(case: &Passing, tally: &mut Tally) -> Result<(), Finding> {
    let Passing { model, rom, sheet } = case;
    let checked = pair::verify(*model, rom, sheet)?;
    let told = rules::verdict(*model, rom, sheet);
    if checked != told {
        return Err(Finding(format!(
            "the check for the {model:?}: both answer {}, by documents 01 and 02 {}\n\
             ROM: {rom:04X?}\nsheet: {sheet:?}\n",
            pair::named(rom, &checked),
            pair::named(rom, &told)
        )));
    }
    tally.answer(checked.number);
    events::sheets::count(case, checked, tally);
    if *model == Model::Upd17120 {
        judge_17120(case, checked, tally)?;
    }
    if checked.rule == 3 && meets_30(rom[usize::from(checked.word)]) {
        tally.see("by rule 3 for refusal 30");
    }
    tally.see(match checked.rule {
        4 if *model == Model::Upd17120 && checked.word == 767 => "by rule 4 at 767",
        1 => "by rule 1",
        2 => "by rule 2",
        3 => "by rule 3",
        4 => "by rule 4",
        5 => "by rule 5",
        6 => "by rule 6",
        _ => return Ok(()),
    });
    Ok(())
}

/// The model decides how long a ROM can be, and nothing else: one that is not too
/// long is judged as for the 17132, whose ROM then has not the words for MOVT.
fn judge_17120(case: &Passing, checked: VerdictReply, tally: &mut Tally) -> Result<(), Finding> {
    let told = match case.rom.len() {
        0..=768 => pair::verify(Model::Upd17132, &case.rom, &case.sheet)?,
        _ => VerdictReply { number: 1, word: 0, rule: 0 },
    };
    if checked != told {
        return Err(Finding(format!(
            "the check of {} words for the 17120: both answer {checked:?}, told {told:?}\n\
             ROM: {:04X?}\nsheet: {:?}\n",
            case.rom.len(),
            case.rom,
            case.sheet
        )));
    }
    let word = case.rom.get(usize::from(checked.word)).copied().unwrap_or_default();
    tally.see_those(&[
        (
            checked.rule == 3 && word == words::MOVT && case.rom.len() == 768,
            "by rule 3 for MOVT in 768 words",
        ),
        (checked.rule == 5 && (768..1024).contains(&(word & 0x7FF)), "by rule 5 past 767"),
        (
            checked.rule == 4 && words::is_br(word) && (768..1024).contains(&(word & 0x7FF)),
            "by rule 4 for BR past 767",
        ),
    ]);
    Ok(())
}

/// Names a word a cell that the model lacks, in m or rf?
fn names_missing(model: Model, word: u16) -> bool {
    match transfers::taken(word) {
        Some((Kind::Peek | Kind::Poke, address)) => lacks(model, address),
        _ => words::has_data(word) && lacks(model, words::m_field(word)),
    }
}

/// The reached words.
fn reached(case: &Passing) -> impl Iterator<Item = u16> + '_ {
    let words = case.rom.iter().zip(entries(&case.sheet));
    words.filter(|(_, &entry)| is_reached(entry)).map(|(&word, _)| word)
}
