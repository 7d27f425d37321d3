//! The numbers of the models: 0 and 1 are taken by the four entries that have one,
//! and every other is refused with 1, with the record as it came.

use std::fmt::Debug;

use reference::{Machine, Model};

use crate::board::Board;
use crate::findings::outcome;
use crate::host::{self, RunReply, VerdictReply};
use crate::pair::{self, Finding};
use crate::random::Random;
use crate::records;
use crate::roms::{passing, Passing};
use crate::steps;
use crate::tally::Tally;
use crate::words;

/// The events that the part must see.
pub const ALL: &[&str] = &[
    "number 0",
    "number 1",
    "number 2",
    "number 3",
    "number 128",
    "number 255",
    "other numbers that are none",
    "ROMs that would pass",
    "steps that would be done",
    "steps that would be refused with 31",
    "runs of budget 0",
    "runs of some steps",
];

/// Each number in turn, in the four entries of both.
pub fn number(random: &mut Random, index: u64, tally: &mut Tally) -> Result<(), Finding> {
    let number = index as u8;
    tally.see(match number {
        0 => "number 0",
        1 => "number 1",
        2 => "number 2",
        3 => "number 3",
        128 => "number 128",
        255 => "number 255",
        _ => "other numbers that are none",
    });
    resets(number, tally)?;
    let words = steps::length(random, Model::Upd17120);
    let before = records::machine(random, Model::Upd17120, words);
    let rom = &steps::with_word(words::any(random), before.pc)[..words];
    let board = records::board(random, Model::Upd17120);
    let call = Call { number, rom, before: &before, board: &board };
    call.steps(tally)?;
    call.runs(random, tally)?;
    checks(random, number, tally)
}

/// Is this no model's number?
fn is_none(number: u8) -> bool {
    number > 1
}

/// What an entry answers, and the record that it leaves.
type Outcome<T> = (T, Machine);

/// Both answered and left the same, and what is refused where the number is none.
fn same<T: PartialEq + Debug>(
    call: &str,
    number: u8,
    [proved, second]: [Outcome<T>; 2],
    refused: Outcome<T>,
) -> Result<(), Finding> {
    let call = format!("{call} with model number {number}");
    if proved != second {
        let answers = [&proved, &second].map(|outcome| format!("{:?}", outcome.0));
        let left = outcome(&answers[0], &answers[1], &proved.1, &second.1);
        return Err(Finding(format!("{call}\n{left}")));
    }
    if is_none(number) && proved != refused {
        return Err(Finding(format!(
            "{call}: both answer {:?}, and not {:?}; first difference in the record: {:?}\n",
            proved.0,
            refused.0,
            pair::difference(&proved.1, &refused.1)
        )));
    }
    Ok(())
}

fn resets(number: u8, tally: &mut Tally) -> Result<(), Finding> {
    let mut left = pair::used();
    let answer = host::reset(number, &mut left);
    let second = match Model::of_number(number) {
        Ok(model) => (pair::DONE, Machine::reset(model)),
        Err(refusal) => (refusal, pair::used()),
    };
    tally.answer(answer);
    same("reset", number, [(answer, left), second], (1, pair::used()))
}

struct Call<'a> {
    number: u8,
    rom: &'a [u16],
    before: &'a Machine,
    board: &'a Board,
}

impl Call<'_> {
    fn steps(&self, tally: &mut Tally) -> Result<(), Finding> {
        let Call { number, rom, before, board } = *self;
        let Board { input, pulse, .. } = board;
        let (mut left, mut other) = (before.clone(), before.clone());
        let answer = host::step(number, rom, &mut left, input, *pulse);
        let second = Model::of_number(number)
            .map(|model| reference::step(model, rom, &mut other, input, *pulse))
            .map_or_else(|refusal| refusal, pair::number_of);
        tally.answer(answer);
        same("step", number, [(answer, left), (second, other)], (1, before.clone()))?;
        let would = pair::step(rom, &mut before.clone(), board)?;
        tally.see_those(&[
            (is_none(number) && would == pair::DONE, "steps that would be done"),
            (is_none(number) && would == 31, "steps that would be refused with 31"),
        ]);
        Ok(())
    }

    fn runs(&self, random: &mut Random, tally: &mut Tally) -> Result<(), Finding> {
        let Call { number, rom, before, board } = *self;
        let Board { input, pulse, .. } = board;
        let budget = random.pick(&[0, 1, 40, 65_535, 65_536]);
        let (mut left, mut other) = (before.clone(), before.clone());
        let answer = host::run(number, rom, &mut left, input, *pulse, budget);
        let refused = |number| RunReply { steps: 0, cycles: 0, number };
        let second = Model::of_number(number)
            .map(|model| reference::run(model, rom, &mut other, input, *pulse, budget))
            .map_or_else(refused, pair::reply_of);
        tally.answer(answer.number);
        tally.see_those(&[
            (is_none(number) && budget == 0, "runs of budget 0"),
            (answer.steps > 0, "runs of some steps"),
        ]);
        same("run", number, [(answer, left), (second, other)], (refused(1), before.clone()))
    }
}

/// The check of a ROM that passes for both models. It is lent no record.
fn checks(random: &mut Random, number: u8, tally: &mut Tally) -> Result<(), Finding> {
    let words = 1 + random.below(16) as usize;
    let Passing { rom, sheet, .. } = passing(random, Model::Upd17120, words);
    let answer = host::verify(number, &rom, &sheet);
    let refused = |number| VerdictReply { number, word: 0, rule: 0 };
    let second = Model::of_number(number)
        .map(|model| reference::verify(model, &rom, &sheet))
        .map_or_else(refused, pair::verdict_of);
    tally.answer(answer.number);
    tally.see_those(&[(is_none(number), "ROMs that would pass")]);
    let with = |answer| (answer, pair::used());
    same("verify", number, [with(answer), with(second)], with(refused(1)))
}
