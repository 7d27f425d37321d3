//! Steps from records with the timer about to count: each of PEEK, POKE, GET
//! and PUT with each address in turn, and between them random words. Some
//! records and pulse bits are out of range.

use reference::Machine;

use crate::board::Board;
use crate::counts;
use crate::events;
use crate::pair::{self, Finding};
use crate::random::Random;
use crate::records;
use crate::steps;
use crate::tally::Tally;
use crate::timers;
use crate::told::Step;
use crate::transfers;
use crate::words;

/// One step, and a run of one.
pub fn step(random: &mut Random, index: u64, tally: &mut Tally) -> Result<(), Finding> {
    let model = records::model(random);
    let words = steps::length(random, model);
    let mut before = records::machine(random, model, words);
    before.standby = random.pick(&[0, 0, 0, 0, 0, 1, 1, 2]);
    let mut board = records::board(random, model);
    let in_range = !random.once_in(16);
    if !in_range {
        spoil(random, &mut before, &mut board, tally);
    }
    let word = if index.is_multiple_of(2) { transfers::nth(index / 2) } else { word(random) };
    let rom = &steps::with_word(word, before.pc)[..words];
    let mut after = before.clone();
    let number = pair::step(rom, &mut after, &board)?;
    tally.answer(number);
    let step = Step { rom, before: &before, board: &board, number, after: &after };
    step.is_as_told(in_range)?;
    events::timer::count(&step, tally);
    counts::run_of_one(rom, &before, &board, number, &after)
}

/// A word that moves the timer, or shows it, or neither.
fn word(random: &mut Random) -> u16 {
    match random.below(8) {
        0..=3 => transfers::any(random),
        4 => words::MOVT,
        5 => words::halt(random),
        6 => words::plain(random),
        _ => words::any(random),
    }
}

/// Puts a register, the divider, the pulse bit or the standby mark out of range.
fn spoil(random: &mut Random, before: &mut Machine, board: &mut Board, tally: &mut Tally) {
    tally.see(match random.below(4) {
        0 => {
            before.standby = if random.once_in(2) { 3 } else { 3 + random.byte(253) };
            "standby marks out of range"
        }
        1 => {
            board.pulse = if random.once_in(2) { 2 } else { 2 + random.byte(254) };
            "pulse bits out of range"
        }
        _ => {
            timers::spoil(random, &mut before.peripherals);
            "registers and dividers out of range"
        }
    });
}
