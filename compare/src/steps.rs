//! Steps and runs from random records: every word at boundary states, random
//! words in random records, and runs on ROMs of random words.

use std::sync::OnceLock;

use reference::{Machine, Model};

use crate::counts;
use crate::events;
use crate::pair::{self, Finding};
use crate::random::Random;
use crate::records;
use crate::tally::Tally;
use crate::told::Step;
use crate::words;

/// Boundary states of each word on the 17132: four of each of the 16 settings of
/// IXE, MPE, BCD and CMP. The 17120 has two of each.
const STATES: u8 = 64;
const SMALL_STATES: u8 = 32;
/// From word to word. It is odd, so that each comes once.
const STRIDE: u16 = 0x9E3B;
/// From here on the states are corners.
const CORNERS: u8 = 48;
const SMALL_CORNERS: u8 = 24;

/// One word at boundary states. 65,536 cases have every word once, and fewer
/// have words of all kinds.
pub fn every_word(random: &mut Random, index: u64, tally: &mut Tally) -> Result<(), Finding> {
    let word = (index as u16).wrapping_mul(STRIDE);
    at_states(random, Model::Upd17132, word, [CORNERS, STATES], tally)?;
    at_states(random, Model::Upd17120, word, [SMALL_CORNERS, SMALL_STATES], tally)
}

/// One word at so many states of a model.
fn at_states(
    random: &mut Random,
    model: Model,
    word: u16,
    [corners, states]: [u8; 2],
    tally: &mut Tally,
) -> Result<(), Finding> {
    for state in 0..corners {
        let words = length(random, model);
        let mut machine = records::boundary(random, model, words, state);
        // Most states are for the word itself, two for skipping it, and a few
        // for either.
        match state {
            0 | 1 => (machine.skip, machine.standby) = (1, 0),
            2..16 => {}
            _ => machine.skip = 0,
        }
        one_step(random, model, word, words, machine, tally)?;
    }
    for state in corners..states {
        let machine = records::corner(random, model, state, state % 6);
        one_step(random, model, word, model.rom_words(), machine, tally)?;
    }
    Ok(())
}

/// A random word in a random record.
pub fn random_word(random: &mut Random, _: u64, tally: &mut Tally) -> Result<(), Finding> {
    let model = records::model(random);
    let words = length(random, model);
    let machine = records::machine(random, model, words);
    let word = words::any(random);
    one_step(random, model, word, words, machine, tally)
}

/// One step of a machine in a ROM of so many words, with `word` at its PC.
fn one_step(
    random: &mut Random,
    model: Model,
    word: u16,
    words: usize,
    before: Machine,
    tally: &mut Tally,
) -> Result<(), Finding> {
    let rom = &with_word(word, before.pc)[..words];
    let board = records::board(random, model);
    let mut machine = before.clone();
    let number = pair::step(rom, &mut machine, &board)?;
    tally.answer(number);
    let step = Step { rom, before: &before, board: &board, number, after: &machine };
    step.is_missing_as_told(true)?;
    events::count(&step, tally);
    counts::run_of_one(rom, &before, &board, number, &machine)
}

/// A run on a short ROM of random words, and a step after it.
pub fn random_run(random: &mut Random, _: u64, tally: &mut Tally) -> Result<(), Finding> {
    let model = records::model(random);
    let words = 1 + random.below(24);
    let rom: Vec<u16> = (0..words).map(|_| words::any(random)).collect();
    let mut machine = records::machine(random, model, rom.len());
    let budget = match random.below(64) {
        0 => 65_535,
        1..=15 => random.below(2) as u32,
        _ => random.below(40) as u32,
    };
    let board = records::board(random, model);
    let report = pair::run(&rom, &mut machine, &board, budget)?;
    tally.answer(report.number);
    tally.see(match (report.steps, report.number) {
        (0, _) => "runs of no step",
        (_, 31) => "runs of some steps up to a missing cell",
        _ => "runs of some steps",
    });
    tally.answer(pair::step(&rom, &mut machine, &records::board(random, model))?);
    Ok(())
}

/// ROM words for MOVT to find, with `word` at an address.
pub fn with_word(word: u16, address: u16) -> [u16; 1024] {
    let mut rom = *table();
    rom[usize::from(address)] = word;
    rom
}

/// They are the same for every case.
fn table() -> &'static [u16; 1024] {
    static TABLE: OnceLock<[u16; 1024]> = OnceLock::new();
    TABLE.get_or_init(|| {
        let mut random = Random::of_case(0, 0, 0);
        std::array::from_fn(|_| random.bits() as u16)
    })
}

/// The length of a ROM: the model's longest, short ones, and all others.
pub fn length(random: &mut Random, model: Model) -> usize {
    let most = model.rom_words() as u64;
    let words = match random.below(4) {
        0 => most,
        1 => 1 + random.below(8),
        2 => most - 8 + random.below(8),
        _ => 1 + random.below(most),
    };
    words as usize
}
