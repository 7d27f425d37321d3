//! Runs on short ROMs of words that move the timer or show it, often begun in
//! standby: each step by step, whole, and held to its steps.

use reference::Machine;

use crate::counts::{Run, NONE};
use crate::host::RunReply;
use crate::pair::Finding;
use crate::random::Random;
use crate::records;
use crate::tally::Tally;
use crate::transfers;
use crate::words;

/// What the part must meet.
pub const ALL: &[&str] = &[
    "runs begun in HALT, budget 0",
    "runs begun in HALT, budget 1",
    "runs begun in HALT, more budget",
    "runs begun in HALT that count",
    "runs begun in STOP",
    "runs released from HALT",
    "runs released from STOP",
    "runs that end in HALT",
    "runs that end in STOP",
    "runs of some pulses of the INT pin",
    "runs of some pulses of a period",
    "runs of two matches",
    "runs refused with 30",
    "runs refused with 31",
];

/// One run. At times its ROM is a loop that takes the whole budget.
pub fn run(random: &mut Random, index: u64, tally: &mut Tally) -> Result<(), Finding> {
    let long = index.is_multiple_of(1_024);
    let rom = if long { polling(random) } else { short(random) };
    let model = records::model(random);
    let mut before = records::machine(random, model, rom.len());
    before.standby = if long { 0 } else { random.pick(&[0, 0, 0, 1, 1, 2]) };
    if long {
        (before.pc, before.skip) = (0, 0);
    }
    let budget = match random.below(128) {
        _ if long => 65_535,
        0 => 65_535,
        1..=16 => 0,
        17..=32 => 1,
        _ => random.below(60) as u32,
    };
    let board = records::board(random, model);
    let run = Run { rom: &rom, before: &before, board: &board, budget };
    let (mut pulses, mut matches) = (0, 0);
    let (told, after) = run.by_steps(|before, _, _, after| {
        let (old, new) = (before.peripherals.counter, after.peripherals.counter);
        pulses += u32::from(old != new);
        matches += u32::from(old == before.peripherals.modulo && old > 0 && new == 0);
    })?;
    run.is_as_told(told, &after)?;
    tally.answer(told.number);
    see(run, told, &after, tally);
    let pin = after.peripherals.registers[0] & 3 == 3;
    tally.see_those(&[
        (pulses > 1 && pin, "runs of some pulses of the INT pin"),
        (pulses > 1 && !pin, "runs of some pulses of a period"),
        (matches > 1, "runs of two matches"),
    ]);
    Ok(())
}

/// Words that are refused seldom.
fn short(random: &mut Random) -> Vec<u16> {
    let words = 1 + random.below(24);
    let word = |random: &mut Random| match random.below(16) {
        0..=4 => transfers::allowed(random),
        5 => transfers::any(random),
        6..=7 => words::skip(random),
        8..=9 => words::br(random.word(words)),
        10 => words::MOVT,
        11 => words::halt(random),
        12 => words::NOP,
        _ => words::plain(random),
    };
    (0..words).map(|_| word(random)).collect()
}

/// A loop that is never refused: GET, some NOPs, perhaps a PUT or a POKE of
/// 11H, and back.
fn polling(random: &mut Random) -> Vec<u16> {
    const GET: u16 = 0x38B2;
    const ALSO: [u16; 4] = [words::NOP, words::NOP, 0x38A3, 0x3921];
    let mut rom = vec![GET];
    rom.resize(1 + random.below(8) as usize, words::NOP);
    rom.push(random.pick(&ALSO));
    rom.push(words::br(0));
    rom
}

/// Where a run began and ended.
fn see(run: Run, told: RunReply, after: &Machine, tally: &mut Tally) {
    let stands = run.board.keeps_standing(run.before.standby);
    let goes_on = !stands && told.steps > 0;
    let (halt, stop) = (run.before.standby == 1, run.before.standby == 2);
    let counted = after.peripherals.counter != run.before.peripherals.counter;
    tally.see_those(&[
        (stands && halt && run.budget == 0, "runs begun in HALT, budget 0"),
        (stands && halt && run.budget == 1, "runs begun in HALT, budget 1"),
        (stands && halt && run.budget > 1, "runs begun in HALT, more budget"),
        (stands && halt && counted && told == NONE, "runs begun in HALT that count"),
        (stands && stop && run.budget > 0 && after == run.before, "runs begun in STOP"),
        (goes_on && halt, "runs released from HALT"),
        (goes_on && stop, "runs released from STOP"),
        (goes_on && after.standby == 1, "runs that end in HALT"),
        (goes_on && after.standby == 2, "runs that end in STOP"),
        (goes_on && told.number == 30, "runs refused with 30"),
        (goes_on && told.number == 31, "runs refused with 31"),
    ]);
}
