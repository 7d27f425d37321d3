//! Runs on ROMs with many MOVTs, which take two cycles each.

use reference::{Machine, Model};

use crate::counts::{at_movt, Run, NONE};
use crate::host::RunReply;
use crate::pair::{self, Finding};
use crate::random::Random;
use crate::records;
use crate::tally::Tally;
use crate::words;

/// What the part must meet.
pub const ALL: &[&str] = &[
    "MOVTs run",
    "MOVTs skipped",
    "MOVTs refused with 6",
    "MOVTs refused with 8",
    "runs refused after a MOVT",
    "runs refused with 31 after a MOVT",
    "runs in standby after a MOVT",
    "runs cut behind a MOVT",
    "runs cut behind a skipped MOVT",
    "runs cut before a MOVT",
    "runs that stay in standby",
    "runs of budget 0",
    "runs of more than 65,535 cycles",
    "runs of 131,070 cycles",
];

/// The largest budget.
const BUDGET: u32 = 65_535;

/// One run: step by step, whole, and cut in two. At times its ROM has nothing
/// but MOVT.
pub fn run(random: &mut Random, index: u64, tally: &mut Tally) -> Result<(), Finding> {
    let longest = index.is_multiple_of(2_048);
    let model = if longest { Model::Upd17132 } else { records::model(random) };
    let rom = if longest { vec![words::MOVT; 1024] } else { tables(random) };
    let before = if longest { pair::reset(model)? } else { machine(random, model, rom.len()) };
    let budget = match random.below(64) {
        _ if longest => BUDGET,
        0 => BUDGET,
        1..=4 => 0,
        _ => random.below(40) as u32,
    };
    let board = records::board(random, model);
    let run = Run { rom: &rom, before: &before, board: &board, budget };
    let (told, after) = run.by_steps(|before, number, told, _| {
        if at_movt(&rom, before) {
            see_movt(before, number, told.steps == budget, tally);
        }
    })?;
    run.is_as_told(told, &after)?;
    tally.answer(told.number);
    see_run(run, told, &after, tally);
    is_cut(run, random.below(u64::from(told.steps) + 1) as u32, told, &after)
}

/// A short ROM with many MOVTs, and with words that pass over them, end a run
/// or move AR and the stack.
fn tables(random: &mut Random) -> Vec<u16> {
    const AROUND: [u16; 5] =
        [words::INC_AR, words::PUSH_AR, words::POP_AR, words::RET, words::RETSK];
    let words = 1 + random.below(24);
    let word = |random: &mut Random| match random.below(16) {
        0..=4 => words::MOVT,
        5..=7 => words::skip(random),
        8 => words::br(random.word(words)),
        9 => words::call(random.word(words)),
        10 => random.pick(&AROUND),
        11 => words::halt(random),
        12 => words::any(random),
        _ => words::plain(random),
    };
    (0..words).map(|_| word(random)).collect()
}

/// A random machine, mostly with AR in the ROM.
fn machine(random: &mut Random, model: Model, words: usize) -> Machine {
    let mut machine = records::machine(random, model, words);
    if !random.once_in(4) {
        records::set_ar(&mut machine, random.word(words as u64));
    }
    machine
}

/// So many steps of a run, and then a run of the rest, report as much as the
/// whole.
fn is_cut(run: Run, steps: u32, whole: RunReply, after: &Machine) -> Result<(), Finding> {
    let first = Run { budget: steps, ..run };
    let (told, between) = first.by_steps(|_, _, _, _| ())?;
    first.is_as_told(told, &between)?;
    // The whole ends in standby. Released, the rest would go on, and in HALT it
    // moves the timer.
    if steps > 0 && between.standby != 0 {
        return Ok(());
    }
    let rest = RunReply {
        steps: whole.steps - told.steps,
        cycles: whole.cycles - told.cycles,
        number: whole.number,
    };
    Run { before: &between, budget: run.budget - steps, ..run }.is_as_told(rest, after)
}

/// What became of a MOVT, and whether its run was cut behind it.
fn see_movt(before: &Machine, number: u8, cut: bool, tally: &mut Tally) {
    let skipped = before.skip == 1;
    tally.see(match (number, skipped) {
        (pair::DONE, false) => "MOVTs run",
        (pair::DONE, true) => "MOVTs skipped",
        (6, _) => "MOVTs refused with 6",
        (8, _) => "MOVTs refused with 8",
        _ => return,
    });
    if cut {
        tally.see(if skipped {
            "runs cut behind a skipped MOVT"
        } else {
            "runs cut behind a MOVT"
        });
    }
}

/// Where a run ended.
fn see_run(run: Run, told: RunReply, after: &Machine, tally: &mut Tally) {
    let cut = told.steps == run.budget && run.budget > 0;
    let tables = told.cycles > told.steps;
    tally.see_those(&[
        (tables && told.number != 0, "runs refused after a MOVT"),
        (tables && told.number == 31, "runs refused with 31 after a MOVT"),
        (tables && after.standby != 0, "runs in standby after a MOVT"),
        (cut && at_movt(run.rom, after), "runs cut before a MOVT"),
        (told == NONE && run.budget > 0, "runs that stay in standby"),
        (run.budget == 0, "runs of budget 0"),
        (told.cycles > BUDGET, "runs of more than 65,535 cycles"),
        (told.cycles == 2 * BUDGET, "runs of 131,070 cycles"),
    ]);
}
