//! Steps and cycles as document 02, E3, has them, told by a word's bits and the
//! skip mark and without either emulator: both are held to them, in a run and
//! in the last line of a text.

use reference::station::read;
use reference::{Machine, Model};

use crate::board::Board;
use crate::host::RunReply;
use crate::pair::{self, Finding};
use crate::tally::Tally;
use crate::words;

/// A run of no step.
pub const NONE: RunReply = RunReply { steps: 0, cycles: 0, number: pair::DONE };

/// Is a MOVT about to be run, or skipped?
pub fn at_movt(rom: &[u16], machine: &Machine) -> bool {
    rom.get(usize::from(machine.pc)) == Some(&words::MOVT)
}

/// The cycles of a step from `before`, where it is completed.
fn of_step(rom: &[u16], before: &Machine) -> u32 {
    if at_movt(rom, before) && before.skip == 0 {
        2
    } else {
        1
    }
}

/// What a step from `before` that answered `number` adds to a run.
pub fn add(told: &mut RunReply, rom: &[u16], before: &Machine, number: u8) {
    match number {
        pair::DONE => {
            told.steps += 1;
            told.cycles += of_step(rom, before);
        }
        pair::STANDBY => {}
        refusal => told.number = refusal,
    }
}

/// What a run is given.
#[derive(Clone, Copy)]
pub struct Run<'a> {
    pub rom: &'a [u16],
    pub before: &'a Machine,
    pub board: &'a Board,
    pub budget: u32,
}

impl Run<'_> {
    /// Step by step in both: what the run must report and leave. `see` is told
    /// of each step: from where, its number, and the run so far.
    pub fn by_steps(
        &self,
        mut see: impl FnMut(&Machine, u8, RunReply, &Machine),
    ) -> Result<(RunReply, Machine), Finding> {
        let (mut told, mut machine) = (NONE, self.before.clone());
        while told.steps < self.budget {
            let before = machine.clone();
            let number = pair::step(self.rom, &mut machine, self.board)?;
            add(&mut told, self.rom, &before, number);
            see(&before, number, told, &machine);
            if number != pair::DONE || machine.standby != 0 {
                break;
            }
        }
        Ok((told, machine))
    }

    /// Both report what is told, and leave `after`.
    pub fn is_as_told(&self, told: RunReply, after: &Machine) -> Result<(), Finding> {
        let mut machine = self.before.clone();
        let report = pair::run(self.rom, &mut machine, self.board, self.budget)?;
        if report == told && machine == *after {
            return Ok(());
        }
        Err(Finding(format!(
            "{}both report {report:?}, by document 02 {told:?}\n\
             first difference to its steps: {:?}\nROM: {:04X?}\n",
            pair::case(&format!("run of {}", self.budget), self.rom, self.before, self.board),
            pair::difference(&machine, after),
            self.rom
        )))
    }
}

/// A run of one does what the step did that answered `number` and left `after`,
/// and tells its cycles.
pub fn run_of_one(
    rom: &[u16],
    before: &Machine,
    board: &Board,
    number: u8,
    after: &Machine,
) -> Result<(), Finding> {
    let mut told = NONE;
    add(&mut told, rom, before, number);
    Run { rom, before, board, budget: 1 }.is_as_told(told, after)
}

/// The last line of a file's text in both, by the file's steps in both, on the
/// 17132 with pulse bit 0. A bad file has none.
pub fn end(file: &[u8], text: &str, tally: &mut Tally) -> Result<(), Finding> {
    let Ok(station) = read(file) else {
        return Ok(());
    };
    let model = Model::Upd17132;
    let (mut told, mut machine) = (NONE, pair::reset(model)?);
    let (mut movts, mut standby) = (0, false);
    let mut halts = 0;
    for &input in &station.inputs {
        let before = machine.clone();
        let number = pair::step(&station.rom, &mut machine, &Board { model, input, pulse: 0 })?;
        add(&mut told, &station.rom, &before, number);
        if told.number != 0 {
            break;
        }
        standby |= number == pair::STANDBY;
        halts += u32::from(number == pair::STANDBY && before.standby == 1);
        movts += u32::from(number == pair::DONE && at_movt(&station.rom, &before));
    }
    let line = format!("END {} {} {}", told.steps, told.cycles, told.number);
    if text.lines().last() != Some(&line) {
        return Err(Finding(format!("by document 02 {line}\nboth print:\n{text}")));
    }
    let run = told.cycles - told.steps;
    let see = [
        (run > 0, "texts with a MOVT run"),
        (movts > run, "texts with a MOVT skipped"),
        (run > 0 && told.number != 0, "texts refused after a MOVT"),
        (run > 0 && standby, "texts with a MOVT run and in standby"),
        (halts > 0, "texts in HALT"),
        (machine.peripherals.counter > 0, "texts with a pulse"),
        (told.number == 30, "texts refused with 30"),
        (machine.cells[0x40..0x6F].iter().any(|&cell| cell > 0), "texts with upper RAM written"),
    ];
    tally.see_those(&see);
    Ok(())
}
