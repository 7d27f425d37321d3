//! A machine on its way through a ROM that passed, held to demand 3 at every
//! moment.

use reference::Machine;

use crate::board::Board;
use crate::clock;
use crate::counts;
use crate::host::RunReply;
use crate::operands;
use crate::pair::{self, Finding};
use crate::roms::Passing;
use crate::sheets::{entries, is_wide, levels, Entry};
use crate::tally::Tally;
use crate::words;

/// A machine on its way, and the open calls counted from the words that ran.
pub struct Walk<'a> {
    pub case: &'a Passing,
    /// The levels of the reached RETSK, one bit each.
    pub skipping: u8,
    pub machine: Machine,
    pub open: u8,
    /// Refused with 31, and no step completed since.
    pub stopped: bool,
    /// The open calls that a run met at each word, one bit each.
    pub met: Vec<u8>,
}

impl Walk<'_> {
    /// From reset.
    pub fn new(case: &Passing) -> Result<Walk<'_>, Finding> {
        let machine = pair::reset(case.model)?;
        let (skipping, met) = (skipping(case), vec![0; case.rom.len()]);
        Ok(Walk { case, skipping, machine, open: 0, stopped: false, met })
    }

    /// A step: refused with 1 exactly where its inputs are out of range, with 31
    /// exactly where an operand is missing, and never with another number. One
    /// that is not completed leaves all but the timer, which runs in HALT.
    pub fn step(&mut self, board: &Board, tally: &mut Tally) -> Result<u8, Finding> {
        let before = self.machine.clone();
        let number = pair::step(&self.case.rom, &mut self.machine, board)?;
        tally.answer(number);
        let (told, peripherals) = match board.in_range() {
            false => (1, before.peripherals),
            true if board.keeps_standing(before.standby) => {
                (pair::STANDBY, clock::after_standing(&before, board.pulse))
            }
            true if operands::meets_31(&self.case.rom, &before, board) => (31, before.peripherals),
            true => {
                let word = self.case.rom[usize::from(before.pc)];
                (pair::DONE, clock::after_step(&before, word, board.pulse))
            }
        };
        let timed = self.machine.peripherals == peripherals;
        let kept = || self.machine == Machine { peripherals, ..before.clone() };
        if number != told || !timed || number != pair::DONE && !kept() {
            return Err(self.broken(&format!("both steps answer {number} for {board:?}"), &before));
        }
        let wide = self.entry(&before).is_some_and(is_wide);
        match number {
            pair::DONE => self.count(&before, board, tally),
            pair::STANDBY => {
                tally.see(if before.standby == 1 { "steps in HALT" } else { "steps in STOP" });
                tally.see_those(&[(wide && before.standby == 1, "steps in HALT at a range")]);
            }
            _ => self.count_refusal(number, tally),
        }
        self.moment(&before)?;
        Ok(number)
    }

    /// The steps of a run one by one, its moments, and then the run itself: its
    /// counts and its end.
    pub fn run(&mut self, board: &Board, budget: u32, tally: &mut Tally) -> Result<(), Finding> {
        let before = self.machine.clone();
        let in_range = board.in_range() && budget <= 65_535;
        let mut expected = RunReply { steps: 0, cycles: 0, number: u8::from(!in_range) };
        self.met.fill(0);
        while in_range && expected.steps < budget {
            let earlier = self.machine.clone();
            self.met[usize::from(earlier.pc)] |= 1 << self.open;
            let number = self.step(board, tally)?;
            counts::add(&mut expected, &self.case.rom, &earlier, number);
            if number != pair::DONE || self.machine.standby != 0 {
                break;
            }
        }
        let mut machine = before.clone();
        let report = pair::run(&self.case.rom, &mut machine, board, budget)?;
        tally.answer(report.number);
        if report == expected && machine == self.machine {
            self.count_run(report, budget, tally);
            return Ok(());
        }
        let what = format!(
            "both runs of {budget} report {report:?}; step by step it is {expected:?}; \
             first difference {:?}",
            pair::difference(&machine, &self.machine)
        );
        Err(self.broken(&what, &before))
    }

    /// The entry of the word about to run.
    pub fn entry(&self, machine: &Machine) -> Option<Entry> {
        entries(&self.case.sheet).get(usize::from(machine.pc)).copied()
    }

    /// Demand 3 at this moment, after a step from `before`: the PC is in the
    /// ROM, and the open calls, which the open levels are, lie in its range.
    pub fn moment(&self, before: &Machine) -> Result<(), Finding> {
        let entry = self.entry(&self.machine);
        let lies = entry.is_some_and(|[lowest, highest]| (lowest..=highest).contains(&self.open));
        if lies && self.machine.levels == self.open {
            return Ok(());
        }
        let what = format!("the entry is {entry:?}, open calls {}", self.open);
        Err(self.broken(&what, before))
    }

    /// What is wrong though the two emulators agree.
    fn broken(&self, what: &str, before: &Machine) -> Finding {
        let Passing { model, rom, sheet } = self.case;
        Finding(format!(
            "{model:?}: {what}\nword {}, before:\n{}word {}, after:\n{}\
             ROM: {rom:04X?}\nsheet: {sheet:?}\n",
            pair::word_at(rom, before.pc),
            pair::show(before),
            pair::word_at(rom, self.machine.pc),
            pair::show(&self.machine)
        ))
    }
}

/// The levels of the reached RETSK, one bit each.
fn skipping(case: &Passing) -> u8 {
    let words = case.rom.iter().zip(entries(&case.sheet));
    let retsks = words.filter(|(&word, _)| word == words::RETSK);
    retsks.fold(0, |all, (_, &entry)| all | levels(entry))
}
