//! The ranges of refusal 1, value by value and not by chance: each byte of the
//! record and of the inputs at all its 256 values, and PC, stack, ROM and
//! budget on both sides of each edge. The ROM has NOP in every word, so that
//! what a call answers and leaves is told from documents 01 and 02 (nops.rs),
//! and both emulators are held to it.

use std::fmt::Debug;
use std::sync::OnceLock;

use reference::{Input, Machine, Model, Peripherals};

use crate::board::Board;
use crate::host::VerdictReply;
use crate::nops::Call;
use crate::pair::{self, Finding};
use crate::places::*;
use crate::random::Random;
use crate::records;
use crate::tally::Tally;
use crate::words;

/// The edge `index` in three calls: with all else at its first values, at its
/// last, and random.
pub fn edge(random: &mut Random, index: u64, tally: &mut Tally) -> Result<(), Finding> {
    let edges = edges();
    if edges.len() as u64 != COUNT {
        return Err(Finding(format!("there are {} edges, and {COUNT} are told\n", edges.len())));
    }
    let edge = edges[(index % COUNT) as usize];
    for mut call in [first(edge.model), last(edge.model), any(random, edge.model)] {
        let mut budgets = vec![0, 1, 3];
        edge.put_into(&mut call, &mut budgets);
        call.is_as_told(edge, &budgets, tally)?;
    }
    if let Words = edge.place {
        check(edge, tally)?;
    }
    edge.name().into_iter().for_each(|name| tally.see(name));
    tally.see(if edge.in_range() { "values in range" } else { "values out of range" });
    Ok(())
}

fn first(model: Model) -> Call {
    let board = Board { model, input: Input::default(), pulse: 0 };
    Call { words: 1, machine: Machine::reset(model), board }
}

fn last(model: Model) -> Call {
    let words = most_words(model);
    let cells = std::array::from_fn(|address| free_bits(model, address) as u8);
    let registers = std::array::from_fn(|place| kept_bits(place) as u8);
    let machine = Machine {
        cells,
        pc: words as u16 - 1,
        stack: [1_023; 5],
        levels: 5,
        skip: 1,
        standby: 2,
        peripherals: Peripherals { registers, modulo: 255, counter: 255, divider: 127 },
    };
    let input = Input { pins: [15; 5], directions: [15; 5], release: 1 };
    Call { words, machine, board: Board { model, input, pulse: 1 } }
}

fn any(random: &mut Random, model: Model) -> Call {
    let words = 1 + random.below(most_words(model) as u64) as usize;
    let machine = records::machine(random, model, words);
    Call { words, machine, board: records::board(random, model) }
}

impl Edge {
    fn put_into(self, call: &mut Call, budgets: &mut Vec<u32>) {
        let Call { words, machine, board: Board { input, pulse, .. } } = call;
        let timer = &mut machine.peripherals;
        let (byte, word) = (self.value as u8, self.value as u16);
        match self.place {
            Cell(address) => machine.cells[address] = byte,
            Pc => machine.pc = word,
            Levels => open(machine, byte),
            Stack(place, levels) => {
                open(machine, levels);
                machine.stack[place] = word;
            }
            Skip => machine.skip = byte,
            Standby => machine.standby = byte,
            Register(place) => timer.registers[place] = byte,
            Modulo => timer.modulo = byte,
            Counter => timer.counter = byte,
            Divider => timer.divider = byte,
            Pin(port) => input.pins[port] = byte,
            Direction(port) => input.directions[port] = byte,
            Release => input.release = byte,
            Pulse => *pulse = byte,
            Words => *words = self.value as usize,
            Budget => *budgets = vec![self.value],
        }
    }
}

/// So many open levels; the places above them 0.
fn open(machine: &mut Machine, levels: u8) {
    machine.levels = levels;
    machine.stack.iter_mut().skip(levels.into()).for_each(|place| *place = 0);
}

impl Call {
    /// A run with each budget, and the step where the budget is not the edge.
    fn is_as_told(&self, edge: Edge, budgets: &[u32], tally: &mut Tally) -> Result<(), Finding> {
        let rom = &nops()[..self.words];
        for &budget in budgets {
            let (told, after) = self.run(edge.in_range(), budget);
            let mut left = self.machine.clone();
            let report = pair::run(rom, &mut left, &self.board, budget)?;
            self.same(edge, &format!("run of {budget}"), (&told, &after), (&report, &left))?;
            tally.answer(report.number);
        }
        if let Budget = edge.place {
            return Ok(());
        }
        let mut after = self.machine.clone();
        let told = if edge.in_range() { self.step(&mut after) } else { 1 };
        let mut left = self.machine.clone();
        let number = pair::step(rom, &mut left, &self.board)?;
        self.same(edge, "step", (&told, &after), (&number, &left))?;
        tally.answer(number);
        Ok(())
    }

    /// Both answered and left the same: that must be what is told.
    fn same<T: Debug + PartialEq>(
        &self,
        edge: Edge,
        call: &str,
        told: (&T, &Machine),
        got: (&T, &Machine),
    ) -> Result<(), Finding> {
        if told == got {
            return Ok(());
        }
        let rom = &nops()[..self.words];
        Err(Finding(format!(
            "{edge:?}, {}both answer {:?} and leave:\n{}by documents 01 and 02 {:?}\n\
             first difference to it in the record: {:?}\n",
            pair::case(call, rom, &self.machine, &self.board),
            got.0,
            pair::show(got.1),
            told.0,
            pair::difference(got.1, told.1)
        )))
    }
}

/// The check of a ROM of so many NOPs at level 0, with a sheet of two bytes a word,
/// an entry or a byte less and more, and a byte a word. Only after 1,023 next is 0.
fn check(edge: Edge, tally: &mut Tally) -> Result<(), Finding> {
    let words = edge.value as usize;
    let right = 2 * words;
    let last = VerdictReply { number: pair::FAIL, word: (words as u16).wrapping_sub(1), rule: 4 };
    let alone = |number| VerdictReply { number, word: 0, rule: 0 };
    for bytes in
        [0, words, right.saturating_sub(2), right.saturating_sub(1), right, right + 1, right + 2]
    {
        let told = match words {
            _ if !edge.in_range() => alone(1),
            _ if bytes != right => alone(9),
            1_024 => alone(pair::DONE),
            _ => last,
        };
        let sheet = vec![0; bytes];
        let checked = pair::verify(edge.model, &nops()[..words], &sheet)?;
        if checked != told {
            return Err(Finding(format!(
                "the check of {words} words with a sheet of {bytes} bytes for the {:?}: \
                 both answer {checked:?}, by documents 01 and 02 {told:?}\n",
                edge.model
            )));
        }
        tally.answer(checked.number);
    }
    Ok(())
}

/// NOPs for the longest ROM.
fn nops() -> &'static [u16] {
    static NOPS: OnceLock<Vec<u16>> = OnceLock::new();
    NOPS.get_or_init(|| vec![words::NOP; 66_560])
}
