//! Steps with an operand in the cells that the 17120 lacks, or next to them: each
//! form of instruction that has operands in turn, mostly on the 17120. Some
//! records and pulse bits are out of range.

use reference::{Machine, Model};

use crate::board::Board;
use crate::counts;
use crate::events;
use crate::pair::{self, Finding};
use crate::random::Random;
use crate::records;
use crate::steps;
use crate::tally::Tally;
use crate::told::Step;
use crate::transfers::{self, Kind};
use crate::words;

/// One step, and a run of one.
pub fn step(random: &mut Random, index: u64, tally: &mut Tally) -> Result<(), Finding> {
    let model = if random.once_in(8) { Model::Upd17132 } else { Model::Upd17120 };
    let words = steps::length(random, model);
    let mut before = records::machine(random, model, words);
    let word = aimed(random, words::nth_with_operands(index), &mut before);
    let mut board = records::board(random, model);
    let in_range = !random.once_in(16);
    if !in_range {
        spoil(random, &mut before, &mut board);
    }
    let rom = &steps::with_word(word, before.pc)[..words];
    let mut after = before.clone();
    let number = pair::step(rom, &mut after, &board)?;
    tally.answer(number);
    let step = Step { rom, before: &before, board: &board, number, after: &after };
    step.is_as_told(in_range)?;
    events::missing::count(&step, in_range, tally);
    counts::run_of_one(rom, &before, &board, number, &after)
}

/// A word of this opcode or row of the group, with operands that lie where they
/// are to lie in this machine.
fn aimed(random: &mut Random, word: u16, machine: &mut Machine) -> u16 {
    match transfers::taken(word) {
        Some((kind @ (Kind::Peek | Kind::Poke), _)) => {
            let near = [0x3F, 0x40, 0x6E, 0x6F, near(random)];
            return transfers::word(kind, random.pick(&near));
        }
        _ if words::is_rorc(word) => return word | aim_r(random, machine),
        _ => {}
    }
    let m = aim_m(random, machine);
    let low = match word {
        _ if words::is_indirect(word) => aim_pointer(random, machine),
        _ if words::has_r(word) => aim_r(random, machine),
        _ if random.once_in(4) => 0,
        _ => random.word(16),
    };
    word | u16::from(m) << 4 | low
}

/// A cell of the RAM that every model has, or one at or near the missing ones.
fn cell(random: &mut Random) -> u8 {
    if random.once_in(2) {
        random.byte(0x40)
    } else {
        near(random)
    }
}

fn near(random: &mut Random) -> u8 {
    match random.below(4) {
        0 => 0x3E + random.byte(4),
        1 => 0x6D + random.byte(4),
        2 => 0x40 + random.byte(0x2F),
        _ => random.byte(128),
    }
}

/// Puts the row of r where its cell is, and gives its column.
fn aim_r(random: &mut Random, machine: &mut Machine) -> u16 {
    let cell = cell(random);
    let bcd = machine.cells[0x7E] & 1;
    records::set(machine, Machine::RPL, cell >> 4 << 1 | bcd);
    u16::from(cell & 0xF)
}

/// The m of a cell: the cell itself, or what gives it with IX.
fn aim_m(random: &mut Random, machine: &mut Machine) -> u8 {
    let cell = cell(random);
    let flags = machine.cells[0x7F] & !1;
    if random.once_in(2) {
        records::set(machine, Machine::PSW, flags);
        return cell;
    }
    records::set(machine, Machine::PSW, flags | 1);
    let (own, shared) = (random.byte(128), random.byte(128));
    records::set_index(machine, cell & (!own | shared));
    cell & own
}

/// An r for @r that mostly holds the column of a cell, with MPE and the cell's row
/// in 7BH, or without MPE.
fn aim_pointer(random: &mut Random, machine: &mut Machine) -> u16 {
    let r = aim_r(random, machine);
    let cell = cell(random);
    let pointer = machine.cells[0x7E] / 2 * 16 + r as u8;
    if pointer < 0x40 {
        machine.cells[usize::from(pointer)] = cell & 0xF;
    }
    let pointed = random.once_in(2);
    records::set(machine, Machine::IXH, if pointed { 8 } else { 0 });
    if pointed {
        records::set(machine, Machine::IXM, cell >> 4);
    }
    r
}

/// Puts the pulse bit, the release or a cell that the 17120 lacks out of range.
fn spoil(random: &mut Random, before: &mut Machine, board: &mut Board) {
    match random.below(3) {
        0 => board.pulse = 2 + random.byte(254),
        1 => board.input.release = 2 + random.byte(254),
        _ => {
            let cell = 0x40 + random.below(0x2F) as usize;
            let most = if board.model == Model::Upd17120 { 0 } else { 15 };
            before.cells[cell] = most + 1 + random.byte(15);
        }
    }
}
