//! Random machines and inputs in range, and inputs out of it.

use reference::machine::LAST_ADDRESS;
use reference::{Input, Machine, Model};

use crate::board::Board;
use crate::random::Random;
use crate::timers;

/// A model for one of many cases: mostly the 17132.
pub fn model(random: &mut Random) -> Model {
    if random.once_in(4) {
        Model::Upd17120
    } else {
        Model::Upd17132
    }
}

/// A random machine of a model for a ROM of so many words.
pub fn machine(random: &mut Random, model: Model, words: usize) -> Machine {
    let mut machine = Machine::reset(model);
    fill(random, model, &mut machine, |nibble| nibble);
    weigh(random, &mut machine);
    control(random, &mut machine, words);
    machine
}

/// A machine whose cells are mostly first and last nibbles or next to them.
/// Index, row pointer, AR, PC and stack are weighted as in `machine`. The low
/// four bits of `flags` are IXE, MPE, BCD and CMP.
pub fn boundary(random: &mut Random, model: Model, words: usize, flags: u8) -> Machine {
    const NIBBLES: [u8; 16] = [0, 0, 0, 1, 2, 5, 7, 8, 9, 9, 10, 11, 14, 15, 15, 15];
    let mut machine = Machine::reset(model);
    fill(random, model, &mut machine, |nibble| NIBBLES[usize::from(nibble)]);
    weigh(random, &mut machine);
    put(&mut machine, Machine::PSW, Machine::IXE, flags & 1 != 0);
    put(&mut machine, Machine::IXH, Machine::MPE, flags & 2 != 0);
    put(&mut machine, Machine::RPL, Machine::BCD, flags & 4 != 0);
    put(&mut machine, Machine::PSW, Machine::CMP, flags & 8 != 0);
    control(random, &mut machine, words);
    machine
}

/// A machine at the end of the model's longest ROM, with AR there too, no mark
/// and so many open levels. Where CMP is 0, IX is 7FH.
pub fn corner(random: &mut Random, model: Model, flags: u8, levels: u8) -> Machine {
    let words = model.rom_words();
    let mut machine = boundary(random, model, words, flags);
    machine.pc = words as u16 - 1;
    set_ar(&mut machine, words as u16 - 1);
    if flags & 8 == 0 {
        set_index(&mut machine, 0x7F);
    }
    open(random, &mut machine, levels);
    (machine.skip, machine.standby) = (0, 0);
    machine
}

/// A random input record. Half of them release.
pub fn input(random: &mut Random) -> Input {
    let bits = random.bits();
    let nibble = |place: usize| (bits >> (4 * place) & 0xF) as u8;
    let mut input = Input::default();
    for port in 0..5 {
        input.pins[port] = nibble(port);
        input.directions[port] = nibble(5 + port);
    }
    input.release = (bits >> 40 & 1) as u8;
    match bits >> 41 & 7 {
        0 => input.directions = [0; 5],
        1 => input.directions = [0xF; 5],
        _ => {}
    }
    input
}

/// A board with a random input record and a random pulse bit.
pub fn board(random: &mut Random, model: Model) -> Board {
    Board { model, input: input(random), pulse: random.byte(2) }
}

/// Puts one value out of range.
pub fn spoil_board(random: &mut Random, board: &mut Board) {
    if random.once_in(4) {
        board.pulse = if random.once_in(2) { 2 } else { 2 + random.byte(254) };
    } else {
        spoil_input(random, &mut board.input);
    }
}

/// Puts one value of an input record out of range.
pub fn spoil_input(random: &mut Random, input: &mut Input) {
    let port = random.below(5) as usize;
    let nibble = if random.once_in(2) { 16 } else { 16 + random.byte(240) };
    match random.below(3) {
        0 => input.pins[port] = nibble,
        1 => input.directions[port] = nibble,
        _ => input.release = if random.once_in(2) { 2 } else { 2 + random.byte(254) },
    }
}

/// Every cell that the model has by a random nibble, its fixed bits 0.
fn fill(random: &mut Random, model: Model, machine: &mut Machine, content: impl Fn(u8) -> u8) {
    for (row, bits) in machine.cells.chunks_exact_mut(16).zip(model.writable().chunks_exact(16)) {
        let nibbles = random.bits();
        for (column, (cell, kept)) in row.iter_mut().zip(bits).enumerate() {
            *cell = content((nibbles >> (4 * column) & 0xF) as u8) & kept;
        }
    }
}

/// Index and row pointer with weights, BCD anew, and at times IXE set.
fn weigh(random: &mut Random, machine: &mut Machine) {
    let index = match random.below(6) {
        0 => 0,
        1 => 0x7F,
        2 => 1 << random.below(7),
        3 => 0x60 | random.byte(32),
        _ => random.byte(128),
    };
    set_index(machine, index);
    let row = match random.below(4) {
        0 => 7,
        1 => 6,
        _ => random.byte(8),
    };
    let bcd = random.byte(2);
    set(machine, Machine::RPL, row << 1 | bcd);
    if random.once_in(4) {
        set(machine, Machine::PSW, random.byte(16) | Machine::IXE);
    }
}

/// AR, PC, stack, marks, registers and timer.
fn control(random: &mut Random, machine: &mut Machine, words: usize) {
    set_ar(machine, address(random, words));
    machine.pc = if random.once_in(32) { address(random, words) } else { inside(random, words) };
    let levels = random.byte(6);
    open(random, machine, levels);
    machine.skip = u8::from(random.once_in(8));
    machine.standby = if random.once_in(8) { 1 + random.byte(2) } else { 0 };
    machine.peripherals = timers::any(random);
}

/// So many open levels, each with an address.
fn open(random: &mut Random, machine: &mut Machine, levels: u8) {
    machine.levels = levels;
    for (place, address) in machine.stack.iter_mut().enumerate() {
        *address = match random.below(4) {
            _ if place >= usize::from(levels) => 0,
            0 => 0,
            1 => LAST_ADDRESS - 1,
            2 => LAST_ADDRESS,
            _ => random.word(1024),
        };
    }
}

/// Any address, with those around the ROM's end weighted.
fn address(random: &mut Random, words: usize) -> u16 {
    let words = words.min(1024) as u16;
    match random.below(6) {
        0 => 0,
        1 => words.saturating_sub(1),
        2 => words & LAST_ADDRESS,
        3 => LAST_ADDRESS,
        _ => random.word(1024),
    }
}

/// An address in the ROM, its last one weighted.
fn inside(random: &mut Random, words: usize) -> u16 {
    let words = words.clamp(1, 1024) as u16;
    if random.once_in(8) {
        words - 1
    } else {
        random.word(u64::from(words))
    }
}

pub fn set_ar(machine: &mut Machine, ar: u16) {
    set(machine, Machine::AR2, (ar >> 8) as u8);
    set(machine, Machine::AR1, (ar >> 4 & 0xF) as u8);
    set(machine, Machine::AR0, (ar & 0xF) as u8);
}

pub fn set_index(machine: &mut Machine, index: u8) {
    set(machine, Machine::IXM, index >> 4);
    set(machine, Machine::IXL, index & 0xF);
}

/// Stores a nibble without its fixed bits in a cell that every model has.
pub fn set(machine: &mut Machine, address: u8, nibble: u8) {
    machine.cells[usize::from(address)] = nibble & Model::Upd17120.writable()[usize::from(address)];
}

/// Sets or clears a flag.
fn put(machine: &mut Machine, address: u8, flag: u8, on: bool) {
    let others = machine.cells[usize::from(address)] & !flag;
    set(machine, address, if on { others | flag } else { others });
}
