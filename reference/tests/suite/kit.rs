//! Small tools for the tests. Those without a model are for the 17132.

use reference::sheet::of_levels;
use reference::station::write_into;
use reference::Instruction::{self, *};
use reference::{encode, Answer, Input, Machine, Model, Peripherals, Report, Station, Verdict};

/// Register addresses and flags, short.
pub const AR3: u8 = Machine::AR3;
pub const AR2: u8 = Machine::AR2;
pub const AR1: u8 = Machine::AR1;
pub const AR0: u8 = Machine::AR0;
pub const IXH: u8 = Machine::IXH;
pub const IXM: u8 = Machine::IXM;
pub const IXL: u8 = Machine::IXL;
pub const RPL: u8 = Machine::RPL;
pub const PSW: u8 = Machine::PSW;
pub const CMP: u8 = Machine::CMP;
pub const CY: u8 = Machine::CY;
pub const Z: u8 = Machine::Z;
pub const IXE: u8 = Machine::IXE;

/// The model of every test that names none.
const MODEL: Model = Model::Upd17132;

pub fn reset() -> Machine {
    Machine::reset(MODEL)
}

pub fn step(rom: &[u16], machine: &mut Machine, input: &Input, pulse: u8) -> Answer {
    reference::step(MODEL, rom, machine, input, pulse)
}

pub fn run(rom: &[u16], machine: &mut Machine, input: &Input, pulse: u8, budget: u32) -> Report {
    reference::run(MODEL, rom, machine, input, pulse, budget)
}

/// The check with a sheet of single levels.
pub fn verify(rom: &[u16], levels: &[u8]) -> Verdict {
    reference::verify(MODEL, rom, &of_levels(levels))
}

pub fn in_range(machine: &Machine) -> bool {
    machine.in_range(MODEL)
}

/// The words of a program.
pub fn rom(program: &[Instruction]) -> Vec<u16> {
    program.iter().map(|&i| encode(i).expect("operands fit")).collect()
}

/// All pins low, all directions in, no release.
pub fn quiet() -> Input {
    Input::default()
}

/// Runs `count` steps, all of which must be completed.
pub fn go(rom: &[u16], machine: &mut Machine, count: usize) {
    for n in 0..count {
        let answer = step(rom, machine, &quiet(), 0);
        assert_eq!(answer, Answer::Done, "step {n} of {count}");
    }
}

/// The machine after one pass over a program without jumps, from `machine`.
pub fn pass(mut machine: Machine, program: &[Instruction]) -> Machine {
    machine.pc = 0;
    go(&rom(program), &mut machine, program.len());
    machine
}

/// The machine after a program without jumps, from reset.
pub fn after(program: &[Instruction]) -> Machine {
    pass(reset(), program)
}

/// One instruction on a machine, with an input.
pub fn with_input(mut machine: Machine, input: &Input, i: Instruction) -> Machine {
    machine.pc = 0;
    assert_eq!(step(&rom(&[i]), &mut machine, input, 0), Answer::Done);
    machine
}

/// Reset, with these cells set.
pub fn cells(set: &[(u8, u8)]) -> Machine {
    let mut machine = reset();
    for &(address, value) in set {
        machine.cells[usize::from(address)] = value;
    }
    machine
}

/// A cell of a machine.
pub fn at(machine: &Machine, address: u8) -> u8 {
    machine.cells[usize::from(address)]
}

/// The peripherals of a reset machine so many cycles later, before the first
/// pulse.
pub fn cycles_on(cycles: u8) -> Peripherals {
    assert!(cycles < 16);
    Peripherals { divider: cycles, ..Peripherals::reset() }
}

/// The place of a control register in the machine.
fn place(rf: u8) -> usize {
    Peripherals::ADDRESSES.iter().position(|&address| address == rf).expect("a control register")
}

/// A control register of a machine.
pub fn register(machine: &Machine, rf: u8) -> u8 {
    machine.peripherals.registers[place(rf)]
}

/// A machine with these control registers set.
pub fn with_registers(mut machine: Machine, set: &[(u8, u8)]) -> Machine {
    for &(rf, value) in set {
        machine.peripherals.registers[place(rf)] = value;
    }
    machine
}

/// PEEK, POKE, GET and PUT with this operand.
pub fn four(seven: u8) -> [Instruction; 4] {
    [Peek { rf: seven }, Poke { rf: seven }, Get { p: seven }, Put { p: seven }]
}

/// Document 02, E4: no such control register or peripheral.
pub fn meets_30(instruction: Instruction) -> bool {
    match instruction {
        Peek { rf } | Poke { rf } => {
            !matches!(rf, 0x11 | 0x12 | 0x24 | 0x32 | 0x33 | 0x34 | 0x35 | 0x40..)
        }
        Get { p } => p != 2,
        Put { p } => p != 3,
        _ => false,
    }
}

/// Runs a program until PC is `stop`, and answers the number of steps.
pub fn until(rom: &[u16], machine: &mut Machine, stop: u16) -> usize {
    for n in 0..100_000 {
        if machine.pc == stop && machine.skip == 0 {
            return n;
        }
        go(rom, machine, 1);
    }
    panic!("never at {stop:03X}");
}

/// MOV m,#n, which stands in most examples.
pub fn mov(m: u8, n: u8) -> Instruction {
    MovMN { m, n }
}

/// Assembler macros SET1 and CLR1 on PSW flags.
pub fn set(flags: u8) -> Instruction {
    OrMN { m: PSW, n: flags }
}

pub fn clear(flags: u8) -> Instruction {
    AndMN { m: PSW, n: !flags & 0xF }
}

/// A small generator of numbers, the same in every run.
pub struct Random(u64);

impl Random {
    pub fn new(seed: u64) -> Random {
        Random(seed.wrapping_mul(0x9E37_79B9_7F4A_7C15) | 1)
    }

    pub fn next(&mut self) -> u64 {
        self.0 ^= self.0 << 13;
        self.0 ^= self.0 >> 7;
        self.0 ^= self.0 << 17;
        self.0
    }

    /// A number below `bound`.
    pub fn below(&mut self, bound: u64) -> u64 {
        (self.next() >> 11) % bound
    }

    pub fn nibble(&mut self) -> u8 {
        self.below(16) as u8
    }

    pub fn word(&mut self) -> u16 {
        self.below(65_536) as u16
    }

    /// An input in range.
    pub fn input(&mut self) -> Input {
        let mut input = quiet();
        for port in 0..5 {
            input.pins[port] = self.nibble();
            input.directions[port] = self.nibble();
        }
        input.release = self.below(2) as u8;
        input
    }

    /// A machine in range.
    pub fn machine(&mut self) -> Machine {
        self.machine_of(MODEL)
    }

    /// A machine in range for a model.
    pub fn machine_of(&mut self, model: Model) -> Machine {
        let mut machine = Machine::reset(model);
        for (cell, &bits) in machine.cells.iter_mut().zip(model.writable()) {
            *cell = self.nibble() & bits;
        }
        machine.pc = self.below(1024) as u16;
        machine.levels = self.below(6) as u8;
        for place in 0..usize::from(machine.levels) {
            machine.stack[place] = self.below(1024) as u16;
        }
        machine.skip = u8::from(self.below(8) == 0);
        machine.standby = [0, 0, 0, 0, 0, 0, Machine::HALT, Machine::STOP][self.below(8) as usize];
        machine.peripherals = self.peripherals();
        machine
    }

    /// Peripherals in range, at times with the counter at or near the modulo
    /// register.
    fn peripherals(&mut self) -> Peripherals {
        let registers = Peripherals::KEPT.map(|bits| self.nibble() & bits);
        let modulo = self.below(256) as u8;
        let counter = match self.below(2) {
            0 => self.below(256) as u8,
            _ => modulo.wrapping_sub(self.below(3) as u8),
        };
        Peripherals { registers, modulo, counter, divider: self.below(128) as u8 }
    }

    pub fn pulse(&mut self) -> u8 {
        self.below(2) as u8
    }
}

/// A file with some bytes changed, each told with its place.
pub fn with_bytes(mut file: Vec<u8>, changes: &[(usize, u8)]) -> Vec<u8> {
    for &(at, byte) in changes {
        file[at] = byte;
    }
    file
}

/// A station's file in lent buffers of each length: whole with what is behind it
/// left, or refused with 25 and nothing written.
pub fn goes_whole_or_not_at_all(station: &Station, file: &[u8]) {
    for room in 0..file.len() {
        let mut out = vec![0xAA; room];
        assert_eq!(write_into(station, &mut out), Err(25));
        assert_eq!(out, vec![0xAA; room]);
    }
    let mut out = vec![0xAA; file.len() + 3];
    assert_eq!(write_into(station, &mut out), Ok(file.len()));
    assert_eq!(out[..file.len()], *file);
    assert_eq!(out[file.len()..], [0xAA; 3]);
}
