//! The second emulator's record and inputs, and those of include/pollwezen.h.

use reference::{Input, Machine, Peripherals};

use crate::structs::{LentInput, LentMachine};

impl From<&Machine> for LentMachine {
    fn from(from: &Machine) -> LentMachine {
        let Peripherals { registers, modulo, counter, divider } = from.peripherals;
        LentMachine {
            cells: from.cells,
            registers,
            modulo,
            counter,
            divider,
            pc: from.pc,
            stack: from.stack,
            levels: from.levels,
            skip: from.skip,
            standby: from.standby,
        }
    }
}

impl From<&LentMachine> for Machine {
    fn from(from: &LentMachine) -> Machine {
        let LentMachine { registers, modulo, counter, divider, .. } = *from;
        Machine {
            cells: from.cells,
            pc: from.pc,
            stack: from.stack,
            levels: from.levels,
            skip: from.skip,
            standby: from.standby,
            peripherals: Peripherals { registers, modulo, counter, divider },
        }
    }
}

impl From<&Input> for LentInput {
    fn from(from: &Input) -> LentInput {
        LentInput { pins: from.pins, directions: from.directions, release: from.release }
    }
}
