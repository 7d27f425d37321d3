//! What a call on a ROM of NOPs answers and leaves, told from documents 01 and
//! 02 without either emulator.

use reference::Machine;

use crate::board::Board;
use crate::clock;
use crate::host::RunReply;
use crate::pair;
use crate::words::NOP;

/// What a call is given; its ROM has so many NOPs.
pub struct Call {
    pub words: usize,
    pub machine: Machine,
    pub board: Board,
}

impl Call {
    /// The answer of a step in range, and the machine after it: each word is
    /// NOP, skipped or not.
    pub fn step(&self, machine: &mut Machine) -> u8 {
        let pulse = self.board.pulse;
        if self.board.keeps_standing(machine.standby) {
            machine.peripherals = clock::after_standing(machine, pulse);
            return pair::STANDBY;
        }
        if usize::from(machine.pc) >= self.words {
            return 2;
        }
        machine.peripherals = clock::after_step(machine, NOP, pulse);
        machine.pc = if machine.pc == 1_023 { 0 } else { machine.pc + 1 };
        (machine.skip, machine.standby) = (0, 0);
        pair::DONE
    }

    /// What a run reports, and the machine after it. NOP takes one cycle, and a
    /// step that stays in standby none that is reported.
    pub fn run(&self, in_range: bool, budget: u32) -> (RunReply, Machine) {
        let mut machine = self.machine.clone();
        let report = |steps, number| RunReply { steps, cycles: steps, number };
        if !in_range {
            return (report(0, 1), machine);
        }
        let mut steps = 0;
        while steps < budget {
            match self.step(&mut machine) {
                pair::DONE => steps += 1,
                pair::STANDBY => break,
                number => return (report(steps, number), machine),
            }
        }
        (report(steps, 0), machine)
    }
}
