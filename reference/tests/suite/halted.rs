//! The timer in standby: document 02, E4.

use crate::kit::*;
use reference::Instruction::*;
use reference::{Answer, Count, Input, Machine, Peripherals, Report};

fn report(steps: u32, refusal: u8) -> Report {
    Report { count: Count { steps, cycles: steps }, refusal }
}

/// A machine in standby with this mode of the timer and this divider.
fn standing(standby: u8, mode: u8, divider: u8) -> Machine {
    let registers = [mode, 0, 0, 0, 0, 0, 0];
    let peripherals = Peripherals { registers, modulo: 9, counter: 9, divider };
    Machine { standby, peripherals, ..reset() }
}

/// HALT at step 1; the counter becomes 1 at the 15th standing step.
#[test]
fn fifteen_steps() {
    let program = [0x3BF8];
    let mut m = reset();
    go(&program, &mut m, 1);
    assert_eq!((m.standby, m.peripherals.divider), (Machine::HALT, 1));
    for n in 1..=40_u8 {
        assert_eq!(step(&program, &mut m, &quiet(), 0), Answer::Standby);
        assert_eq!(m.peripherals.counter, (n + 1) / 16, "{n}");
        assert_eq!((m.pc, m.standby, m.peripherals.divider), (1, Machine::HALT, n + 1));
    }
}

/// HALT's and STOP's own steps are completed and move the timer as others do.
#[test]
fn their_own_steps() {
    for (instruction, standby) in
        [(Halt { cond: 0 }, Machine::HALT), (Stop { cond: 0 }, Machine::STOP)]
    {
        for (mode, divider, pulse) in [(8, 15, 0), (9, 1, 0), (10, 127, 0), (11, 0, 1)] {
            for counter in [9, 4] {
                let mut m = standing(0, mode, divider);
                m.peripherals.counter = counter;
                assert_eq!(step(&rom(&[instruction]), &mut m, &quiet(), pulse), Answer::Done);
                let next = if counter == 9 { 0 } else { counter + 1 };
                assert_eq!((m.standby, m.peripherals.counter), (standby, next));
                assert_eq!(m.peripherals.divider, (divider + 1) % 128);
            }
        }
    }
}

/// HALT's standing step: one cycle of the divider, with the chosen clock or the
/// pulse bit, and nothing else.
#[test]
fn every_standing_step_of_halt() {
    for mode in [0, 1, 2, 3, 8, 9, 10, 11] {
        for divider in 0..128_u8 {
            for pulse in [0, 1] {
                let start = standing(Machine::HALT, mode, divider);
                let next = divider + 1;
                let pulsed = match mode {
                    8 => next % 16 == 0,
                    9 => next % 2 == 0,
                    10 => next == 128,
                    11 => pulse == 1,
                    _ => false,
                };
                let mut wanted = start.clone();
                wanted.peripherals.divider = next % 128;
                wanted.peripherals.counter = if pulsed { 0 } else { 9 };
                let mut m = start.clone();
                assert_eq!(step(&rom(&[Nop]), &mut m, &quiet(), pulse), Answer::Standby);
                assert_eq!(m, wanted);
                // A run does one such step, whatever its budget.
                for budget in [1, 2, 65_535] {
                    let mut m = start.clone();
                    let answer = run(&rom(&[Nop]), &mut m, &quiet(), pulse, budget);
                    assert_eq!((answer, &m), (report(0, 0), &wanted));
                }
                // A run with budget 0 none.
                let mut m = start.clone();
                assert_eq!(run(&rom(&[Nop]), &mut m, &quiet(), pulse, 0), report(0, 0));
                assert_eq!(m, start);
            }
        }
    }
}

/// STOP's standing steps change nothing.
#[test]
fn every_standing_step_of_stop() {
    for mode in [0, 1, 2, 3, 8, 9, 10, 11] {
        for divider in 0..128 {
            for pulse in [0, 1] {
                let start = standing(Machine::STOP, mode, divider);
                let mut m = start.clone();
                assert_eq!(step(&rom(&[Nop]), &mut m, &quiet(), pulse), Answer::Standby);
                for budget in [0, 1, 65_535] {
                    let answer = run(&rom(&[Nop]), &mut m, &quiet(), pulse, budget);
                    assert_eq!(answer, report(0, 0));
                }
                assert_eq!(m, start);
            }
        }
    }
}

/// A run that ends in HALT does no standing step: the next call does it.
#[test]
fn a_run_ends_with_halt() {
    let program = rom(&[Nop, Halt { cond: 0 }, Nop]);
    let mut m = reset();
    assert_eq!(run(&program, &mut m, &quiet(), 0, 100), report(2, 0));
    assert_eq!((m.standby, m.peripherals.divider), (Machine::HALT, 2));
    assert_eq!(run(&program, &mut m, &quiet(), 0, 100), report(0, 0));
    assert_eq!((m.standby, m.peripherals.divider), (Machine::HALT, 3));
}

/// Released, both go on as usual, with the timer as it is.
#[test]
fn released() {
    let release = Input { release: 1, ..quiet() };
    let program = rom(&[Nop, Br { addr: 0 }]);
    for standby in [Machine::HALT, Machine::STOP] {
        let mut m = standing(standby, 8, 14);
        assert_eq!(step(&program, &mut m, &release, 0), Answer::Done);
        assert_eq!((m.pc, m.standby), (1, 0));
        assert_eq!((m.peripherals.divider, m.peripherals.counter), (15, 9));
        let mut m = standing(standby, 8, 14);
        assert_eq!(run(&program, &mut m, &release, 0, 5), report(5, 0));
        assert_eq!((m.peripherals.divider, m.peripherals.counter), (19, 0));
        // A release that is refused leaves the mark and the timer.
        let start = standing(standby, 9, 127);
        let mut m = start.clone();
        assert_eq!(step(&rom(&[Ei]), &mut m, &release, 0), Answer::Refused(4));
        assert_eq!(run(&rom(&[Ei]), &mut m, &release, 0, 5), report(0, 4));
        assert_eq!(m, start);
    }
}

/// No match releases HALT; only the release bit does.
#[test]
fn a_match_does_not_release() {
    let mut m = standing(Machine::HALT, 9, 0);
    for n in 1..=60_u8 {
        assert_eq!(step(&rom(&[Nop]), &mut m, &quiet(), 1), Answer::Standby);
        let wanted = if n < 2 { 9 } else { (n / 2 - 1) % 10 };
        assert_eq!((m.standby, m.peripherals.counter), (Machine::HALT, wanted));
    }
}
