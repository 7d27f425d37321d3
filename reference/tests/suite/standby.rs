//! Standby, release and the counted run: document 01, "Results".

use crate::kit::*;
use reference::Instruction::*;
use reference::{Answer, Count, Input, Machine, Report};

fn released() -> Input {
    Input { release: 1, ..quiet() }
}

/// No MOVT stands in these programs, so cycles are steps.
fn report(steps: u32, refusal: u8) -> Report {
    Report { count: Count { steps, cycles: steps }, refusal }
}

/// HALT and STOP with every operand move PC on and set the mark.
#[test]
fn every_operand_stands_by() {
    for cond in 0..16 {
        for (instruction, standby) in
            [(Halt { cond }, Machine::HALT), (Stop { cond }, Machine::STOP)]
        {
            for input in [quiet(), released()] {
                let m = with_input(reset(), &input, instruction);
                let mut wanted = reset();
                wanted.pc = 1;
                wanted.standby = standby;
                wanted.peripherals = cycles_on(1);
                assert_eq!(m, wanted);
            }
        }
    }
}

#[test]
fn standby_and_release() {
    let program = rom(&[Stop { cond: 8 }, mov(0x10, 5), Br { addr: 1 }]);
    let mut m = reset();
    go(&program, &mut m, 1);
    let stood = m.clone();
    assert_eq!(step(&program, &mut m, &quiet(), 0), Answer::Standby);
    assert_eq!(m, stood);
    assert_eq!(step(&program, &mut m, &released(), 0), Answer::Done);
    assert_eq!((m.pc, m.standby, at(&m, 0x10)), (2, 0, 5));
    // Release is ignored otherwise.
    assert_eq!(step(&program, &mut m, &released(), 0), Answer::Done);
    assert_eq!((m.pc, m.standby), (1, 0));
}

/// A machine in standby with release 0 meets only refusal 1.
#[test]
fn standby_past_the_rom() {
    let program = rom(&[Halt { cond: 0 }]);
    let mut m = reset();
    go(&program, &mut m, 1);
    assert_eq!(step(&program, &mut m, &quiet(), 0), Answer::Standby);
    assert_eq!(step(&[], &mut m, &quiet(), 0), Answer::Refused(1));
    let stood = m.clone();
    assert_eq!(step(&program, &mut m, &released(), 0), Answer::Refused(2));
    assert_eq!(m, stood, "the mark stays with a refused release");
    assert_eq!(run(&program, &mut m, &released(), 0, 9), report(0, 2));
    assert_eq!(m, stood);
}

/// Both marks at once: release, then the skip.
#[test]
fn standby_with_a_skip_pending() {
    let mut m = reset();
    m.skip = 1;
    m.standby = 1;
    assert_eq!(step(&[0x7FFF], &mut m, &quiet(), 0), Answer::Standby);
    assert_eq!(step(&[0x7FFF], &mut m, &released(), 0), Answer::Done);
    assert_eq!((m.pc, m.skip, m.standby), (1, 0, 0));
}

#[test]
fn runs_end_at_the_budget() {
    let program = rom(&[AddMN { m: 0x10, n: 1 }, Br { addr: 0 }]);
    for budget in [0, 1, 2, 3, 100, 65_535] {
        let mut m = reset();
        assert_eq!(run(&program, &mut m, &quiet(), 0, budget), report(budget, 0));
        assert_eq!(u32::from(m.pc), budget % 2);
        assert_eq!(u32::from(at(&m, 0x10)), budget.div_ceil(2) % 16);
    }
    let mut m = reset();
    assert_eq!(run(&program, &mut m, &quiet(), 0, 65_536), report(0, 1));
    assert_eq!(run(&program, &mut m, &quiet(), 0, u32::MAX), report(0, 1));
    assert_eq!(m, reset());
}

#[test]
fn runs_end_in_standby() {
    let program = rom(&[Nop, Stop { cond: 0 }, Nop, Halt { cond: 0 }, Br { addr: 0 }]);
    let mut m = reset();
    assert_eq!(run(&program, &mut m, &quiet(), 0, 100), report(2, 0));
    assert_eq!((m.pc, m.standby), (2, Machine::STOP));
    let stood = m.clone();
    assert_eq!(run(&program, &mut m, &quiet(), 0, 100), report(0, 0));
    assert_eq!(run(&program, &mut m, &released(), 0, 0), report(0, 0));
    assert_eq!(m, stood);
    assert_eq!(run(&program, &mut m, &released(), 0, 100), report(2, 0));
    assert_eq!((m.pc, m.standby), (4, Machine::HALT));
    // Budget and standby at one and the same step.
    assert_eq!(run(&program, &mut m, &released(), 0, 3), report(3, 0));
    assert_eq!((m.pc, m.standby), (2, Machine::STOP));
}

/// A refused run keeps the state of its completed steps.
#[test]
fn runs_end_at_a_refusal() {
    let program = rom(&[mov(0x10, 5), mov(0x11, 6), Ret]);
    let mut m = reset();
    assert_eq!(run(&program, &mut m, &quiet(), 0, 100), report(2, 7));
    let mut wanted = cells(&[(0x10, 5), (0x11, 6)]);
    wanted.pc = 2;
    wanted.peripherals = cycles_on(2);
    assert_eq!(m, wanted);
    assert_eq!(run(&program, &mut m, &quiet(), 0, 0), report(0, 0));
    assert_eq!(run(&program, &mut m, &quiet(), 0, 1), report(0, 7));
    assert_eq!(m, wanted);
    // A released first step, then a refusal: the mark is gone with the step.
    m.pc = 0;
    m.standby = 1;
    wanted.peripherals = cycles_on(4);
    assert_eq!(run(&program, &mut m, &released(), 0, 100), report(2, 7));
    assert_eq!(m, wanted);
}

/// Refusal 1 comes before anything, at budget 0 too.
#[test]
fn run_ranges() {
    let program = rom(&[Br { addr: 0 }]);
    for budget in [0, 1, 65_535, 65_536] {
        let mut m = reset();
        m.cells[AR3 as usize] = 1;
        let before = m.clone();
        assert_eq!(run(&program, &mut m, &quiet(), 0, budget), report(0, 1));
        assert_eq!(m, before);
        let mut m = reset();
        assert_eq!(run(&[], &mut m, &quiet(), 0, budget), report(0, 1));
        let loud = Input { release: 2, ..quiet() };
        assert_eq!(run(&program, &mut m, &loud, 0, budget), report(0, 1));
        assert_eq!(m, reset());
    }
}
