//! Cycles: document 02, E3; source 000, 18.3 (note), 4.2.2 and 6.6.2 (remarks),
//! 3.2.6.

use crate::kit::*;
use reference::Instruction::{self, *};
use reference::{decode, Count, Input, Machine, Report};

fn report(steps: u32, cycles: u32, refusal: u8) -> Report {
    Report { count: Count { steps, cycles }, refusal }
}

/// A run of a program from reset.
fn ran(program: &[Instruction], budget: u32) -> Report {
    run(&rom(program), &mut reset(), &quiet(), 0, budget)
}

/// A reset machine with so many open levels.
fn open(levels: u8) -> Machine {
    Machine { levels, ..reset() }
}

#[test]
fn movt_takes_two_and_every_other_word_one() {
    let mut done = 0;
    for word in 0..=u16::MAX {
        let report = run(&[word], &mut open(1), &quiet(), 0, 1);
        let cycles = if decode(word) == Some(Movt) { 2 } else { 1 };
        if report.refusal == 0 {
            assert_eq!(report.count, Count { steps: 1, cycles }, "{word:04X}");
            done += 1;
        } else {
            assert_eq!(report.count, Count::default(), "{word:04X}");
        }
    }
    // All instructions but refusal 4's (EI, DI, RETI), refusal 30's (57 of 64
    // control registers for PEEK and POKE, 127 peripherals for GET and PUT) and
    // the 2,048 addresses of refusal 5.
    assert_eq!(done, 55_869 - 3 - 2 * 57 - 2 * 127 - 2_048);
}

#[test]
fn every_skipped_word_takes_one() {
    for word in 0..=u16::MAX {
        let mut machine = Machine { skip: 1, ..reset() };
        assert_eq!(run(&[word], &mut machine, &quiet(), 0, 1), report(1, 1, 0), "{word:04X}");
    }
}

/// A skip of MOVT takes as long as a skip of NOP, whether it comes from one of
/// the six or from RETSK.
#[test]
fn skipped_movt() {
    for word in [Movt, Nop] {
        assert_eq!(ran(&[Skt { m: 0x10, n: 0 }, word], 2), report(2, 2, 0));
        assert_eq!(ran(&[Call { addr: 2 }, word, Retsk], 3), report(3, 3, 0));
    }
    assert_eq!(ran(&[Skt { m: 0x10, n: 1 }, Movt], 2), report(2, 3, 0));
    assert_eq!(ran(&[Skt { m: 0x10, n: 0 }, Movt, Movt], 3), report(3, 4, 0));
}

/// Source 000, 18.5.7 (6): four MOVs and a MOVT.
#[test]
fn section_18_5_7_table_reference() {
    let program = [mov(AR3, 0), mov(AR2, 0), mov(AR1, 0), mov(AR0, 1), Movt, Halt { cond: 0 }];
    assert_eq!(ran(&program, 5), report(5, 6, 0));
    assert_eq!(ran(&program, 100), report(6, 7, 0));
}

/// The budget counts steps, wherever it cuts.
#[test]
fn budgets() {
    let program = [Movt, Nop, Movt, Br { addr: 0 }];
    for (budget, cycles) in (0..).zip([0, 2, 3, 5, 6, 8, 9, 11, 12]) {
        assert_eq!(ran(&program, budget), report(budget, cycles, 0));
    }
    assert_eq!(ran(&program, 65_535), report(65_535, 65_535 + 32_768, 0));
}

/// The most that a run can report.
#[test]
fn the_most_cycles() {
    assert_eq!(ran(&[Movt; 1024], 65_535), report(65_535, 131_070, 0));
    assert_eq!(ran(&[Movt; 1024], 65_536), report(0, 0, 1));
}

/// A refused run reports the cycles of its completed steps, and none of the
/// step that is refused.
#[test]
fn refused_runs() {
    assert_eq!(ran(&[Movt, Movt], 9), report(2, 4, 2));
    assert_eq!(ran(&[Movt, Ei], 9), report(1, 2, 4));
    assert_eq!(ran(&[Movt, Br { addr: 1024 }], 9), report(1, 2, 5));
    assert_eq!(ran(&[Movt, Ret], 9), report(1, 2, 7));
    assert_eq!(ran(&[Movt, mov(AR0, 3), Movt], 9), report(2, 3, 8));
    assert_eq!(ran(&[Movt, Call { addr: 0 }], 99), report(10, 15, 6));
    for machine in [open(5), cells(&[(AR0, 1)])] {
        let refusal = if machine.levels == 5 { 6 } else { 8 };
        let mut left = machine.clone();
        assert_eq!(run(&rom(&[Movt]), &mut left, &quiet(), 0, 9), report(0, 0, refusal));
        assert_eq!(left, machine);
    }
}

/// HALT's step takes a cycle, a step that stays in standby none, and a
/// released one its own.
#[test]
fn standby() {
    let program = rom(&[Movt, Halt { cond: 0 }, Movt, Stop { cond: 0 }]);
    let released = Input { release: 1, ..quiet() };
    let mut machine = reset();
    assert_eq!(run(&program, &mut machine, &quiet(), 0, 100), report(2, 3, 0));
    assert_eq!(run(&program, &mut machine, &quiet(), 0, 100), report(0, 0, 0));
    assert_eq!(run(&program, &mut machine, &released, 0, 0), report(0, 0, 0));
    assert_eq!(run(&program, &mut machine, &released, 0, 100), report(2, 3, 0));
    assert_eq!(run(&program, &mut machine, &released, 0, 100), report(0, 0, 2));
}

/// A run that is cut in two reports the same in all.
#[test]
fn cut_in_two() {
    let program = rom(&[Movt, Skt { m: 0x10, n: 0 }, Movt, IncAr, Br { addr: 0 }]);
    let whole = run(&program, &mut reset(), &quiet(), 0, 60).count;
    for cut in 0..=60 {
        let mut machine = reset();
        let first = run(&program, &mut machine, &quiet(), 0, cut).count;
        let rest = run(&program, &mut machine, &quiet(), 0, 60 - cut).count;
        let cycles = first.cycles + rest.cycles;
        assert_eq!(Count { steps: first.steps + rest.steps, cycles }, whole);
    }
}
