//! The address stack and table reference: source 000, chapters 3, 6 and 18.

use crate::kit::*;
use reference::Instruction::*;
use reference::{encode, Answer};

#[test]
fn call_and_return() {
    let program = rom(&[Nop, Call { addr: 4 }, Nop, Nop, Ret]);
    let mut m = reset();
    go(&program, &mut m, 2);
    assert_eq!((m.pc, m.levels, m.stack), (4, 1, [2, 0, 0, 0, 0]));
    go(&program, &mut m, 1);
    assert_eq!((m.pc, m.levels, m.stack, m.skip), (2, 0, [0; 5], 0));
}

#[test]
fn return_and_skip() {
    let program = [rom(&[Call { addr: 3 }])[0], 0x7FFF, rom(&[Nop])[0], rom(&[Retsk])[0]];
    let mut m = reset();
    go(&program, &mut m, 2);
    assert_eq!((m.pc, m.levels, m.stack, m.skip), (1, 0, [0; 5], 1));
    go(&program, &mut m, 1);
    assert_eq!((m.pc, m.skip), (2, 0));
}

/// Five levels, first opened lowest; closed places are 0.
#[test]
fn five_levels() {
    let calls: Vec<_> = (0..5).map(|n| Call { addr: n + 1 }).collect();
    let mut program = rom(&calls);
    program.push(encode(Ret).unwrap());
    let mut m = reset();
    go(&program, &mut m, 5);
    assert_eq!((m.pc, m.levels, m.stack), (5, 5, [1, 2, 3, 4, 5]));
    for open in (0..5).rev() {
        let mut returning = m.clone();
        returning.pc = 5;
        go(&program, &mut returning, 1);
        assert_eq!((returning.pc, returning.levels), (open + 1, open as u8));
        m = returning;
        let closed = &m.stack[usize::from(open)..];
        assert!(closed.iter().all(|&place| place == 0));
    }
}

/// The next PC after 1,023 is 0, stacked too.
#[test]
fn call_at_the_last_word() {
    let mut full = vec![encode(Nop).unwrap(); 1024];
    full[1023] = encode(Call { addr: 7 }).unwrap();
    let mut m = reset();
    m.pc = 1023;
    go(&full, &mut m, 1);
    assert_eq!((m.pc, m.levels, m.stack), (7, 1, [0; 5]));
}

#[test]
fn section_18_5_8_branches() {
    let m = after(&[Br { addr: 0x00F }]);
    assert_eq!(m.pc, 0x00F);
    let m = after(&[mov(AR3, 0), mov(AR2, 0), mov(AR1, 3), mov(AR0, 0xF), BrAr]);
    assert_eq!((m.pc, m.levels), (0x03F, 0));
    // A target past the ROM is refused with 2 at the next step.
    let program = rom(&[Br { addr: 1023 }]);
    let mut m = reset();
    go(&program, &mut m, 1);
    assert_eq!(step(&program, &mut m, &quiet(), 0), Answer::Refused(2));
}

#[test]
fn section_18_5_9_call_by_register() {
    let m = after(&[mov(AR1, 2), mov(AR0, 0), CallAr]);
    assert_eq!((m.pc, m.levels, m.stack[0]), (0x020, 1, 3));
}

#[test]
fn section_18_5_7_push_and_pop() {
    let m = after(&[mov(AR3, 0), mov(AR2, 0), mov(AR1, 3), mov(AR0, 0xF), PushAr]);
    assert_eq!((m.levels, m.stack[0], at(&m, AR1), at(&m, AR0)), (1, 0x03F, 3, 0xF));
    let m = pass(m, &[mov(AR1, 0), mov(AR0, 0), PopAr]);
    assert_eq!((m.levels, m.stack), (0, [0; 5]));
    assert_eq!(m.cells[0x74..0x78], [0, 0, 3, 0xF]);
}

/// POP AR in a routine takes the return address: a table after its CALL.
#[test]
fn section_18_5_7_table_after_a_call() {
    let mut program = vec![encode(Nop).unwrap(); 64];
    program[0x10] = encode(Call { addr: 0x20 }).unwrap();
    program[0x11] = 0x1A1F;
    program[0x20..0x24].copy_from_slice(&rom(&[PopAr, Movt, IncAr, BrAr]));
    let mut m = reset();
    m.pc = 0x10;
    go(&program, &mut m, 2);
    assert_eq!(m.cells[0x74..0x78], [0, 0, 1, 1]);
    go(&program, &mut m, 3);
    assert_eq!((m.pc, m.levels), (0x12, 0));
    assert_eq!(m.cells[0x0C..0x10], [1, 0xA, 1, 0xF]);
}

#[test]
fn section_18_5_7_table_reference() {
    let mut program = rom(&[mov(AR3, 0), mov(AR2, 0), mov(AR1, 1), mov(AR0, 1), Movt]);
    program.resize(0x12, 0);
    program[0x11] = 0xABCD;
    let mut m = reset();
    go(&program, &mut m, 5);
    assert_eq!(m.cells[0x0C..0x10], [0xA, 0xB, 0xC, 0xD]);
    assert_eq!((m.pc, m.levels, m.stack), (5, 0, [0; 5]));
}

/// MOVT needs one free level and gives it back at once.
#[test]
fn table_reference_and_levels() {
    for levels in 0..=5_u8 {
        let mut m = reset();
        m.levels = levels;
        m.stack[..usize::from(levels)].fill(9);
        let before = m.clone();
        let answer = step(&rom(&[Movt]), &mut m, &quiet(), 0);
        if levels == 5 {
            assert_eq!((answer, &m), (Answer::Refused(6), &before));
        } else {
            assert_eq!(answer, Answer::Done);
            assert_eq!((m.levels, m.stack), (levels, before.stack));
        }
    }
}

/// Source 000, 4.2.2, example 1: a constant from a table by an offset.
#[test]
fn section_4_2_2_constant_table() {
    for offset in 0..16_u8 {
        let mut program = rom(&[
            mov(RPL, 7 << 1),
            mov(AR3, 0),
            mov(AR2, 0),
            mov(AR1, 1),
            mov(AR0, 8),
            AddRM { r: 7, m: 0x00 },
            AddcMN { m: AR1, n: 0 },
            AddcMN { m: AR2, n: 0 },
            AddcMN { m: AR3, n: 0 },
            Movt,
        ]);
        program.resize(0x18, 0);
        program.extend((0..16).map(|bit| 1_u16 << bit));
        let mut m = cells(&[(0x00, offset)]);
        go(&program, &mut m, 10);
        let word = m.cells[0x0C..0x10].iter().fold(0, |word, &n| word << 4 | u16::from(n));
        assert_eq!(word, 1 << offset);
    }
}
