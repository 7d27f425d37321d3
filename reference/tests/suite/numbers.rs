//! Document 01, "Numbers to check by", and the lines beyond them.

use crate::kit::*;
use reference::Instruction::*;
use reference::{encode, Answer, Machine};

#[test]
fn words_1_to_4() {
    assert_eq!(encode(AddRM { r: 3, m: 0x2F }), Ok(0x02F3));
    assert_eq!(encode(AddMN { m: 0x2F, n: 5 }), Ok(0x82F5));
    assert_eq!(encode(Ske { m: 0x10, n: 8 }), Ok(0x4908));
    assert_eq!(encode(Call { addr: 0x010 }), Ok(0xE010));
}

#[test]
fn number_5_binary_sum() {
    let m = pass(cells(&[(0x10, 9)]), &[AddMN { m: 0x10, n: 7 }]);
    assert_eq!((at(&m, 0x10), at(&m, PSW)), (0, CY | Z));
}

#[test]
fn number_6_binary_difference() {
    let m = pass(cells(&[(0x10, 3), (PSW, Z)]), &[SubMN { m: 0x10, n: 5 }]);
    assert_eq!((at(&m, 0x10), at(&m, PSW)), (0xE, CY));
}

#[test]
fn numbers_7_and_8_decimal_sums() {
    let m = pass(cells(&[(0x10, 9), (RPL, 1), (PSW, CY)]), &[AddcMN { m: 0x10, n: 9 }]);
    assert_eq!((at(&m, 0x10), at(&m, PSW)), (9, CY));
    let m = pass(cells(&[(0x10, 15), (RPL, 1), (PSW, CY)]), &[AddcMN { m: 0x10, n: 15 }]);
    assert_eq!((at(&m, 0x10), at(&m, PSW)), (0xD, CY));
}

#[test]
fn number_9_decimal_difference() {
    let m = pass(cells(&[(0x10, 0), (RPL, 1)]), &[SubMN { m: 0x10, n: 10 }]);
    assert_eq!((at(&m, 0x10), at(&m, PSW)), (0, CY | Z));
}

#[test]
fn number_10_rotation() {
    let m = pass(cells(&[(0x04, 0b1001), (PSW, CY)]), &[Rorc { r: 4 }]);
    assert_eq!((at(&m, 0x04), at(&m, PSW)), (0b1100, CY));
}

#[test]
fn number_11_index() {
    let m = pass(cells(&[(IXM, 1), (IXL, 2), (PSW, IXE)]), &[mov(0x61, 5)]);
    // 73H is P0D; writing stores the whole nibble.
    assert_eq!((at(&m, 0x73), at(&m, 0x61)), (5, 0));
}

#[test]
fn number_12_indirect() {
    let start = [(0x05, 8), (0x34, 0xA)];
    let m = pass(cells(&start), &[MovTo { r: 5, m: 0x34 }]);
    assert_eq!(at(&m, 0x38), 0xA);
    let mut with_pointer = cells(&start);
    with_pointer.cells[usize::from(IXH)] = Machine::MPE;
    with_pointer.cells[usize::from(IXM)] = 6;
    let m = pass(with_pointer, &[MovTo { r: 5, m: 0x34 }]);
    assert_eq!((at(&m, 0x68), at(&m, 0x38)), (0xA, 0));
}

#[test]
fn compare_of_equals_leaves_zero_clear() {
    let m = pass(cells(&[(0x10, 4), (PSW, CMP)]), &[SubMN { m: 0x10, n: 4 }]);
    assert_eq!((at(&m, 0x10), at(&m, PSW)), (4, CMP));
}

#[test]
fn addition_to_the_status_word() {
    let m = after(&[AddMN { m: PSW, n: 4 }]);
    assert_eq!(at(&m, PSW), 4);
}

#[test]
fn pc_after_1023() {
    let mut m = reset();
    m.pc = 1023;
    let full = vec![encode(Nop).unwrap(); 1024];
    assert_eq!(step(&full, &mut m, &quiet(), 0), Answer::Done);
    assert_eq!(m.pc, 0);
    m.pc = 1023;
    assert_eq!(step(&full[..1023], &mut m, &quiet(), 0), Answer::Refused(2));
    assert_eq!(m.pc, 1023);
}

#[test]
fn sixth_call() {
    let program = rom(&[Call { addr: 0 }]);
    let mut m = reset();
    go(&program, &mut m, 5);
    assert_eq!((m.levels, m.stack), (5, [1; 5]));
    assert_eq!(step(&program, &mut m, &quiet(), 0), Answer::Refused(6));
}

#[test]
fn skip_if_greater_or_equal() {
    for (n, skip) in [(7, 1), (8, 1), (9, 0)] {
        let m = pass(cells(&[(0x10, 8)]), &[Skge { m: 0x10, n }]);
        assert_eq!(m.skip, skip, "8 with {n}");
    }
}
