//! Arithmetic and rotation: source 000, chapter 11 and 7.7; document 01,
//! "Results".

use crate::kit::*;
use reference::Instruction::{self, *};

/// Source 000, table 11-2: CY and result of decimal sums 0 to 31.
#[rustfmt::skip]
const SUMS: [(u8, u8); 32] = [
    (0, 0b0000), (0, 0b0001), (0, 0b0010), (0, 0b0011), (0, 0b0100), (0, 0b0101), (0, 0b0110),
    (0, 0b0111), (0, 0b1000), (0, 0b1001), (1, 0b0000), (1, 0b0001), (1, 0b0010), (1, 0b0011),
    (1, 0b0100), (1, 0b0101), (1, 0b0110), (1, 0b0111), (1, 0b1000), (1, 0b1001), (1, 0b1110),
    (1, 0b1111), (1, 0b1100), (1, 0b1101), (1, 0b1110), (1, 0b1111), (1, 0b1100), (1, 0b1101),
    (1, 0b1010), (1, 0b1011), (1, 0b1100), (1, 0b1101),
];

/// The same of decimal differences -16 to -1, then 0 to 15.
#[rustfmt::skip]
const DIFFERENCES: [(u8, u8); 32] = [
    (1, 0b1110), (1, 0b1111), (1, 0b1100), (1, 0b1101), (1, 0b1110), (1, 0b1111), (1, 0b0000),
    (1, 0b0001), (1, 0b0010), (1, 0b0011), (1, 0b0100), (1, 0b0101), (1, 0b0110), (1, 0b0111),
    (1, 0b1000), (1, 0b1001), (0, 0b0000), (0, 0b0001), (0, 0b0010), (0, 0b0011), (0, 0b0100),
    (0, 0b0101), (0, 0b0110), (0, 0b0111), (0, 0b1000), (0, 0b1001), (1, 0b1100), (1, 0b1101),
    (1, 0b1110), (1, 0b1111), (1, 0b1100), (1, 0b1101),
];

/// CY and result of a sum or difference, by the tables.
fn expected(decimal: bool, subtract: bool, value: i32) -> (u8, u8) {
    match (decimal, subtract) {
        (true, false) => SUMS[value as usize],
        (true, true) => DIFFERENCES[(value + 16) as usize],
        (false, _) => (u8::from(!(0..=15).contains(&value)), value.rem_euclid(16) as u8),
    }
}

/// All eight arithmetic instructions on all operands, flags and modes.
#[test]
fn every_sum_and_difference() {
    for case in 0..4_096_u32 {
        let (a, b) = ((case & 0xF) as u8, (case >> 4 & 0xF) as u8);
        let (carry, zero) = ((case >> 8 & 1) as u8, (case >> 9 & 1) as u8);
        let (compare, bcd) = ((case >> 10 & 1) as u8, (case >> 11 & 1) as u8);
        let kinds: [(Instruction, bool, bool); 8] = [
            (AddRM { r: 3, m: 0x2F }, false, false),
            (AddMN { m: 0x03, n: b }, false, false),
            (AddcRM { r: 3, m: 0x2F }, false, true),
            (AddcMN { m: 0x03, n: b }, false, true),
            (SubRM { r: 3, m: 0x2F }, true, false),
            (SubMN { m: 0x03, n: b }, true, false),
            (SubcRM { r: 3, m: 0x2F }, true, true),
            (SubcMN { m: 0x03, n: b }, true, true),
        ];
        for (instruction, subtract, with_carry) in kinds {
            let psw = compare << 3 | carry << 2 | zero << 1;
            let start = cells(&[(0x03, a), (0x2F, b), (RPL, bcd), (PSW, psw)]);
            let m = pass(start.clone(), &[instruction]);
            let (a1, b1) = (i32::from(a), i32::from(b));
            let c1 = if with_carry { i32::from(carry) } else { 0 };
            let value = if subtract { a1 - b1 - c1 } else { a1 + b1 + c1 };
            let (cy, result) = expected(bcd == 1, subtract, value);
            let z = match (result, compare) {
                (0, 0) => 1,
                (0, _) => zero,
                _ => 0,
            };
            let mut wanted = start;
            wanted.pc = 1;
            wanted.peripherals = cycles_on(1);
            wanted.cells[0x7F] = compare << 3 | cy << 2 | z << 1;
            if compare == 0 {
                wanted.cells[0x03] = result;
            }
            assert_eq!(m, wanted, "{instruction:?} on {a} with PSW {psw:X}, BCD {bcd}");
        }
    }
}

#[test]
fn section_7_7_4_compare_of_12_bits() {
    for (low, z) in [(6, Z), (7, 0)] {
        let program =
            [set(CMP | Z), SubMN { m: 1, n: 4 }, SubMN { m: 2, n: 5 }, SubMN { m: 3, n: 6 }];
        let m = pass(cells(&[(1, 4), (2, 5), (3, low)]), &program);
        assert_eq!(at(&m, PSW) & Z, z);
        assert_eq!(m.cells[1..4], [4, 5, low]);
    }
}

#[test]
fn section_11_3_4_decimal_compare() {
    let program = [
        mov(RPL, 1),
        mov(PSW, CMP | Z),
        SubMN { m: 0x11, n: 1 },
        SubcMN { m: 0x12, n: 2 },
        SubcMN { m: 0x13, n: 3 },
    ];
    let equal = pass(cells(&[(0x11, 1), (0x12, 2), (0x13, 3)]), &program);
    assert_eq!(at(&equal, PSW), CMP | Z);
    let less = pass(cells(&[(0x11, 0), (0x12, 2), (0x13, 3)]), &program);
    assert_eq!(at(&less, PSW), CMP | CY);
    let more = pass(cells(&[(0x11, 0), (0x12, 3), (0x13, 3)]), &program);
    assert_eq!(at(&more, PSW), CMP);
}

/// Source 000, 7.7.7 and 11.3.5.
#[test]
fn arithmetic_on_the_status_word() {
    let m = after(&[mov(PSW, 1), AddMN { m: PSW, n: 0xF }]);
    assert_eq!(at(&m, PSW), 0);
    // CMP 1: nothing is stored, CY and Z are set as usual.
    let m = after(&[mov(PSW, CMP | Z), AddMN { m: PSW, n: 0xF }]);
    assert_eq!(at(&m, PSW), CMP | CY);
    let m = after(&[mov(PSW, CMP | Z), SubMN { m: PSW, n: CMP | Z }]);
    assert_eq!(at(&m, PSW), CMP | Z);
    // By way of r, in row 7, the same.
    let m = pass(cells(&[(RPL, 0xE), (0x10, 6)]), &[AddRM { r: 0xF, m: 0x10 }]);
    assert_eq!(at(&m, PSW), 6);
    // By way of IX: the address that counts is the one after the OR.
    let m = pass(cells(&[(IXL, 0xF), (PSW, IXE)]), &[AddMN { m: 0x70, n: 4 }]);
    assert_eq!(at(&m, PSW), 5);
}

/// Z goes by the result before fixed bits are cut.
#[test]
fn zero_flag_and_fixed_bits() {
    let m = pass(cells(&[(PSW, Z)]), &[AddMN { m: AR3, n: 1 }]);
    assert_eq!((at(&m, AR3), at(&m, PSW)), (0, 0));
    let m = pass(cells(&[(AR2, 3)]), &[AddMN { m: AR2, n: 1 }]);
    assert_eq!((at(&m, AR2), at(&m, PSW)), (0, 0));
    let m = pass(cells(&[(IXH, 8)]), &[AddMN { m: IXH, n: 8 }]);
    assert_eq!((at(&m, IXH), at(&m, PSW)), (0, CY | Z));
}

/// A result in 7EH can change BCD; the operation itself went by the old one.
#[test]
fn decimal_flag_is_read_first() {
    let m = pass(cells(&[(RPL, 1)]), &[AddMN { m: RPL, n: 9 }]);
    assert_eq!((at(&m, RPL), at(&m, PSW)), (0, CY | Z));
    let m = pass(cells(&[(RPL, 2)]), &[AddMN { m: RPL, n: 9 }]);
    assert_eq!((at(&m, RPL), at(&m, PSW)), (0xB, 0));
}

#[test]
fn section_18_5_1_three_digits() {
    let start = [(0x0D, 1), (0x0E, 0xF), (0x0F, 0xE), (0x2D, 2), (0x2E, 0), (0x2F, 5)];
    let add = [AddRM { r: 0xF, m: 0x2F }, AddcRM { r: 0xE, m: 0x2E }, AddcRM { r: 0xD, m: 0x2D }];
    let m = pass(cells(&start), &add);
    assert_eq!(m.cells[0x0D..0x10], [4, 0, 3]);
    let subtract =
        [SubRM { r: 0xF, m: 0x2F }, SubcRM { r: 0xE, m: 0x2E }, SubcRM { r: 0xD, m: 0x2D }];
    let m = pass(m, &subtract);
    assert_eq!(m.cells[0x0D..0x10], [1, 0xF, 0xE]);
}

#[test]
fn section_11_7_rotations() {
    let m = after(&[mov(PSW, CY), mov(1, 0b1100), Rorc { r: 1 }]);
    assert_eq!((at(&m, 1), at(&m, PSW)), (0b1110, 0));
    let m = after(&[
        mov(PSW, 0),
        mov(1, 0b1000),
        mov(2, 0b0100),
        mov(3, 0b0011),
        Rorc { r: 1 },
        Rorc { r: 2 },
        Rorc { r: 3 },
    ]);
    assert_eq!((m.cells[1], m.cells[2], m.cells[3], at(&m, PSW)), (0b0100, 0b0010, 0b0001, CY));
    let m = after(&[
        mov(1, 0b1000),
        mov(2, 0b0100),
        mov(3, 0b1010),
        AddcRM { r: 3, m: 3 },
        AddcRM { r: 2, m: 2 },
        AddcRM { r: 1, m: 1 },
    ]);
    assert_eq!((m.cells[1], m.cells[2], m.cells[3]), (0b0000, 0b1001, 0b0100));
    assert_eq!(at(&m, PSW), CY | Z);
}

#[test]
fn section_18_5_6_rotation_of_the_buffer() {
    let mut m = reset();
    m.cells[0x0C..0x10].copy_from_slice(&[0xF, 0xA, 5, 2]);
    let m = pass(m, &[Rorc { r: 0xC }, Rorc { r: 0xD }, Rorc { r: 0xE }, Rorc { r: 0xF }]);
    assert_eq!(m.cells[0x0C..0x10], [7, 0xD, 2, 9]);
}

/// RORC takes no heed of CMP and leaves Z; on 7FH the rotated nibble alone
/// is stored (house).
#[test]
fn rotation_and_flags() {
    for psw in 0..16 {
        let m = pass(cells(&[(0x04, 0b0011), (PSW, psw)]), &[Rorc { r: 4 }]);
        assert_eq!(at(&m, 0x04), (psw & CY) << 1 | 1);
        assert_eq!(at(&m, PSW), psw | CY);
        let m = pass(cells(&[(RPL, 0xE), (PSW, psw)]), &[Rorc { r: 0xF }]);
        assert_eq!(at(&m, PSW), (psw & CY) << 1 | psw >> 1);
    }
}
