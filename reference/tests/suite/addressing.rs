//! Addresses: source 000, 7.5 and 18.5; document 01, "Addresses".

use crate::kit::*;
use reference::Instruction::*;
use reference::Machine;

/// Every RAM cell and register row marked by a value from its address.
fn patterned() -> Machine {
    let mut machine = reset();
    for address in 0..0x6F_u8 {
        machine.cells[usize::from(address)] = (address ^ address >> 4) & 0xF;
    }
    machine
}

#[test]
fn section_7_5_3_direct() {
    let m = pass(cells(&[(0x03, 2), (0x61, 5)]), &[AddRM { r: 3, m: 0x61 }]);
    assert_eq!((at(&m, 0x03), at(&m, 0x61)), (7, 5));
}

#[test]
fn section_7_5_3_row_transfer() {
    let m = pass(cells(&[(0x34, 0xB)]), &[mov(0x05, 8), MovTo { r: 5, m: 0x34 }]);
    assert_eq!(at(&m, 0x38), 0xB);
    let m = pass(cells(&[(0x3E, 0xC)]), &[mov(0x0B, 0xE), MovFrom { m: 0x34, r: 0xB }]);
    assert_eq!(at(&m, 0x34), 0xC);
}

#[test]
fn section_7_5_4_diagonal_transfer() {
    let to = [mov(IXM, 6), mov(0x05, 8), mov(IXH, 8), MovTo { r: 5, m: 0x34 }];
    let m = pass(cells(&[(0x34, 0xB)]), &to);
    assert_eq!((at(&m, 0x68), at(&m, 0x38)), (0xB, 0));
    let from = [mov(IXM, 6), mov(IXH, 8), mov(0x0B, 0xE), MovFrom { m: 0x34, r: 0xB }];
    let m = pass(cells(&[(0x6E, 0xC)]), &from);
    assert_eq!(at(&m, 0x34), 0xC);
}

#[test]
fn section_7_5_5_index() {
    // The real address 73H is P0D, read from its pins here.
    let index = [mov(IXL, 2), mov(IXM, 1), mov(IXH, 0), set(IXE)];
    let m = pass(cells(&[(0x03, 2)]), &index);
    let mut input = quiet();
    input.pins[3] = 5;
    let m = with_input(m, &input, AddRM { r: 3, m: 0x61 });
    assert_eq!(at(&m, 0x03), 7);
}

#[test]
fn section_7_5_5_index_and_transfer() {
    let program =
        [mov(IXL, 1), mov(IXM, 0), mov(IXH, 0), mov(0x05, 8), set(IXE), MovTo { r: 5, m: 0x34 }];
    let m = pass(cells(&[(0x34, 1), (0x35, 0xD)]), &program);
    assert_eq!(at(&m, 0x38), 0xD);
    assert_eq!(at(&m, 0x39), 0);
}

#[test]
fn section_7_5_5_clear_memory() {
    let program = rom(&[
        mov(IXL, 0),
        mov(IXM, 0),
        mov(IXH, 0),
        set(IXE),
        mov(0x00, 0),
        IncIx,
        clear(IXE),
        Ske { m: IXM, n: 7 },
        Br { addr: 3 },
        Nop,
    ]);
    let mut m = patterned();
    until(&program, &mut m, 9);
    assert_eq!(m.cells[..0x70], [0; 0x70]);
}

#[test]
fn section_7_5_5_array() {
    let n = 11;
    let low = 2 * n;
    let program = [
        mov(IXH, 0),
        mov(IXM, n >> 3),
        mov(IXL, n << 1 & 0xF),
        set(IXE),
        AddMN { m: 0x00, n: 4 },
        AddcMN { m: 0x01, n: 0 },
    ];
    let m = pass(cells(&[(low, 0xE), (low + 1, 3)]), &program);
    assert_eq!((at(&m, low), at(&m, low + 1)), (2, 4));
}

#[test]
fn section_18_5_1_examples() {
    // RPL 4: row 2 of the general register.
    let m = pass(cells(&[(0x23, 3), (0x2F, 4)]), &[mov(RPL, 4), AddRM { r: 3, m: 0x2F }]);
    assert_eq!(at(&m, 0x23), 7);
    // IX 40H and 2FH: 6FH, P0E, whose two high bits read 0.
    let index = [mov(IXM, 4), set(IXE)];
    let m = pass(cells(&[(0x03, 1)]), &index);
    let mut input = quiet();
    input.pins[4] = 0xF;
    let m = with_input(m, &input, AddRM { r: 3, m: 0x2F });
    assert_eq!(at(&m, 0x03), 4);
    // IX 10H and 2FH: 3FH.
    let program = [mov(IXM, 1), set(IXE), AddRM { r: 3, m: 0x2F }];
    let m = pass(cells(&[(0x03, 1), (0x3F, 6)]), &program);
    assert_eq!(at(&m, 0x03), 7);
}

#[test]
fn section_18_5_1_sum_of_a_row() {
    let program = rom(&[
        mov(IXM, 4),
        mov(IXL, 0),
        set(IXE),
        AddRM { r: 0xF, m: 0x00 },
        clear(IXE),
        IncIx,
        Ske { m: IXL, n: 0 },
        Br { addr: 2 },
        Nop,
    ]);
    let mut m = reset();
    let mut sum = 0;
    for column in 0..16 {
        m.cells[0x40 + column] = (column * 7 % 16) as u8;
        sum += m.cells[0x40 + column];
    }
    until(&program, &mut m, 8);
    assert_eq!(at(&m, 0x0F), sum & 0xF);
}

#[test]
fn section_18_5_1_clear_by_compare() {
    // INC IX, example 2: the loop ends where IX is 73H.
    let program = rom(&[
        set(IXE),
        mov(0x00, 0),
        clear(IXE),
        IncIx,
        set(CMP | Z),
        SubMN { m: IXL, n: 3 },
        SubcMN { m: IXM, n: 7 },
        SubcMN { m: IXH, n: 0 },
        Skt { m: PSW, n: Z },
        Br { addr: 0 },
        Nop,
    ]);
    let mut m = patterned();
    until(&program, &mut m, 10);
    assert_eq!(m.cells[..0x74], [0; 0x74]);
    assert_eq!((at(&m, IXM), at(&m, IXL)), (7, 3));
}

#[test]
fn section_18_5_7_store_a_row() {
    let program = rom(&[
        set(IXE),
        St { m: 0x18, r: 0 },
        clear(IXE),
        IncIx,
        Skge { m: IXL, n: 8 },
        Br { addr: 0 },
        Nop,
    ]);
    let mut m = cells(&[(0x00, 9)]);
    until(&program, &mut m, 6);
    assert_eq!(m.cells[0x18..0x20], [9; 8]);
}

#[test]
fn section_18_5_7_indirect_examples() {
    let m = pass(cells(&[(0x20, 5)]), &[mov(0, 0xF), MovTo { r: 0, m: 0x20 }]);
    assert_eq!(at(&m, 0x2F), 5);
    let pointer = [mov(0, 0xF), mov(IXH, 0), mov(IXM, 3), OrMN { m: IXH, n: 8 }];
    let m = pass(pass(cells(&[(0x20, 5)]), &pointer), &[MovTo { r: 0, m: 0x20 }]);
    assert_eq!(at(&m, 0x3F), 5);
    let m = pass(cells(&[(0x2F, 6)]), &[mov(0, 0xF), MovFrom { m: 0x20, r: 0 }]);
    assert_eq!(at(&m, 0x20), 6);
    let m = pass(pass(cells(&[(0x3F, 6)]), &pointer), &[MovFrom { m: 0x20, r: 0 }]);
    assert_eq!(at(&m, 0x20), 6);
    let m = after(&[mov(IXM, 3), mov(IXL, 2), set(IXE), mov(0x00, 7)]);
    assert_eq!(at(&m, 0x32), 7);
}

/// "r ... is never ORed", RORC's r included.
#[test]
fn register_is_never_ored() {
    let m = pass(cells(&[(0x03, 8), (0x33, 2), (IXM, 3), (PSW, IXE)]), &[Rorc { r: 3 }]);
    assert_eq!((at(&m, 0x03), at(&m, 0x33)), (4, 2));
    let m = pass(cells(&[(0x25, 8), (IXM, 2), (IXL, 4), (PSW, IXE)]), &[Ld { r: 3, m: 0x01 }]);
    assert_eq!((at(&m, 0x03), at(&m, 0x27)), (8, 0));
}

/// IXE and MPE both set: the row is 7BH's low three bits, the column r's
/// content; m is ORed all the same.
#[test]
fn both_enables() {
    let start = cells(&[(0x05, 8), (0x36, 0xB), (IXH, 8), (IXM, 1), (IXL, 2), (PSW, IXE)]);
    let m = pass(start, &[MovTo { r: 5, m: 0x24 }]);
    assert_eq!(at(&m, 0x18), 0xB);
    let start = cells(&[(0x05, 8), (0x18, 0xC), (IXH, 8), (IXM, 1), (IXL, 2), (PSW, IXE)]);
    let m = pass(start, &[MovFrom { m: 0x24, r: 5 }]);
    assert_eq!(at(&m, 0x36), 0xC);
}

/// Every row pointer: r lies in the row of 7EH's bits 3 to 1.
#[test]
fn register_rows() {
    for row in 0..6_u8 {
        for bcd in 0..2 {
            let m = pass(cells(&[(RPL, row << 1 | bcd), (0x6A, 9)]), &[Ld { r: 7, m: 0x6A }]);
            assert_eq!(at(&m, row << 4 | 7), 9);
        }
    }
    let m = pass(cells(&[(RPL, 0xE), (0x10, 9)]), &[Ld { r: 8, m: 0x10 }]);
    assert_eq!(at(&m, Machine::WR), 9);
}
