//! PEEK, POKE, GET and PUT: document 02, E4; source 000, 9.1 to 9.3, 10.2 and
//! 18.5.7 (9) to (12).

use crate::kit::*;
use reference::Instruction::*;
use reference::{encode, Input, Machine, Peripherals};

const WR: u8 = Machine::WR;

/// The registers, each with the bits that it has.
const REGISTERS: [(u8, u8); 7] = [
    (0x11, 0b1011),
    (0x12, 0b0001),
    (0x24, 0b0001),
    (0x32, 0b0011),
    (0x33, 0b1111),
    (0x34, 0b1111),
    (0x35, 0b1111),
];

#[test]
fn their_words() {
    assert_eq!(encode(Peek { rf: 0x11 }), Ok(0x3931));
    assert_eq!(encode(Poke { rf: 0x11 }), Ok(0x3921));
    assert_eq!(encode(Poke { rf: 0x2F }), Ok(0x3A2F));
    assert_eq!(encode(Get { p: 0x02 }), Ok(0x38B2));
    assert_eq!(encode(Put { p: 0x03 }), Ok(0x38A3));
    assert_eq!(encode(Get { p: 0x40 }), Ok(0x3CB0));
}

/// Source 000, 13.1.3, 13.1.4 and 12.7.
#[test]
fn at_reset() {
    let wanted = [8, 0, 0, 0, 0, 0, 0];
    let told = Peripherals { registers: wanted, modulo: 0xFF, counter: 0, divider: 0 };
    assert_eq!(reset().peripherals, told);
    for (&(rf, _), value) in REGISTERS.iter().zip(wanted) {
        assert_eq!(at(&pass(cells(&[(WR, 0xA)]), &[Peek { rf }]), WR), value);
    }
}

/// POKE stores the bits that there are, in this register alone; PEEK reads them
/// and changes nothing but WR.
#[test]
fn every_value_of_every_register() {
    for (rf, bits) in REGISTERS {
        for value in 0..16 {
            for old in [0, bits] {
                let start = with_registers(cells(&[(WR, value)]), &[(rf, old)]);
                let mut wanted = with_registers(start.clone(), &[(rf, value & bits)]);
                wanted.pc = 1;
                wanted.peripherals.divider = 1;
                let mut poked = pass(start, &[Poke { rf }]);
                assert_eq!(poked, wanted, "{rf:02X}");
                // Back by a cycle, so that no clock has a pulse.
                poked.peripherals.divider = 0;
                wanted.cells[usize::from(WR)] = value & bits;
                assert_eq!(pass(poked, &[Peek { rf }]), wanted, "{rf:02X}");
            }
        }
    }
}

/// 40H to 7FH is data memory: POKE stores as MOV does, and PEEK loads as LD does
/// into WR, which is r8 of row 7.
#[test]
fn data_memory() {
    for rf in 0x40..0x80 {
        for value in 0..16 {
            let start = cells(&[(WR, value)]);
            let moved = pass(start.clone(), &[mov(rf, value)]);
            assert_eq!(pass(start, &[Poke { rf }]), moved, "{rf:02X}");
            let held = pass(cells(&[(RPL, 0xE)]), &[mov(rf, value)]);
            let held = Machine { pc: 0, ..held };
            let input = Input { pins: [!value & 0xF; 5], ..quiet() };
            let mut peeked = with_input(held.clone(), &input, Peek { rf });
            // A write of 7EH may have moved the row.
            if rf == RPL {
                assert_eq!(at(&peeked, WR), value);
                continue;
            }
            let mut loaded = with_input(held, &input, Ld { r: 8, m: rf });
            assert_eq!(at(&peeked, WR), at(&loaded, WR), "{rf:02X}");
            (peeked.cells[0x78], loaded.cells[0x78]) = (0, 0);
            assert_eq!(peeked, loaded);
        }
    }
}

/// PEEK of a port gives pins or latch by its directions.
#[test]
fn peek_of_a_port() {
    let ports = [(0x70, 0xC), (0x71, 0xC), (0x72, 0xC), (0x73, 0xC), (0x6F, 1)];
    let out = [(0x35, 0b0110), (0x24, 1), (0x34, 0b0101), (0x33, 0b0001), (0x32, 0b01)];
    let machine = with_registers(cells(&ports), &out);
    let input = Input { pins: [0xA, 0x3, 0xA, 0xA, 0x2], ..quiet() };
    for (rf, value) in [(0x70, 0xC), (0x71, 0xC), (0x72, 0xE), (0x73, 0xA), (0x6F, 0x3)] {
        assert_eq!(at(&with_input(machine.clone(), &input, Peek { rf }), WR), value, "{rf:02X}");
    }
}

/// Source 000, 9.2.3, the example, with WR saved in 30H and taken from 32H.
#[test]
fn section_9_2_3() {
    let program = [
        Peek { rf: 0x11 },
        AndMN { m: IXH, n: 7 },
        clear(IXE),
        OrMN { m: RPL, n: 0b0110 },
        Ld { r: 0, m: WR },
        Poke { rf: 0x73 },
        Peek { rf: 0x40 },
        Poke { rf: 0x33 },
        St { m: WR, r: 2 },
    ];
    let m = pass(cells(&[(0x40, 0xD), (0x32, 7)]), &program);
    assert_eq!((at(&m, 0x30), at(&m, 0x73), register(&m, 0x33), at(&m, WR)), (8, 8, 0xD, 7));
}

/// Source 000, 18.5.7 (10): 0FH to P0DBIO, and PSW to 5FH.
#[test]
fn section_18_5_7_poke() {
    let m = after(&[mov(WR, 0xF), Poke { rf: 0x33 }]);
    assert_eq!(m.peripherals.registers, [8, 0, 0, 0, 0xF, 0, 0]);
    let m = pass(cells(&[(PSW, CMP | Z)]), &[Peek { rf: PSW }, Poke { rf: 0x5F }]);
    assert_eq!((at(&m, 0x5F), at(&m, PSW)), (CMP | Z, CMP | Z));
    // POKE of PSW writes all four flags.
    let m = pass(cells(&[(PSW, CMP | Z), (WR, CY | IXE)]), &[Poke { rf: PSW }]);
    assert_eq!(at(&m, PSW), CY | IXE);
}

/// IX changes neither rf nor p.
#[test]
fn index_is_not_used() {
    let indexed = |set: &[(u8, u8)]| {
        let mut machine = cells(&[(IXM, 3), (IXL, 5), (PSW, IXE)]);
        for &(address, value) in set {
            machine.cells[usize::from(address)] = value;
        }
        machine
    };
    let m = pass(indexed(&[(0x40, 6), (0x75, 3)]), &[Peek { rf: 0x40 }]);
    assert_eq!(at(&m, WR), 6);
    let m = pass(indexed(&[(WR, 6)]), &[Poke { rf: 0x40 }]);
    assert_eq!((at(&m, 0x40), at(&m, 0x75)), (6, 0));
    let m = pass(indexed(&[(WR, 9)]), &[Poke { rf: 0x34 }]);
    assert_eq!((register(&m, 0x34), register(&m, 0x35)), (9, 0));
    let m = pass(indexed(&[]), &[Peek { rf: 0x11 }]);
    assert_eq!(at(&m, WR), 8);
    let m = pass(indexed(&[(0x0E, 6), (0x0F, 4), (0x3F, 9)]), &[Put { p: 3 }, Get { p: 2 }]);
    assert_eq!((m.peripherals.modulo, &m.cells[0x0C..0x10]), (0x64, &[0, 0, 0, 0][..]));
    assert_eq!(at(&m, 0x3F), 9);
}

/// GET writes DBF1 and DBF0 and leaves DBF3 and DBF2; PUT reads DBF1 and DBF0.
#[test]
fn eight_bits_of_the_buffer() {
    for value in 0..=255_u8 {
        let mut start = cells(&[(0x0C, 0xA), (0x0D, 0x5), (0x0E, 1), (0x0F, 2)]);
        start.peripherals.counter = value;
        let mut wanted = start.clone();
        (wanted.pc, wanted.peripherals.divider) = (1, 1);
        (wanted.cells[0x0E], wanted.cells[0x0F]) = (value >> 4, value & 0xF);
        assert_eq!(pass(start, &[Get { p: 2 }]), wanted);

        let mut start = cells(&[(0x0C, 0xA), (0x0D, 0x5)]);
        (start.cells[0x0E], start.cells[0x0F]) = (value >> 4, value & 0xF);
        start.peripherals.counter = 0x77;
        let mut wanted = start.clone();
        (wanted.pc, wanted.peripherals.divider) = (1, 1);
        wanted.peripherals.modulo = value;
        assert_eq!(pass(start, &[Put { p: 3 }]), wanted);
    }
}
