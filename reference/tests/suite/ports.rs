//! Ports: document 01, "The machine's record"; document 02, E4; source 000, 5.1.4
//! and 12.1 to 12.7.

use crate::kit::*;
use reference::Instruction::*;
use reference::{Input, Machine};

/// The ports in the order of the input record.
const PORTS: [u8; 5] = [0x70, 0x71, 0x72, 0x73, 0x6F];

fn port_input(port: usize, pin: u8, direction: u8) -> Input {
    let mut input = quiet();
    input.pins[port] = pin;
    input.directions[port] = direction;
    input
}

/// The control registers that make these directions of a port, and the
/// directions that they make: P0B has one bit for all four pins, and P0E no
/// more than two.
fn registers(port: usize, direction: u8) -> ((u8, u8), u8) {
    match port {
        0 => ((0x35, direction), direction),
        1 => ((0x24, direction & 1), if direction & 1 == 1 { 0xF } else { 0 }),
        2 => ((0x34, direction), direction),
        3 => ((0x33, direction), direction),
        _ => ((0x32, direction & 3), direction & 3),
    }
}

/// What reading a port gives, by its bits.
fn read(pin: u8, direction: u8, stored: u8) -> u8 {
    let sources = [1, 2, 4, 8].map(|bit| bit & if direction & bit == 0 { pin } else { stored });
    sources.into_iter().sum()
}

/// A port bit gives the pin where its direction is 0, the stored bit where
/// it is 1; P0E's two high bits read 0. The other ports are set against it, and
/// so are the record's direction nibbles, which are not read.
#[test]
fn every_read() {
    for (port, &address) in PORTS.iter().enumerate() {
        let real = if address == Machine::P0E { 3 } else { 0xF };
        for case in 0..4096_u16 {
            let [pin, direction, stored] = [0, 4, 8].map(|shift| (case >> shift & 0xF) as u8);
            let stored = stored & real;
            let mut input = port_input(port, pin, 0);
            let mut machine = cells(&[(address, stored)]);
            for other in 0..5 {
                let (register, _) = registers(other, !direction & 0xF);
                machine = with_registers(machine, &[register]);
                input.directions[other] = !direction & 0xF;
            }
            let (register, made) = registers(port, direction);
            let machine = with_registers(machine, &[register]);
            let m = with_input(machine, &input, Ld { r: 0, m: address });
            let wanted = read(pin, made, stored) & real;
            assert_eq!((at(&m, 0), at(&m, address)), (wanted, stored));
        }
    }
}

/// Source 000, 13.1.8 and table 12-6: with TMOSEL 1, P0D3 reads its latch
/// whatever P0DBIO3 says. The other ports and pins do not change.
#[test]
fn timer_output() {
    for case in 0..4096_u16 {
        let [pin, direction, stored] = [0, 4, 8].map(|shift| (case >> shift & 0xF) as u8);
        let input = Input { pins: [pin; 5], ..quiet() };
        let latches = PORTS.map(|port| (port, if port == 0x6F { stored & 3 } else { stored }));
        let machine = with_registers(cells(&latches), &[(0x33, direction), (0x12, 1)]);
        let m = with_input(machine.clone(), &input, Ld { r: 0, m: 0x73 });
        assert_eq!(at(&m, 0), read(pin, direction | 8, stored));
        for port in [0x70, 0x71, 0x72] {
            assert_eq!(at(&with_input(machine.clone(), &input, Ld { r: 0, m: port }), 0), pin);
        }
        assert_eq!(at(&with_input(machine, &input, Ld { r: 0, m: 0x6F }), 0), pin & 3);
    }
}

/// At reset every pin is an input, whatever the record says.
#[test]
fn all_inputs_at_reset() {
    for (port, &address) in PORTS.iter().enumerate() {
        let input = port_input(port, 0xF, 0xF);
        let m = with_input(reset(), &input, Ld { r: 0, m: address });
        assert_eq!(at(&m, 0), if address == 0x6F { 3 } else { 0xF });
    }
}

/// Source 000, 12.5: a change of direction leaves the latch.
#[test]
fn directions_leave_the_latch() {
    for rf in [0x12, 0x24, 0x32, 0x33, 0x34, 0x35] {
        for value in [0xF, 0] {
            let latches = PORTS.map(|port| (port, 2));
            let mut machine = with_registers(cells(&latches), &[(rf, 1)]);
            machine.cells[0x78] = value;
            let m = with_input(machine, &quiet(), Poke { rf });
            assert!(PORTS.iter().all(|&port| at(&m, port) == 2));
        }
    }
}

#[test]
fn a_write_stores_the_whole_nibble() {
    for (port, &address) in PORTS.iter().enumerate() {
        for direction in 0..16 {
            let (register, _) = registers(port, direction);
            let machine = with_registers(reset(), &[register]);
            let m = with_input(machine, &quiet(), mov(address, 0xF));
            assert_eq!(at(&m, address), if address == 0x6F { 3 } else { 0xF });
        }
    }
}

/// AND 70H,#1101B on a port read from its pins stores what was read.
#[test]
fn read_and_write_in_one() {
    let input = port_input(0, 0b1010, 0);
    let m = with_input(cells(&[(0x70, 0b0101)]), &input, AndMN { m: 0x70, n: 0b1101 });
    assert_eq!(at(&m, 0x70), 0b1000);
    let m = with_input(cells(&[(0x70, 0b0101)]), &input, AddMN { m: 0x70, n: 1 });
    assert_eq!(at(&m, 0x70), 0b1011);
}

/// With row 7 as general register, r0 is P0A; with row 6, rF is P0E.
#[test]
fn a_register_can_be_a_port() {
    let input = port_input(0, 9, 0);
    let row_7 = || cells(&[(RPL, 0xE), (0x70, 2), (0x10, 3), (0x29, 6)]);
    assert_eq!(at(&with_input(row_7(), &input, St { m: 0x20, r: 0 }), 0x20), 9);
    assert_eq!(at(&with_input(row_7(), &input, AddRM { r: 0, m: 0x10 }), 0x70), 12);
    assert_eq!(at(&with_input(row_7(), &input, XorRM { r: 0, m: 0x10 }), 0x70), 10);
    assert_eq!(at(&with_input(row_7(), &input, MovTo { r: 0, m: 0x10 }), 0x19), 3);
    assert_eq!(at(&with_input(row_7(), &input, MovFrom { m: 0x20, r: 0 }), 0x20), 6);
    let rotated = with_input(row_7(), &input, Rorc { r: 0 });
    assert_eq!((at(&rotated, 0x70), at(&rotated, PSW)), (4, CY));
    let input = port_input(4, 0xF, 0);
    let m = with_input(cells(&[(RPL, 0xC)]), &input, St { m: 0x20, r: 0xF });
    assert_eq!(at(&m, 0x20), 3);
}

/// @r can lie on a port, read or written.
#[test]
fn indirect_ports() {
    let input = port_input(1, 0xB, 0);
    let m = with_input(cells(&[(0, 1)]), &input, MovFrom { m: 0x78, r: 0 });
    assert_eq!(at(&m, 0x78), 0xB);
    let m = with_input(cells(&[(0, 1), (0x78, 5)]), &input, MovTo { r: 0, m: 0x78 });
    assert_eq!(at(&m, 0x71), 5);
}

#[test]
fn skips_see_the_pins() {
    let input = port_input(2, 0b0110, 0);
    let tests = [
        (Ske { m: 0x72, n: 6 }, 1),
        (Skne { m: 0x72, n: 6 }, 0),
        (Skge { m: 0x72, n: 7 }, 0),
        (Sklt { m: 0x72, n: 7 }, 1),
        (Skt { m: 0x72, n: 0b0110 }, 1),
        (Skf { m: 0x72, n: 0b1001 }, 1),
        (Skf { m: 0x72, n: 0b0010 }, 0),
    ];
    for (instruction, skip) in tests {
        let m = with_input(cells(&[(0x72, 9)]), &input, instruction);
        assert_eq!(m.skip, skip, "{instruction:?}");
    }
}
