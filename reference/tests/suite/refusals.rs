//! Refusals 1 to 8 and 30, their order, and the record after them: document 01,
//! "Refusal numbers"; document 02, E4.

use crate::kit::*;
use reference::Instruction::*;
use reference::{encode, Answer, Count, Input, Machine, Report};

/// The step and the run are refused so, and leave the record as it came.
fn refused(rom: &[u16], machine: &Machine, input: &Input, number: u8) {
    let mut after = machine.clone();
    assert_eq!(step(rom, &mut after, input, 0), Answer::Refused(number));
    assert_eq!(&after, machine);
    let report = run(rom, &mut after, input, 0, 5);
    assert_eq!(report, Report { count: Count::default(), refusal: number });
    assert_eq!(&after, machine);
}

fn full_stack() -> Machine {
    let mut machine = reset();
    machine.levels = 5;
    machine.stack = [1, 2, 3, 4, 1023];
    machine
}

fn nop() -> Vec<u16> {
    rom(&[Nop])
}

#[test]
fn one_for_the_rom() {
    refused(&[], &reset(), &quiet(), 1);
    refused(&vec![nop()[0]; 1025], &reset(), &quiet(), 1);
    let mut machine = reset();
    assert_eq!(step(&vec![nop()[0]; 1024], &mut machine, &quiet(), 0), Answer::Done);
}

#[test]
fn one_for_each_cell() {
    for address in 0..0x80_u8 {
        let fixed = match address {
            0x6F | 0x75 => 0xC,
            0x74 | 0x79 | 0x7D => 0xF,
            0x7A => 0x7,
            0x7B => 0x8,
            _ => 0,
        };
        for value in 0..=255 {
            let machine = cells(&[(address, value)]);
            let good = value <= 15 && value & fixed == 0;
            assert_eq!(in_range(&machine), good, "{address:02X} {value}");
            if !good && (value < 32 || value == 255) {
                refused(&nop(), &machine, &quiet(), 1);
            }
        }
    }
}

#[test]
fn one_for_each_other_field() {
    let changes: [fn(&mut Machine); 14] = [
        |m| m.pc = 1024,
        |m| m.pc = 65_535,
        |m| m.levels = 6,
        |m| m.levels = 255,
        |m| (m.levels, m.stack[0]) = (1, 1024),
        |m| (m.levels, m.stack[4]) = (5, 65_535),
        |m| m.stack[0] = 1,
        |m| (m.levels, m.stack[4]) = (4, 1),
        |m| (m.levels, m.stack[1]) = (1, 1024),
        |m| m.skip = 2,
        |m| m.standby = 3,
        |m| m.standby = 255,
        |m| m.peripherals.divider = 128,
        |m| m.peripherals.divider = 255,
    ];
    for change in changes {
        let mut machine = reset();
        change(&mut machine);
        assert!(!in_range(&machine));
        refused(&nop(), &machine, &quiet(), 1);
    }
    assert!(in_range(&full_stack()));
}

/// Document 02, E4: a bit that a register does not have, TMRES too. Every
/// modulo register and counter is in range, and every divider to 127.
#[test]
fn one_for_each_control_register() {
    let kept = [0b1011, 0b0001, 0b0001, 0b0011, 0b1111, 0b1111, 0b1111];
    for (place, bits) in kept.into_iter().enumerate() {
        for value in 0..=255_u8 {
            let mut machine = reset();
            machine.peripherals.registers[place] = value;
            let good = value & !bits == 0;
            assert_eq!(in_range(&machine), good, "{place} {value}");
            if !good {
                refused(&nop(), &machine, &quiet(), 1);
                machine.standby = Machine::STOP;
                refused(&nop(), &machine, &quiet(), 1);
            }
        }
    }
    for value in 0..=255 {
        let mut machine = reset();
        machine.peripherals.modulo = value;
        machine.peripherals.counter = !value;
        machine.peripherals.divider = value / 2;
        assert!(in_range(&machine));
    }
}

/// A pulse above 1, whatever the clock, in every kind of call.
#[test]
fn one_for_the_pulse() {
    for standby in [0, Machine::HALT, Machine::STOP] {
        let machine = Machine { standby, ..reset() };
        let mut after = machine.clone();
        for pulse in [2, 3, 128, 255] {
            assert_eq!(step(&nop(), &mut after, &quiet(), pulse), Answer::Refused(1));
            for budget in [0, 5] {
                let report = run(&nop(), &mut after, &quiet(), pulse, budget);
                assert_eq!(report, Report { count: Count::default(), refusal: 1 });
            }
        }
        assert_eq!(after, machine);
    }
}

#[test]
fn one_for_each_input() {
    let loud: Vec<Input> = (0..5)
        .flat_map(|port| {
            let (mut pin, mut direction) = (quiet(), quiet());
            pin.pins[port] = 16;
            direction.directions[port] = 16;
            [pin, direction]
        })
        .chain([Input { release: 2, ..quiet() }])
        .collect();
    for input in loud {
        refused(&nop(), &reset(), &input, 1);
        // A machine in standby meets it too.
        let mut machine = reset();
        machine.standby = 1;
        refused(&nop(), &machine, &input, 1);
    }
    // P0E's high pins are in range.
    let input = Input { pins: [15; 5], directions: [15; 5], release: 1 };
    assert!(input.in_range());
}

#[test]
fn two_past_the_rom() {
    let mut machine = reset();
    machine.pc = 1;
    refused(&nop(), &machine, &quiet(), 2);
    machine.pc = 1023;
    refused(&[nop()[0]; 1023], &machine, &quiet(), 2);
    machine.skip = 1;
    refused(&nop(), &machine, &quiet(), 2);
}

#[test]
fn three_and_four_for_the_word() {
    for word in [0x6800, 0x7000, 0x7FFF, 0xB800, 0xBFFF, 0x3800, 0x3811, 0x3910, 0x3CF1] {
        refused(&[word], &reset(), &quiet(), 3);
    }
    for instruction in [Ei, Di, Reti] {
        refused(&rom(&[instruction]), &reset(), &quiet(), 4);
    }
}

/// Refused on every machine, with the timer at a pulse too.
#[test]
fn thirty_for_registers_and_peripherals() {
    let mut count = 0;
    for instruction in (0..128).flat_map(four).filter(|&i| meets_30(i)) {
        let mut machine = cells(&[(0x78, 0xF), (0x0E, 0xF), (IXM, 7), (PSW, IXE)]);
        refused(&rom(&[instruction]), &machine, &quiet(), 30);
        machine.peripherals.divider = 127;
        machine.standby = Machine::HALT;
        let released = Input { release: 1, ..quiet() };
        refused(&rom(&[instruction]), &machine, &released, 30);
        count += 1;
    }
    assert_eq!(count, 2 * 57 + 2 * 127);
    // 2 comes before it, and a skipped word does not meet it.
    let program = rom(&[Peek { rf: 0 }]);
    let mut machine = Machine { pc: 1, ..reset() };
    refused(&program, &machine, &quiet(), 2);
    (machine.pc, machine.skip) = (0, 1);
    assert_eq!(step(&program, &mut machine, &quiet(), 0), Answer::Done);
    assert_eq!((machine.pc, machine.skip), (1, 0));
}

#[test]
fn five_for_the_address() {
    for addr in [1024, 1025, 2047] {
        refused(&rom(&[Br { addr }]), &reset(), &quiet(), 5);
        refused(&rom(&[Call { addr }]), &reset(), &quiet(), 5);
        // 5 comes before 6.
        refused(&rom(&[Call { addr }]), &full_stack(), &quiet(), 5);
    }
}

#[test]
fn six_and_seven_for_the_stack() {
    for instruction in [Call { addr: 0 }, CallAr, PushAr, Movt] {
        refused(&rom(&[instruction]), &full_stack(), &quiet(), 6);
    }
    for instruction in [Ret, Retsk, PopAr] {
        refused(&rom(&[instruction]), &reset(), &quiet(), 7);
    }
}

#[test]
fn eight_for_the_table() {
    let far = cells(&[(AR0, 1)]);
    refused(&rom(&[Movt]), &far, &quiet(), 8);
    refused(&rom(&[Movt]), &cells(&[(AR2, 3), (AR1, 15), (AR0, 15)]), &quiet(), 8);
    // 6 comes before 8.
    let mut both = full_stack();
    both.cells[usize::from(AR0)] = 1;
    refused(&rom(&[Movt]), &both, &quiet(), 6);
}

/// 1 before 2, and 2 before the word's own refusals.
#[test]
fn order_of_the_first_ones() {
    let mut machine = cells(&[(AR3, 1)]);
    machine.pc = 1023;
    refused(&nop(), &machine, &quiet(), 1);
    let mut machine = reset();
    machine.pc = 1;
    refused(&[0x7FFF], &machine, &quiet(), 2);
    assert_eq!(encode(Br { addr: 4096 }), Err(10));
}
