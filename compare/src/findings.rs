//! What differs, as text for the reader.

use std::fmt::{UpperHex, Write};

use reference::{Machine, Peripherals};

use crate::board::Board;
use crate::host::SHEET_BYTES;

/// A disagreement.
#[derive(Debug)]
pub struct Finding(pub String);

/// What a call was given.
pub fn case(call: &str, rom: &[u16], before: &Machine, board: &Board) -> String {
    format!(
        "{call}, word {} in a ROM of {} words\n{board:?}\nbefore:\n{}",
        word_at(rom, before.pc),
        rom.len(),
        show(before)
    )
}

/// The word at an address, as text.
pub fn word_at(rom: &[u16], address: u16) -> String {
    rom.get(usize::from(address)).map_or("none".to_string(), |word| format!("{word:04X}"))
}

/// What the two answered and left.
pub fn outcome(proved: &str, second: &str, left: &Machine, other: &Machine) -> String {
    let first = match difference(left, other) {
        Some(place) if proved == second => place,
        _ => format!("proved {proved}, second {second}"),
    };
    let (left, other) = (show(left), show(other));
    format!("proved: {proved}\n{left}second: {second}\n{other}first difference: {first}\n")
}

/// The first place where two machines differ.
pub fn difference(proved: &Machine, second: &Machine) -> Option<String> {
    let rest = |m: &Machine| {
        let Peripherals { modulo, counter, divider, .. } = m.peripherals;
        let bytes = [m.levels, m.skip, m.standby, modulo, counter, divider];
        [m.pc].into_iter().chain(bytes.map(u16::from))
    };
    let names = ["pc", "levels", "skip", "standby", "modulo", "counter", "divider"];
    let registers = |m: &Machine| m.peripherals.registers;
    let in_rest = || {
        let mut pairs = names.iter().zip(rest(proved).zip(rest(second)));
        let (name, (a, b)) = pairs.find(|(_, (a, b))| a != b)?;
        Some(format!("{name}: proved {a:X}, second {b:X}"))
    };
    place("cell", &proved.cells, &second.cells)
        .or_else(|| place("control register", &registers(proved), &registers(second)))
        .or_else(|| place("stack place", &proved.stack, &second.stack))
        .or_else(in_rest)
}

/// The first place where two buffers of one length differ.
pub fn place<T: PartialEq + UpperHex>(name: &str, proved: &[T], second: &[T]) -> Option<String> {
    let at = proved.iter().zip(second).position(|(a, b)| a != b)?;
    Some(format!("{name} {at:02X}H: proved {:X}, second {:X}", proved[at], second[at]))
}

/// The words of a ROM as text.
pub fn show_rom(rom: &[u16]) -> String {
    format!("ROM: {:04X?}\n", shown(rom))
}

/// What is printed of a list: as much as a ROM or a sheet can have.
pub fn shown<T>(list: &[T]) -> &[T] {
    &list[..list.len().min(SHEET_BYTES)]
}

/// A machine as text: eight rows of cells, then registers and timer,
/// then the rest.
pub fn show(machine: &Machine) -> String {
    let mut text = String::new();
    // Writing to a string cannot fail.
    for (row, cells) in machine.cells.chunks_exact(16).enumerate() {
        let _ = write!(text, "  {row}0H ");
        for cell in cells {
            let _ = write!(text, " {cell:X}");
        }
        text.push('\n');
    }
    let Machine { pc, stack, levels, skip, standby, .. } = machine;
    let Peripherals { registers, modulo, counter, divider } = machine.peripherals;
    let _ = writeln!(
        text,
        "  registers {registers:X?} modulo {modulo:02X} counter {counter:02X} divider {divider:02X}\n\
         \x20 pc {pc:03X} stack {stack:03X?} levels {levels} skip {skip} standby {standby}"
    );
    text
}
