//! Random registers and timers, in range and out of it.

use reference::Peripherals;

use crate::clock::KEPT;
use crate::random::Random;

/// Registers and timer in range. A pulse is often near, and so is a match.
pub fn any(random: &mut Random) -> Peripherals {
    let bits = random.bits();
    let mut registers = [0; 7];
    for (place, register) in registers.iter_mut().enumerate() {
        *register = (bits >> (4 * place)) as u8 & KEPT[place];
    }
    if bits >> 28 & 3 != 0 {
        registers[0] |= 0b1000;
    }
    let divider = divider((bits >> 30) as u8, bits >> 38);
    let (modulo, counter) = counts((bits >> 44) as u8, bits >> 52);
    Peripherals { registers, modulo, counter, divider }
}

/// Mostly one or two cycles short of 2, 16 or 128.
fn divider(place: u8, choice: u64) -> u8 {
    match choice & 7 {
        0..=2 => place & 0x70 | 0xE | place & 1,
        3..=4 => 0x7E | place & 1,
        _ => place & 0x7F,
    }
}

/// Modulo register and counter: often equal or one apart, at times first and
/// last.
fn counts(byte: u8, choice: u64) -> (u8, u8) {
    let other = (choice >> 4) as u8;
    match choice & 0xF {
        0..=4 => (byte, byte),
        5..=6 => (byte, byte.wrapping_sub(1)),
        7 => (byte, byte.wrapping_add(1)),
        8 => (byte, 0xFF),
        9 => (0, byte & 1),
        10 => (0xFF, 0xFF),
        11 => (byte, 0),
        _ => (byte, other),
    }
}

/// Puts a register or the divider out of range.
pub fn spoil(random: &mut Random, timer: &mut Peripherals) {
    if random.once_in(4) {
        timer.divider = if random.once_in(2) { 0x80 } else { timer.divider | 0x80 };
        return;
    }
    let place = if random.once_in(4) { 0 } else { random.below(7) as usize };
    let barred = !KEPT[place];
    let bits = if random.once_in(2) { barred & 0xF } else { barred & random.byte(256) };
    // Where the nibble has no fixed bit, or none was hit: one above it.
    timer.registers[place] |= if bits == 0 { 0x10 } else { bits };
}
