//! Registers and timer as document 02, E4, has them, told in whole numbers and
//! without either emulator: both are held to it.

use reference::{Machine, Peripherals};

use crate::transfers::{self, Kind};
use crate::words;

/// The registers' addresses, in the record's order, and the bits that each
/// keeps: source 000, fig. 13-2, 13-7, 12-2 and 12-3.
pub const ADDRESSES: [u8; 7] = [0x11, 0x12, 0x24, 0x32, 0x33, 0x34, 0x35];
pub const KEPT: [u8; 7] = [0b1011, 0b0001, 0b0001, 0b0011, 0b1111, 0b1111, 0b1111];

/// Bits of 11H.
pub const TMEN: u8 = 0b1000;
pub const TMRES: u8 = 0b0100;
pub const TMCK: u8 = 0b0011;

/// Cycles from pulse to pulse with TMCK 0, 1 and 2. 3 is the INT pin.
const PERIODS: [u32; 3] = [16, 2, 128];

/// At reset: the timer runs with fx/256, and all ports are inputs.
pub const RESET: Peripherals =
    Peripherals { registers: [TMEN, 0, 0, 0, 0, 0, 0], modulo: 0xFF, counter: 0, divider: 0 };

/// How many pulses the chosen clock gives in so many cycles, whether TMEN is
/// 1 or not.
pub fn pulses(timer: &Peripherals, cycles: u32, pulse: u8) -> u32 {
    let divider = u32::from(timer.divider);
    match PERIODS.get(usize::from(timer.registers[0] & TMCK)) {
        Some(period) => (divider + cycles) / period - divider / period,
        None => u32::from(pulse),
    }
}

/// So many cycles go by, in a step with this pulse bit.
pub fn pass(timer: &mut Peripherals, cycles: u32, pulse: u8) {
    let counted = if timer.registers[0] & TMEN == 0 { 0 } else { pulses(timer, cycles, pulse) };
    for _ in 0..counted {
        let equal = timer.counter == timer.modulo;
        timer.counter = if equal { 0 } else { timer.counter.wrapping_add(1) };
    }
    timer.divider = ((u32::from(timer.divider) + cycles) % 128) as u8;
}

/// What the word writes to registers and timer.
pub fn written(before: &Machine, word: u16) -> Peripherals {
    let mut timer = before.peripherals;
    let cell = |address: usize| before.cells[address];
    match transfers::taken(word) {
        Some((Kind::Poke, address)) => {
            let Some(place) = ADDRESSES.iter().position(|&register| register == address) else {
                return timer;
            };
            timer.registers[place] = cell(0x78) & KEPT[place];
            if place == 0 && cell(0x78) & TMRES != 0 {
                timer.counter = 0;
            }
        }
        Some((Kind::Put, 0x03)) => timer.modulo = cell(0x0E) << 4 | cell(0x0F),
        _ => {}
    }
    timer
}

/// Registers and timer after a completed step from `before`: the word's
/// writes, and then its pulses.
pub fn after_step(before: &Machine, word: u16, pulse: u8) -> Peripherals {
    let skipped = before.skip == 1;
    let mut timer = if skipped { before.peripherals } else { written(before, word) };
    pass(&mut timer, if word == words::MOVT && !skipped { 2 } else { 1 }, pulse);
    timer
}

/// Registers and timer after a step that stays in standby: HALT's takes a
/// cycle, STOP's changes nothing.
pub fn after_standing(before: &Machine, pulse: u8) -> Peripherals {
    let mut timer = before.peripherals;
    if before.standby == 1 {
        pass(&mut timer, 1, pulse);
    }
    timer
}
