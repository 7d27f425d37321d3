//! Events of registers and timer that single steps must meet (document 02, E4).

use reference::Machine;

use crate::clock::{self, TMCK, TMEN, TMRES};
use crate::pair;
use crate::ports::is_port;
use crate::tally::Tally;
use crate::told::Step;
use crate::transfers::{self, Kind};
use crate::words;

/// The events, each of which the part with the timer must see.
pub const ALL: &[&str] = &[
    "pulses of fx/256",
    "pulses of fx/32",
    "pulses of fx/2048",
    "pulses of the INT pin",
    "pulse bits with another clock",
    "pulses with TMEN 0",
    "pulses in MOVT",
    "matches",
    "matches with modulo register 0",
    "counts past the modulo register",
    "counts from 255 to 0 without a match",
    "TMRES with TMEN 1",
    "TMRES with TMEN 0",
    "TMRES in a step with a pulse",
    "clock changes",
    "clock changes in a step with a pulse",
    "TMEN from 0 to 1",
    "GETs",
    "GETs in a step with a pulse",
    "PUTs",
    "PUTs that make a match",
    "PEEKs of a control register",
    "PEEKs of a port",
    "PEEKs of WR",
    "PEEKs of AR",
    "PEEKs of 7FH",
    "PEEKs of other data memory",
    "POKEs of 11H",
    "POKEs of TMOSEL",
    "POKEs of a direction",
    "POKEs of a port",
    "POKEs of WR",
    "POKEs of AR",
    "POKEs of 7FH",
    "POKEs of other data memory",
    "PEEKs and POKEs of data memory with IXE",
    "PEEKs refused with 30",
    "POKEs refused with 30",
    "GETs refused with 30",
    "PUTs refused with 30",
    "skipped words of the four",
    "skipped words that 30 would meet",
    "standing steps in HALT that count",
    "standing steps in HALT between pulses",
    "standing steps in STOP",
    "released steps from HALT",
    "released steps from STOP",
    "standby marks out of range",
    "pulse bits out of range",
    "registers and dividers out of range",
];

/// Counts the events of one step.
pub fn count(step: &Step, tally: &mut Tally) {
    let taken = step.word().and_then(transfers::taken);
    match (step.number, taken) {
        (pair::STANDBY, _) => standing(step, tally),
        (30, Some((Kind::Peek, _))) => tally.see("PEEKs refused with 30"),
        (30, Some((Kind::Poke, _))) => tally.see("POKEs refused with 30"),
        (30, Some((Kind::Get, _))) => tally.see("GETs refused with 30"),
        (30, Some((Kind::Put, _))) => tally.see("PUTs refused with 30"),
        (pair::DONE, _) => completed(step, taken, tally),
        _ => {}
    }
}

fn standing(step: &Step, tally: &mut Tally) {
    let counted = step.after.peripherals.counter != step.before.peripherals.counter;
    tally.see(match (step.before.standby, counted) {
        (1, true) => "standing steps in HALT that count",
        (1, false) => "standing steps in HALT between pulses",
        _ => "standing steps in STOP",
    });
}

fn completed(step: &Step, taken: Option<(Kind, u8)>, tally: &mut Tally) {
    let skipped = step.before.skip == 1;
    tally.see_those(&[
        (step.before.standby == 1, "released steps from HALT"),
        (step.before.standby == 2, "released steps from STOP"),
        (skipped && taken.is_some(), "skipped words of the four"),
    ]);
    if skipped && taken.is_some_and(|(kind, address)| transfers::missing(kind, address)) {
        tally.see("skipped words that 30 would meet");
    }
    let word = step.word().filter(|_| !skipped).unwrap_or(words::NOP);
    let pulse = counts(step.before, word, step.board.pulse, tally);
    match taken.filter(|_| !skipped) {
        Some((Kind::Peek, address)) => tally.see(peek(address)),
        Some((Kind::Poke, address)) => {
            tally.see(poke(address));
            if address == clock::ADDRESSES[0] {
                mode(step.before, pulse, tally);
            }
        }
        Some((Kind::Get, _)) => {
            tally.see(if pulse { "GETs in a step with a pulse" } else { "GETs" })
        }
        Some((Kind::Put, _)) => tally.see("PUTs"),
        None => {}
    }
    let indexed = step.before.cells[0x7F] & 1 == 1 && step.before.cells[0x7C] != 0;
    if indexed && !skipped && matches!(taken, Some((Kind::Peek | Kind::Poke, 0x40..))) {
        tally.see("PEEKs and POKEs of data memory with IXE");
    }
}

/// A pulse, and what it does. False without one.
fn counts(before: &Machine, word: u16, bit: u8, tally: &mut Tally) -> bool {
    let timer = clock::written(before, word);
    let cycles = if word == words::MOVT { 2 } else { 1 };
    let choice = timer.registers[0] & TMCK;
    if bit == 1 && choice != 3 {
        tally.see("pulse bits with another clock");
    }
    if clock::pulses(&timer, cycles, bit) == 0 {
        return false;
    }
    if timer.registers[0] & TMEN == 0 {
        tally.see("pulses with TMEN 0");
        return false;
    }
    const CLOCKS: [&str; 4] =
        ["pulses of fx/256", "pulses of fx/32", "pulses of fx/2048", "pulses of the INT pin"];
    tally.see(CLOCKS[usize::from(choice)]);
    let equal = timer.counter == timer.modulo;
    let was_equal = before.peripherals.counter == before.peripherals.modulo;
    tally.see_those(&[
        (equal, "matches"),
        (equal && timer.modulo == 0, "matches with modulo register 0"),
        (timer.counter > timer.modulo, "counts past the modulo register"),
        (!equal && timer.counter == 255, "counts from 255 to 0 without a match"),
        (equal && !was_equal && word == 0x38A3, "PUTs that make a match"),
        (cycles == 2, "pulses in MOVT"),
    ]);
    true
}

/// POKE 11H.
fn mode(before: &Machine, pulse: bool, tally: &mut Tally) {
    let (old, new) = (before.peripherals.registers[0], before.cells[0x78]);
    let reset = new & TMRES != 0;
    let changed = (old ^ new) & TMCK != 0;
    tally.see_those(&[
        (reset && new & TMEN != 0, "TMRES with TMEN 1"),
        (reset && new & TMEN == 0, "TMRES with TMEN 0"),
        (reset && pulse, "TMRES in a step with a pulse"),
        (changed, "clock changes"),
        (changed && pulse, "clock changes in a step with a pulse"),
        (old & TMEN == 0 && new & TMEN != 0, "TMEN from 0 to 1"),
    ]);
}

fn peek(address: u8) -> &'static str {
    match address {
        0..0x40 => "PEEKs of a control register",
        _ if is_port(address) => "PEEKs of a port",
        0x74..=0x77 => "PEEKs of AR",
        0x78 => "PEEKs of WR",
        0x7F => "PEEKs of 7FH",
        _ => "PEEKs of other data memory",
    }
}

fn poke(address: u8) -> &'static str {
    match address {
        0x11 => "POKEs of 11H",
        0x12 => "POKEs of TMOSEL",
        0..0x40 => "POKEs of a direction",
        _ if is_port(address) => "POKEs of a port",
        0x74..=0x77 => "POKEs of AR",
        0x78 => "POKEs of WR",
        0x7F => "POKEs of 7FH",
        _ => "POKEs of other data memory",
    }
}
