//! Events at boundaries that single steps must meet: those of control, and
//! operands that the index or a pointer moves.

pub mod files;
pub mod lists;
pub mod missing;
pub mod sheets;
pub mod timer;

use reference::{Machine, Model};

use crate::pair;
use crate::ports::is_port;
use crate::tally::Tally;
use crate::told::Step;
use crate::words;

/// The events, each of which a part with steps must see.
pub const ALL: &[&str] = &[
    "skipped words at 1,023",
    "words that go on from 1,023",
    "INC AR at 3FFH",
    "INC IX at 7FH with MPE",
    "INC IX at 7FH without MPE",
    "BR to 1,023",
    "BR to 1,024",
    "CALL of 1,023",
    "CALL of 1,024",
    "CALL at 1,023",
    "CALL with four levels open",
    "CALL with five levels open",
    "PUSH AR with four levels open",
    "PUSH AR with five levels open",
    "MOVT with four levels open",
    "MOVT with five levels open",
    "MOVT of the ROM's last word",
    "MOVT skipped",
    "POP AR with one level open",
    "POP AR with no level open",
    "RET with one level open",
    "RET with no level open",
    "RETSK with one level open",
    "RETSK with no level open",
    "m moved to a port by IX",
    "m moved to 7FH by IX",
    "r in a port",
    "r at 7FH",
    "@r with IXE and MPE",
    "@r with IXE alone",
    "words of the 17120 that go on from 767",
    "skipped words of the 17120 at 767",
    "PC of 768 to 1,023 refused with 2",
    "BR of the 17120 to 768 to 1,023",
    "CALL of the 17120 to 768 to 1,023",
    "MOVT of the 17120 with AR of 768 to 1,023",
];

/// Counts the events of one step. Those of missing operands are in `missing`.
pub fn count(step: &Step, tally: &mut Tally) {
    match step.board.model {
        Model::Upd17132 => at_boundaries(step, tally),
        Model::Upd17120 => past_767(step, tally),
    }
}

fn at_boundaries(step: &Step, tally: &mut Tally) {
    let Step { rom, before, number, .. } = *step;
    let Some(word) = step.word() else {
        return;
    };
    if number == pair::STANDBY {
        return;
    }
    let last = before.pc == 1023 && number == pair::DONE;
    if before.skip == 1 {
        if last {
            tally.see("skipped words at 1,023");
        }
        if word == words::MOVT {
            tally.see("MOVT skipped");
        }
        return;
    }
    if last && !words::jumps(word) {
        tally.see("words that go on from 1,023");
    }
    if words::has_data(word) {
        data(word, before, tally);
    } else {
        let name = counter(word, before).or_else(|| far(word)).or_else(|| levels(word, before));
        name.into_iter().for_each(|name| tally.see(name));
        if words::is_call(word) && last {
            tally.see("CALL at 1,023");
        }
        if word == words::MOVT && number == pair::DONE && ar(before) + 1 == rom.len() {
            tally.see("MOVT of the ROM's last word");
        }
    }
}

/// The 17120 around and past its last word, in ten bits of PC and AR.
fn past_767(step: &Step, tally: &mut Tally) {
    let Step { before, number, .. } = *step;
    let at_end = before.pc == 767 && number == pair::DONE;
    let Some(word) = step.word() else {
        if before.pc >= 768 && number == 2 {
            tally.see("PC of 768 to 1,023 refused with 2");
        }
        return;
    };
    if before.skip == 1 {
        return tally.see_those(&[(at_end, "skipped words of the 17120 at 767")]);
    }
    let far = number == pair::DONE && (768..1024).contains(&(word & 0x7FF));
    tally.see_those(&[
        (at_end && !words::jumps(word), "words of the 17120 that go on from 767"),
        (far && words::is_br(word), "BR of the 17120 to 768 to 1,023"),
        (far && words::is_call(word), "CALL of the 17120 to 768 to 1,023"),
        (
            word == words::MOVT && number == 8 && ar(before) >= 768,
            "MOVT of the 17120 with AR of 768 to 1,023",
        ),
    ]);
}

/// AR and IX where they go on at 0.
fn counter(word: u16, before: &Machine) -> Option<&'static str> {
    match word {
        words::INC_AR if ar(before) == 0x3FF => Some("INC AR at 3FFH"),
        words::INC_IX if index(before) == 0x7F => {
            Some(if flag(before, Machine::IXH, Machine::MPE) {
                "INC IX at 7FH with MPE"
            } else {
                "INC IX at 7FH without MPE"
            })
        }
        _ => None,
    }
}

/// BR and CALL to both sides of the last address.
fn far(word: u16) -> Option<&'static str> {
    const BR_LAST: u16 = words::br(1023);
    const BR_PAST: u16 = words::br(1024);
    const CALL_LAST: u16 = words::call(1023);
    const CALL_PAST: u16 = words::call(1024);
    match word {
        BR_LAST => Some("BR to 1,023"),
        BR_PAST => Some("BR to 1,024"),
        CALL_LAST => Some("CALL of 1,023"),
        CALL_PAST => Some("CALL of 1,024"),
        _ => None,
    }
}

/// The stack where it is full or empty, or nearly so.
fn levels(word: u16, before: &Machine) -> Option<&'static str> {
    match (word, before.levels) {
        (words::PUSH_AR, 4) => Some("PUSH AR with four levels open"),
        (words::PUSH_AR, 5) => Some("PUSH AR with five levels open"),
        (words::MOVT, 4) => Some("MOVT with four levels open"),
        (words::MOVT, 5) => Some("MOVT with five levels open"),
        (words::POP_AR, 1) => Some("POP AR with one level open"),
        (words::POP_AR, 0) => Some("POP AR with no level open"),
        (words::RET, 1) => Some("RET with one level open"),
        (words::RET, 0) => Some("RET with no level open"),
        (words::RETSK, 1) => Some("RETSK with one level open"),
        (words::RETSK, 0) => Some("RETSK with no level open"),
        (call, 4) if words::is_call(call) => Some("CALL with four levels open"),
        (call, 5) if words::is_call(call) => Some("CALL with five levels open"),
        _ => None,
    }
}

/// Where the operands lie.
fn data(word: u16, before: &Machine, tally: &mut Tally) {
    let m = (word >> 4 & 0x7F) as u8;
    let indexed = flag(before, Machine::PSW, Machine::IXE);
    let moved = m | index(before);
    if indexed && !is_port(m) && is_port(moved) {
        tally.see("m moved to a port by IX");
    }
    if indexed && m != Machine::PSW && moved == Machine::PSW {
        tally.see("m moved to 7FH by IX");
    }
    if words::has_r(word) {
        let r = (cell(before, Machine::RPL) & 0xE) << 3 | (word & 0xF) as u8;
        if is_port(r) {
            tally.see("r in a port");
        }
        if r == Machine::PSW {
            tally.see("r at 7FH");
        }
    }
    if words::is_indirect(word) && indexed {
        let pointed = flag(before, Machine::IXH, Machine::MPE);
        tally.see(if pointed { "@r with IXE and MPE" } else { "@r with IXE alone" });
    }
}

fn cell(machine: &Machine, address: u8) -> u8 {
    machine.cells[usize::from(address)]
}

fn flag(machine: &Machine, address: u8, flag: u8) -> bool {
    cell(machine, address) & flag != 0
}

fn index(machine: &Machine) -> u8 {
    cell(machine, Machine::IXM) << 4 | cell(machine, Machine::IXL)
}

fn ar(machine: &Machine) -> usize {
    let nibbles = [Machine::AR2, Machine::AR1, Machine::AR0];
    nibbles.iter().fold(0, |sum, &address| sum << 4 | usize::from(cell(machine, address)))
}
