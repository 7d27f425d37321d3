//! Events of missing operands that single steps must meet (document 02, E1).

use reference::{Machine, Model};

use crate::operands::{self, is_indexed, is_pointed, Operand, Role};
use crate::pair;
use crate::places::lacks;
use crate::tally::Tally;
use crate::told::Step;
use crate::transfers::{self, Kind};
use crate::words;

/// Each form with the one operand that is missing, by its opcode. RORC, PEEK and
/// POKE are of opcode 7.
const FORMS: [(u16, Role, &str); 38] = [
    (0x00, Role::R, "ADD r,m with r missing"),
    (0x00, Role::M, "ADD r,m with m missing"),
    (0x01, Role::R, "SUB r,m with r missing"),
    (0x01, Role::M, "SUB r,m with m missing"),
    (0x02, Role::R, "ADDC r,m with r missing"),
    (0x02, Role::M, "ADDC r,m with m missing"),
    (0x03, Role::R, "SUBC r,m with r missing"),
    (0x03, Role::M, "SUBC r,m with m missing"),
    (0x04, Role::R, "AND r,m with r missing"),
    (0x04, Role::M, "AND r,m with m missing"),
    (0x05, Role::R, "XOR r,m with r missing"),
    (0x05, Role::M, "XOR r,m with m missing"),
    (0x06, Role::R, "OR r,m with r missing"),
    (0x06, Role::M, "OR r,m with m missing"),
    (0x08, Role::R, "LD r,m with r missing"),
    (0x08, Role::M, "LD r,m with m missing"),
    (0x18, Role::R, "ST m,r with r missing"),
    (0x18, Role::M, "ST m,r with m missing"),
    (0x0A, Role::Pointer, "MOV @r,m with r missing"),
    (0x0A, Role::M, "MOV @r,m with m missing"),
    (0x0A, Role::Pointed, "MOV @r,m with @r missing"),
    (0x1A, Role::Pointer, "MOV m,@r with r missing"),
    (0x1A, Role::M, "MOV m,@r with m missing"),
    (0x1A, Role::Pointed, "MOV m,@r with @r missing"),
    (0x10, Role::M, "ADD m,#n4 with m missing"),
    (0x11, Role::M, "SUB m,#n4 with m missing"),
    (0x12, Role::M, "ADDC m,#n4 with m missing"),
    (0x13, Role::M, "SUBC m,#n4 with m missing"),
    (0x14, Role::M, "AND m,#n4 with m missing"),
    (0x15, Role::M, "XOR m,#n4 with m missing"),
    (0x16, Role::M, "OR m,#n4 with m missing"),
    (0x1D, Role::M, "MOV m,#n4 with m missing"),
    (0x09, Role::M, "SKE with m missing"),
    (0x0B, Role::M, "SKNE with m missing"),
    (0x19, Role::M, "SKGE with m missing"),
    (0x1B, Role::M, "SKLT with m missing"),
    (0x1E, Role::M, "SKT with m missing"),
    (0x1F, Role::M, "SKF with m missing"),
];

/// Where an operand lies at an edge of the missing cells, and whether the step is
/// refused with 31 for it alone or done.
const EDGES: [(Role, u8, u8, &str); 19] = [
    (Role::R, 0x3F, pair::DONE, "r at 3FH"),
    (Role::R, 0x40, 31, "r at 40H"),
    (Role::R, 0x6E, 31, "r at 6EH"),
    (Role::R, 0x6F, pair::DONE, "r at 6FH"),
    (Role::M, 0x3F, pair::DONE, "m at 3FH"),
    (Role::M, 0x40, 31, "m at 40H"),
    (Role::M, 0x6E, 31, "m at 6EH"),
    (Role::M, 0x6F, pair::DONE, "m at 6FH"),
    (Role::Pointer, 0x3F, pair::DONE, "r of @r at 3FH"),
    (Role::Pointer, 0x40, 31, "r of @r at 40H"),
    (Role::Pointer, 0x6E, 31, "r of @r at 6EH"),
    (Role::Pointer, 0x6F, pair::DONE, "r of @r at 6FH"),
    (Role::Pointed, 0x3F, pair::DONE, "@r at 3FH"),
    (Role::Pointed, 0x40, 31, "@r at 40H"),
    (Role::Pointed, 0x6E, 31, "@r at 6EH"),
    (Role::Pointed, 0x6F, pair::DONE, "@r at 6FH"),
    (Role::File, 0x40, 31, "rf of 40H"),
    (Role::File, 0x6E, 31, "rf of 6EH"),
    (Role::File, 0x6F, pair::DONE, "rf of 6FH"),
];

const OTHERS: [&str; 24] = [
    "RORC with r missing",
    "PEEK of a missing cell",
    "POKE of a missing cell",
    "PEEK and POKE of 3FH refused with 30",
    "PEEK and POKE of an installed cell with IX among the missing",
    "results under CMP with a missing target",
    "SKT with n = 0 and m missing",
    "SKF with n = 0 and m missing",
    "m moved to a missing cell by IX",
    "m moved from a missing cell by IX",
    "@r missing by MPE",
    "@r missing by IX",
    "@r missing in m's row",
    "r of @r in a port",
    "two missing operands",
    "three missing operands",
    "skipped words with a missing operand",
    "standing steps at a missing operand",
    "released steps refused with 31",
    "pulses lost with a refusal with 31",
    "missing operands with the pulse or release out of range",
    "missing cells not 0",
    "operands that the 17132 has",
    "PC past the ROM",
];

/// The events, each of which the part must see.
pub const ALL: &[&str] = &{
    let mut all = [""; FORMS.len() + EDGES.len() + OTHERS.len()];
    let mut at = 0;
    while at < all.len() {
        all[at] = if at < FORMS.len() {
            FORMS[at].2
        } else if at < FORMS.len() + EDGES.len() {
            EDGES[at - FORMS.len()].3
        } else {
            OTHERS[at - FORMS.len() - EDGES.len()]
        };
        at += 1;
    }
    all
};

/// Counts the events of one step.
pub fn count(step: &Step, in_range: bool, tally: &mut Tally) {
    let Step { before, board, number, .. } = *step;
    let Some(word) = step.word() else {
        return tally.see_those(&[(number == 2, "PC past the ROM")]);
    };
    let found: Vec<Operand> = operands::of(word, before, board).collect();
    // Those that the 17120 lacks.
    let lacking = |operand: &&Operand| lacks(Model::Upd17120, operand.address);
    let missing: Vec<&Operand> = found.iter().filter(lacking).collect();
    if board.model == Model::Upd17132 {
        let done = number == pair::DONE && before.skip == 0;
        return tally.see_those(&[(done && !missing.is_empty(), "operands that the 17132 has")]);
    }
    let stray = before.cells[0x40..0x6F].iter().any(|&cell| cell != 0);
    let some = !missing.is_empty();
    tally.see_those(&[
        (number == 1 && stray, "missing cells not 0"),
        (!in_range && some && !stray, "missing operands with the pulse or release out of range"),
        (number == pair::DONE && before.skip == 1 && some, "skipped words with a missing operand"),
        (number == pair::STANDBY && some, "standing steps at a missing operand"),
    ]);
    if before.skip == 1 {
        return;
    }
    match (number, &missing[..]) {
        (31, [one]) => refused(step, word, one, tally),
        (31, [_, _]) => tally.see("two missing operands"),
        (31, [_, _, _]) => tally.see("three missing operands"),
        (pair::DONE, _) => done(word, before, &found, tally),
        (30, _) if is_transfer(word, 0x3F) => tally.see("PEEK and POKE of 3FH refused with 30"),
        _ => {}
    }
}

/// Is this word PEEK or POKE of an address?
fn is_transfer(word: u16, address: u8) -> bool {
    matches!(transfers::taken(word), Some((Kind::Peek | Kind::Poke, rf)) if rf == address)
}

fn at_edge(operand: &Operand, number: u8, tally: &mut Tally) {
    let here = |edge: &&(Role, u8, u8, &'static str)| {
        (edge.0, edge.1, edge.2) == (operand.role, operand.address, number)
    };
    EDGES.iter().find(here).into_iter().for_each(|edge| tally.see(edge.3));
}

/// A step refused with 31 for one operand.
fn refused(step: &Step, word: u16, one: &Operand, tally: &mut Tally) {
    let Step { before, board, .. } = *step;
    at_edge(one, 31, tally);
    let opcode = word >> 11;
    let form = FORMS.iter().find(|form| (form.0, form.1) == (opcode, one.role));
    form.into_iter().for_each(|form| tally.see(form.2));
    let taken = transfers::taken(word);
    let (m, pointed) = (one.role == Role::M, one.role == Role::Pointed);
    let target = match opcode {
        0x00..=0x03 => one.role == Role::R,
        0x10..=0x13 => m,
        _ => false,
    };
    let stored = lacks(Model::Upd17120, words::m_field(word));
    let ticks = before.peripherals.registers[0] & 0b1011 == 0b1011 && board.pulse == 1;
    tally.see_those(&[
        (words::is_rorc(word), "RORC with r missing"),
        (matches!(taken, Some((Kind::Peek, _))), "PEEK of a missing cell"),
        (matches!(taken, Some((Kind::Poke, _))), "POKE of a missing cell"),
        (target && before.cells[0x7F] & 8 == 8, "results under CMP with a missing target"),
        (opcode == 0x1E && word & 0xF == 0, "SKT with n = 0 and m missing"),
        (opcode == 0x1F && word & 0xF == 0, "SKF with n = 0 and m missing"),
        (m && !stored, "m moved to a missing cell by IX"),
        (pointed && is_pointed(before), "@r missing by MPE"),
        (pointed && !is_pointed(before) && is_indexed(before), "@r missing by IX"),
        (pointed && !is_pointed(before) && !is_indexed(before), "@r missing in m's row"),
        (before.standby != 0, "released steps refused with 31"),
        (ticks, "pulses lost with a refusal with 31"),
    ]);
}

/// A step that is done.
fn done(word: u16, before: &Machine, found: &[Operand], tally: &mut Tally) {
    let index = before.cells[0x7B] << 4 | before.cells[0x7C];
    let data = words::has_data(word) && is_indexed(before);
    let file = found.iter().any(|operand| operand.role == Role::File);
    let port = |o: &Operand| o.role == Role::Pointer && (0x6F..=0x73).contains(&o.address);
    tally.see_those(&[
        (data && lacks(Model::Upd17120, words::m_field(word)), "m moved from a missing cell by IX"),
        (
            file && is_indexed(before) && lacks(Model::Upd17120, index),
            "PEEK and POKE of an installed cell with IX among the missing",
        ),
        (found.iter().any(port), "r of @r in a port"),
    ]);
    found.iter().for_each(|operand| at_edge(operand, pair::DONE, tally));
}
