//! The operands of a word by their effective addresses, and where one of them is
//! missing, told from documents 01 and 02, E1, without either emulator: both are
//! held to it.

use reference::Machine;

use crate::board::Board;
use crate::pair::{self, Finding};
use crate::places::lacks;
use crate::ports;
use crate::told::Step;
use crate::transfers::{self, Kind};
use crate::words;

/// What a cell is to its word.
#[derive(Clone, Copy, PartialEq, Eq)]
pub enum Role {
    R,
    M,
    /// r where it gives the column of @r.
    Pointer,
    /// @r.
    Pointed,
    /// rf of PEEK and POKE where it is data memory.
    File,
}

#[derive(Clone, Copy)]
pub struct Operand {
    pub role: Role,
    pub address: u8,
}

/// The operands of a word that is run on this machine.
pub fn of(word: u16, machine: &Machine, board: &Board) -> impl Iterator<Item = Operand> {
    let operand = |role, address| Some(Operand { role, address });
    let r = general_register(word, machine);
    let m = data_address(word, machine);
    let found = match word {
        _ if words::is_indirect(word) => {
            let column = ports::read(machine, board, r);
            let pointed = pointed_row(m, machine) << 4 | column;
            [operand(Role::Pointer, r), operand(Role::M, m), operand(Role::Pointed, pointed)]
        }
        _ if words::has_r(word) => [operand(Role::R, r), operand(Role::M, m), None],
        _ if words::has_data(word) => [None, operand(Role::M, m), None],
        _ if words::is_rorc(word) => [operand(Role::R, r), None, None],
        _ => match transfers::taken(word) {
            Some((Kind::Peek | Kind::Poke, rf)) if rf >= 0x40 => {
                [operand(Role::File, rf), None, None]
            }
            _ => [None; 3],
        },
    };
    found.into_iter().flatten()
}

/// r, in the row of 7EH's bits 3 to 1.
fn general_register(word: u16, machine: &Machine) -> u8 {
    machine.cells[0x7E] / 2 * 16 + (word & 0xF) as u8
}

/// m, ORed with IX where IXE is set.
fn data_address(word: u16, machine: &Machine) -> u8 {
    let index = machine.cells[0x7B] << 4 | machine.cells[0x7C];
    words::m_field(word) | if is_indexed(machine) { index } else { 0 }
}

/// The row of @r: m's, or 7BH where MPE is set.
fn pointed_row(m: u8, machine: &Machine) -> u8 {
    if is_pointed(machine) {
        machine.cells[0x7B]
    } else {
        m >> 4
    }
}

/// IXE.
pub fn is_indexed(machine: &Machine) -> bool {
    machine.cells[0x7F] & 1 == 1
}

/// MPE.
pub fn is_pointed(machine: &Machine) -> bool {
    machine.cells[0x7A] & 8 == 8
}

/// Is a cell that the word reads or writes missing?
pub fn is_missing(word: u16, machine: &Machine, board: &Board) -> bool {
    of(word, machine, board).any(|operand| lacks(board.model, operand.address))
}

/// Does refusal 31 meet a step that has all in range? It must be run, and not
/// skipped.
pub fn meets_31(rom: &[u16], before: &Machine, board: &Board) -> bool {
    let runs = before.skip == 0 && !board.keeps_standing(before.standby);
    let word = rom.get(usize::from(before.pc));
    runs && word.is_some_and(|&word| is_missing(word, before, board))
}

impl Step<'_> {
    /// Both answered 31 exactly where a step that has all in range meets it, and
    /// then left the record as it came.
    pub fn is_missing_as_told(&self, in_range: bool) -> Result<(), Finding> {
        let Step { rom, before, board, number, after } = *self;
        let told = in_range && meets_31(rom, before, board);
        if told == (number == 31) && (!told || after == before) {
            return Ok(());
        }
        Err(Finding(format!(
            "{}both answer {number} and leave what document 02, E1, does not tell:\n{}",
            pair::case("step", rom, before, board),
            pair::show(after)
        )))
    }
}
