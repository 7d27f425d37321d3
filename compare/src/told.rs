//! What a step answers and leaves by document 02, E1 and E4, without either
//! emulator: PEEK, POKE, GET and PUT whole, and of any other word the registers,
//! the timer and refusal 31.

use reference::Machine;

use crate::board::Board;
use crate::clock;
use crate::pair::{self, Finding};
use crate::places::{free_bits, lacks};
use crate::ports;
use crate::transfers::{self, Kind};

/// A step, with what both emulators made of it.
pub struct Step<'a> {
    pub rom: &'a [u16],
    pub before: &'a Machine,
    pub board: &'a Board,
    pub number: u8,
    pub after: &'a Machine,
}

impl Step<'_> {
    /// The word at PC, where there is one.
    pub fn word(&self) -> Option<u16> {
        self.rom.get(usize::from(self.before.pc)).copied()
    }

    /// Both answered and left what is told. `in_range` tells whether all that
    /// the step was given is.
    pub fn is_as_told(&self, in_range: bool) -> Result<(), Finding> {
        self.is_missing_as_told(in_range)?;
        let Step { before, board, number, after, .. } = *self;
        let right = match self.word() {
            _ if !in_range => number == 1 && after == before,
            _ if board.keeps_standing(before.standby) => {
                let peripherals = clock::after_standing(before, board.pulse);
                number == pair::STANDBY && *after == Machine { peripherals, ..before.clone() }
            }
            None => number == 2 && after == before,
            Some(word) => match transfers::taken(word) {
                Some((kind, address)) if before.skip == 0 => self.is_transfer(kind, address, word),
                _ => self.is_timed(word),
            },
        };
        if right {
            return Ok(());
        }
        Err(Finding(format!(
            "{}both answer {number} and leave what document 02 does not tell:\n{}",
            pair::case("step", self.rom, before, board),
            pair::show(after)
        )))
    }

    fn is_transfer(&self, kind: Kind, address: u8, word: u16) -> bool {
        let Step { before, board, number, after, .. } = *self;
        if transfers::missing(kind, address) {
            return number == 30 && after == before;
        }
        if matches!(kind, Kind::Peek | Kind::Poke) && lacks(board.model, address) {
            return number == 31 && after == before;
        }
        let mut told = before.clone();
        match kind {
            Kind::Peek => told.cells[0x78] = peeked(before, board, address),
            Kind::Poke if address >= 0x40 => {
                let place = usize::from(address);
                told.cells[place] = before.cells[0x78] & free_bits(board.model, place) as u8;
            }
            Kind::Get => {
                let counter = before.peripherals.counter;
                (told.cells[0x0E], told.cells[0x0F]) = (counter >> 4, counter & 0xF);
            }
            Kind::Poke | Kind::Put => {}
        }
        told.pc = (before.pc + 1) % 1024;
        told.standby = 0;
        told.peripherals = clock::after_step(before, word, board.pulse);
        number == pair::DONE && *after == told
    }

    /// A refusal leaves all, and is not 30.
    fn is_timed(&self, word: u16) -> bool {
        let Step { before, board, number, after, .. } = *self;
        if number == pair::DONE {
            return after.peripherals == clock::after_step(before, word, board.pulse);
        }
        number != 30 && after == before
    }
}

/// What PEEK reads: a control register, or data memory.
fn peeked(before: &Machine, board: &Board, address: u8) -> u8 {
    match clock::ADDRESSES.iter().position(|&register| register == address) {
        Some(place) => before.peripherals.registers[place],
        None => ports::read(before, board, address),
    }
}
