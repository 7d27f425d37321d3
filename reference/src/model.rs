//! The models (document 02, E1; source 000, 1.1, 3.3, chapter 4, 5.1 and
//! 5.1.6). They differ in the words of ROM and in the cells that are installed.

use crate::fault::{self, fault};
use crate::machine::Machine;

/// The chip on a board. Its place is its number in C.
#[derive(Clone, Copy, Debug, PartialEq, Eq)]
pub enum Model {
    Upd17132,
    Upd17120,
}

use Model::*;

impl Model {
    pub const ALL: [Model; 2] = [Upd17132, Upd17120];

    /// The model of a number in C; refusal 1 where it is no model's.
    pub fn of_number(number: u8) -> Result<Model, u8> {
        let number = if fault(fault::MODEL_BY_LOW_BIT) { number & 1 } else { number };
        Self::ALL.get(usize::from(number)).copied().ok_or(1)
    }

    pub fn number(self) -> u8 {
        self as u8
    }

    /// The most words that its ROM can have. PC and AR have ten bits all the
    /// same (000, 3.3).
    pub const fn rom_words(self) -> usize {
        match self {
            Upd17132 => 1024,
            Upd17120 => 768,
        }
    }

    /// Has it 40H to 6EH? They are RAM. 6FH is P0E, which every model has.
    const fn has_upper_ram(self) -> bool {
        match self {
            Upd17132 => true,
            Upd17120 => false,
        }
    }

    /// Is a cell of data memory not installed?
    #[inline(always)]
    pub fn lacks(self, address: u8) -> bool {
        if fault(fault::P0E_MISSING) && address == Machine::P0E {
            return self == Upd17120;
        }
        let missing = !self.has_upper_ram() || fault(fault::MISSING_ON_17132);
        missing && UPPER_RAM.contains(&address)
    }

    /// The bits of each cell that can be 1. The others are fixed at 0, and so is
    /// a cell that is not installed.
    pub const fn writable(self) -> &'static [u8; 128] {
        match self {
            Upd17132 => &WRITABLE,
            Upd17120 => &WRITABLE_WITHOUT_UPPER_RAM,
        }
    }
}

/// The RAM that the 17120 lacks.
const UPPER_RAM: std::ops::Range<u8> = 0x40..Machine::P0E;

/// The bits that can be 1 where every cell is installed.
pub(crate) const WRITABLE: [u8; 128] = {
    let mut bits = [0xF; 128];
    bits[Machine::P0E as usize] = 0x3;
    bits[Machine::AR3 as usize] = 0;
    bits[Machine::AR2 as usize] = 0x3;
    bits[Machine::BANK as usize] = 0;
    bits[Machine::IXH as usize] = 0x8;
    bits[Machine::IXM as usize] = 0x7;
    bits[Machine::RPH as usize] = 0;
    bits
};

const WRITABLE_WITHOUT_UPPER_RAM: [u8; 128] = {
    let mut bits = WRITABLE;
    let mut address = UPPER_RAM.start;
    while address < UPPER_RAM.end {
        bits[address as usize] = 0;
        address += 1;
    }
    bits
};
