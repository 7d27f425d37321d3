//! The machine's state and its inputs (document 01, "The machine's record";
//! document 02, E1 and E4).

use crate::fault::{self, fault};
use crate::model::{Model, WRITABLE};
use crate::peripherals::Peripherals;

/// The machine's state. Document 01 calls it the record.
///
/// Every field holds plain bytes or words, so that a value out of range can
/// be held and refused with 1.
#[derive(Clone, Debug, PartialEq, Eq)]
pub struct Machine {
    /// Data memory, 128 nibbles.
    pub cells: [u8; 128],
    /// Program counter, 10 bits.
    pub pc: u16,
    /// Address stack; place 0 is the first to be opened, closed places are 0.
    pub stack: [u16; 5],
    /// Open stack levels, 0 to 5.
    pub levels: u8,
    /// 1: the next word is skipped ("skip pending").
    pub skip: u8,
    /// 0, or the standby that the machine is in, HALT's or STOP's
    /// ("standing").
    pub standby: u8,
    /// Control registers and timer.
    pub peripherals: Peripherals,
}

/// What the board gives to a step: document 01's input record.
#[derive(Clone, Copy, Debug, Default, PartialEq, Eq)]
pub struct Input {
    /// Pin nibbles, P0A to P0E.
    pub pins: [u8; 5],
    /// Direction nibbles in that order. Document 02, E4: their range is tested
    /// and they are not read; directions come from the control registers.
    pub directions: [u8; 5],
    /// 1 releases a machine that stands by.
    pub release: u8,
}

/// Document 01: each register address and flag bit is named once.
impl Machine {
    /// First cell of the data buffer, DBF3.
    pub const DBF3: u8 = 0x0C;
    pub const DBF1: u8 = 0x0E;
    pub const DBF0: u8 = 0x0F;
    pub const P0E: u8 = 0x6F;
    pub const P0A: u8 = 0x70;
    pub const P0D: u8 = 0x73;
    pub const AR3: u8 = 0x74;
    pub const AR2: u8 = 0x75;
    pub const AR1: u8 = 0x76;
    pub const AR0: u8 = 0x77;
    pub const WR: u8 = 0x78;
    pub const BANK: u8 = 0x79;
    /// Also MPH.
    pub const IXH: u8 = 0x7A;
    /// Also MPL.
    pub const IXM: u8 = 0x7B;
    pub const IXL: u8 = 0x7C;
    pub const RPH: u8 = 0x7D;
    pub const RPL: u8 = 0x7E;
    pub const PSW: u8 = 0x7F;

    /// Flags of PSW.
    pub const CMP: u8 = 8;
    pub const CY: u8 = 4;
    pub const Z: u8 = 2;
    pub const IXE: u8 = 1;
    /// Flag of RPL.
    pub const BCD: u8 = 1;
    /// Flag of IXH.
    pub const MPE: u8 = 8;

    /// Standby marks.
    pub const HALT: u8 = 1;
    pub const STOP: u8 = 2;

    /// All zeros and no mark; registers and timer as source 000 says, which has
    /// the same for every model.
    pub fn reset(_: Model) -> Machine {
        let peripherals = Peripherals::reset();
        Machine {
            cells: [0; 128],
            pc: 0,
            stack: [0; 5],
            levels: 0,
            skip: 0,
            standby: 0,
            peripherals,
        }
    }

    /// Is the state in range for a model? If not, refusal 1.
    pub fn in_range(&self, model: Model) -> bool {
        self.cells_in_range(model)
            && self.pc <= last_pc(model) + u16::from(fault(fault::PC_PAST_LAST))
            && self.levels <= 5 + u8::from(fault(fault::SIX_LEVELS))
            && self.stack_in_range(model)
            && self.skip <= 1 + u8::from(fault(fault::SKIP_OF_TWO))
            && self.standby <= Self::STOP + u8::from(fault(fault::STANDBY_OF_THREE))
            && self.peripherals.in_range()
    }

    /// No cell has a bit that is fixed at 0, and one that is missing has none.
    #[inline(always)]
    fn cells_in_range(&self, model: Model) -> bool {
        let loose = fault(fault::MISSING_NOT_0) || fault(fault::MISSING_NOT_0_MEETS_31);
        let writable = if loose { &WRITABLE } else { model.writable() };
        // An OR over all cells, with no early end, is the quick way.
        (self.cells.iter().zip(writable)).fold(0, |stray, (c, w)| stray | (c & !w)) == 0
    }

    /// Open places hold addresses, closed places hold 0.
    fn stack_in_range(&self, model: Model) -> bool {
        let open = usize::from(self.levels);
        self.stack.iter().enumerate().all(|(place, &address)| {
            if place < open {
                address <= last_stacked(model)
            } else {
                address == 0 || fault(fault::CLOSED_NOT_TESTED)
            }
        })
    }
}

impl Input {
    /// Are the inputs in range? If not, refusal 1.
    pub fn in_range(&self) -> bool {
        // An OR, as above.
        let nibbles = self.pins.iter().chain(&self.directions).fold(0, |all, nibble| all | nibble);
        nibbles <= 15 && self.release <= 1 + u8::from(fault(fault::RELEASE_OF_TWO))
    }
}

/// The highest ROM address; PC and AR count to it and go on at 0. They have ten
/// bits in every model.
pub const LAST_ADDRESS: u16 = 0x3FF;

/// The highest PC in range: not the ROM's last word.
#[inline(always)]
fn last_pc(model: Model) -> u16 {
    if fault(fault::PC_OF_ROM) {
        return model.rom_words() as u16 - 1;
    }
    LAST_ADDRESS
}

/// The highest stacked address in range: not the ROM's last word either.
#[inline(always)]
fn last_stacked(model: Model) -> u16 {
    if fault(fault::STACK_OF_ROM) {
        return model.rom_words() as u16 - 1;
    }
    LAST_ADDRESS
}

/// A ROM of 1 to 1,024 or 768 words. If not, refusal 1.
pub fn rom_in_range(model: Model, rom: &[u16]) -> bool {
    (1..=model.rom_words()).contains(&rom.len())
}
