//! The control registers of ports and timer, and the timer's parts (document
//! 02, E4; source 000, chapters 9, 12 and 13).

use crate::fault::{self, fault};

/// What E4 adds to the machine's state. As there, a value out of range can be
/// held, and is refused with 1.
#[derive(Clone, Copy, Debug, PartialEq, Eq)]
pub struct Peripherals {
    /// The control registers 11H, 12H, 24H, 32H, 33H, 34H, 35H.
    pub registers: [u8; 7],
    /// The modulo register, 8 bits.
    pub modulo: u8,
    /// The count register, 8 bits.
    pub counter: u8,
    /// The clock divider: cycles since reset, 0 to 127.
    pub divider: u8,
}

/// Where a register stands among the seven.
pub(crate) mod place {
    pub const TIMER_MODE: usize = 0;
    pub const TIMER_OUTPUT: usize = 1;
    pub const P0B: usize = 2;
    pub const P0E: usize = 3;
    pub const P0D: usize = 4;
    pub const P0C: usize = 5;
    pub const P0A: usize = 6;
}

impl Peripherals {
    /// The addresses of the registers in the register file.
    pub const ADDRESSES: [u8; 7] = [0x11, 0x12, 0x24, 0x32, 0x33, 0x34, 0x35];
    /// The bits of each register that can be 1; the others are fixed at 0.
    /// TMRES is one of those: it reads 0 and is not kept.
    pub const KEPT: [u8; 7] = [0b1011, 0b0001, 0b0001, 0b0011, 0b1111, 0b1111, 0b1111];
    /// The highest place of the divider, which then goes on at 0.
    pub const LAST_DIVIDER: u8 = 127;

    /// Flags of 11H: start, reset, and the choice of the clock.
    pub const TMEN: u8 = 8;
    pub const TMRES: u8 = 4;
    pub const TMCK: u8 = 3;
    /// Flag of 12H: P0D3 gives the timer's output.
    pub const TMOSEL: u8 = 1;

    /// The timer runs with fx/256 (000, 13.1.3 and 13.1.4), all ports are
    /// inputs (12.1 to 12.6).
    pub fn reset() -> Peripherals {
        let mode = if fault(fault::TIMER_OFF_AT_RESET) { 0 } else { Self::TMEN };
        Peripherals { registers: [mode, 0, 0, 0, 0, 0, 0], modulo: 0xFF, counter: 0, divider: 0 }
    }

    /// Are registers and divider in range? If not, refusal 1. Modulo register
    /// and counter take every byte.
    pub fn in_range(&self) -> bool {
        // An OR over all registers, as for the cells.
        let mut kept = Self::KEPT;
        if fault(fault::TMRES_IN_RANGE) {
            kept[place::TIMER_MODE] |= Self::TMRES;
        }
        let stray = (self.registers.iter().zip(kept)).fold(0, |s, (r, kept)| s | (r & !kept));
        stray == 0 && self.divider <= Self::LAST_DIVIDER + u8::from(fault(fault::DIVIDER_OF_128))
    }

    /// The directions of a port, 1 for output: P0A to P0E are 0 to 4 (000,
    /// 12.7).
    pub(crate) fn directions(&self, port: usize) -> u8 {
        match port {
            0 => self.registers[place::P0A],
            1 => self.group_directions(),
            2 => self.registers[place::P0C],
            3 => self.registers[place::P0D] | self.timer_output(),
            _ => self.registers[place::P0E],
        }
    }

    /// P0B goes by one bit for all four pins (000, 12.7.1).
    fn group_directions(&self) -> u8 {
        let group = self.registers[place::P0B];
        if fault(fault::GROUP_BY_BITS) {
            return group;
        }
        0xF * group
    }

    /// P0D3 is an output too where TMOSEL is 1 (000, table 12-6 and 13.1.8).
    fn timer_output(&self) -> u8 {
        if fault(fault::TMOSEL_IGNORED) {
            return 0;
        }
        (self.registers[place::TIMER_OUTPUT] & Self::TMOSEL) << 3
    }
}
