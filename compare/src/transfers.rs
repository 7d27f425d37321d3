//! The words of PEEK, POKE, GET and PUT (document 02, E4).

use crate::clock::ADDRESSES;
use crate::random::Random;

#[derive(Clone, Copy, PartialEq, Eq)]
pub enum Kind {
    Peek,
    Poke,
    Get,
    Put,
}

use Kind::*;

impl Kind {
    pub fn name(self) -> &'static str {
        match self {
            Peek => "PEEKs",
            Poke => "POKEs",
            Get => "GETs",
            Put => "PUTs",
        }
    }
}

const KINDS: [Kind; 4] = [Peek, Poke, Get, Put];

/// The peripherals: the counter, which GET reads, and the modulo register,
/// which PUT writes.
const COUNTER: u8 = 0x02;
const MODULO: u8 = 0x03;

/// The word with a rf or p of seven bits.
pub fn word(kind: Kind, address: u8) -> u16 {
    let column = match kind {
        Peek => 0x3,
        Poke => 0x2,
        Get => 0xB,
        Put => 0xA,
    };
    let address = u16::from(address);
    0x3800 | address >> 4 << 8 | column << 4 | address & 0xF
}

/// The instruction of a word with its rf or p, where it is one of the four.
pub fn taken(word: u16) -> Option<(Kind, u8)> {
    if word >> 11 != 0x07 {
        return None;
    }
    let kind = match word >> 4 & 0xF {
        0x3 => Peek,
        0x2 => Poke,
        0xB => Get,
        0xA => Put,
        _ => return None,
    };
    Some((kind, (word >> 8 & 7) as u8 * 16 + (word & 0xF) as u8))
}

/// Refusal 30: no such control register or peripheral. Register file 40H to
/// 7FH is data memory.
pub fn missing(kind: Kind, address: u8) -> bool {
    match kind {
        Peek | Poke => address < 0x40 && !ADDRESSES.contains(&address),
        Get => address != COUNTER,
        Put => address != MODULO,
    }
}

/// Each of the four with each of the 128 addresses in turn.
pub fn nth(index: u64) -> u16 {
    word(KINDS[(index % 4) as usize], (index / 4 % 128) as u8)
}

/// One of the four, mostly not refused.
pub fn any(random: &mut Random) -> u16 {
    if !random.once_in(4) {
        return allowed(random);
    }
    let address = if random.once_in(2) { random.byte(64) } else { random.byte(128) };
    word(random.pick(&KINDS), address)
}

/// One of the four that refusal 30 does not meet.
pub fn allowed(random: &mut Random) -> u16 {
    let kind = random.pick(&[Peek, Poke, Poke, Get, Put]);
    let address = match kind {
        Get => COUNTER,
        Put => MODULO,
        Peek | Poke => file_address(random),
    };
    word(kind, address)
}

/// A control register, often that of the timer; or data memory, often a port
/// or a system register.
fn file_address(random: &mut Random) -> u8 {
    match random.below(8) {
        0 => ADDRESSES[0],
        1..=3 => random.pick(&ADDRESSES),
        4..=5 => 0x6F + random.byte(17),
        _ => 0x40 + random.byte(64),
    }
}
