//! Random words.

use crate::random::Random;
use crate::transfers;

/// The group's opcode, and those of the other instructions.
const GROUP: u16 = 0x07;
const SKIPS: [u16; 6] = [0x09, 0x0B, 0x19, 0x1B, 0x1E, 0x1F];
const DATA: [u16; 19] = [
    0x00, 0x01, 0x02, 0x03, 0x04, 0x05, 0x06, 0x08, 0x0A, 0x10, 0x11, 0x12, 0x13, 0x14, 0x15, 0x16,
    0x18, 0x1A, 0x1D,
];
const BR: u16 = 0x0C;
const CALL: u16 = 0x1C;

pub const MOVT: u16 = 0x3810;
const BR_AR: u16 = 0x3840;
const CALL_AR: u16 = 0x3850;
pub const INC_IX: u16 = 0x3880;
pub const INC_AR: u16 = 0x3890;
pub const POP_AR: u16 = 0x38C0;
pub const PUSH_AR: u16 = 0x38D0;
pub const RET: u16 = 0x38E0;
pub const RETSK: u16 = 0x39E0;
pub const NOP: u16 = 0x3CF0;
const RORC: u16 = 0x3870;
const STOP: u16 = 0x3AF0;
const HALT: u16 = 0x3BF0;

/// Any word, mostly an instruction.
pub fn any(random: &mut Random) -> u16 {
    match random.below(17) {
        0 => random.bits() as u16,
        1..=3 => group(random),
        16 => transfers::any(random),
        4 => far(random, BR),
        5 => far(random, CALL),
        6..=8 => skip(random),
        9 => random.pick(&[MOVT, INC_IX, INC_AR, RET, RETSK, NOP, RORC | 0xF]),
        _ => data(random),
    }
}

/// An instruction that works on data and goes on to the next word.
pub fn plain(random: &mut Random) -> u16 {
    match random.below(12) {
        0 => RORC | random.word(16),
        1 => random.pick(&[INC_IX, INC_AR, NOP]),
        _ => data(random),
    }
}

/// The words that have operands, each in turn, with none set: the opcodes with m,
/// RORC, PEEK and POKE.
pub fn nth_with_operands(index: u64) -> u16 {
    const OF_GROUP: [u16; 3] = [RORC, 0x3830, 0x3820];
    let opcodes = SKIPS.iter().chain(&DATA).map(|opcode| opcode << 11);
    let all = opcodes.chain(OF_GROUP);
    let count = (SKIPS.len() + DATA.len() + OF_GROUP.len()) as u64;
    all.cycle().nth((index % count) as usize).unwrap_or(NOP)
}

/// HALT or STOP.
pub fn halt(random: &mut Random) -> u16 {
    random.pick(&[HALT, STOP]) | random.word(16)
}

/// One of the six skips.
pub fn skip(random: &mut Random) -> u16 {
    random.pick(&SKIPS) << 11 | operands(random)
}

/// BR to an address.
pub const fn br(address: u16) -> u16 {
    BR << 11 | address
}

/// CALL of an address.
pub const fn call(address: u16) -> u16 {
    CALL << 11 | address
}

/// Is this word one of the six skips?
pub fn is_skip(word: u16) -> bool {
    SKIPS.contains(&(word >> 11))
}

/// Is this word BR addr?
pub fn is_br(word: u16) -> bool {
    word >> 11 == BR
}

/// Is this word CALL addr?
pub fn is_call(word: u16) -> bool {
    word >> 11 == CALL
}

/// Is this word RET or RETSK?
pub fn is_return(word: u16) -> bool {
    word == RET || word == RETSK
}

/// Does this word, where it is an instruction, choose the next PC itself?
pub fn jumps(word: u16) -> bool {
    matches!(word >> 11, BR | CALL) || is_return(word) || matches!(word, BR_AR | CALL_AR)
}

/// m as a word has it.
pub fn m_field(word: u16) -> u8 {
    (word >> 4 & 0x7F) as u8
}

/// Has this word an operand m?
pub fn has_data(word: u16) -> bool {
    matches!(word >> 11, 0x00..=0x06 | 0x08..=0x0B | 0x10..=0x16 | 0x18..=0x1B | 0x1D..=0x1F)
}

/// Has this word operands m and r?
pub fn has_r(word: u16) -> bool {
    matches!(word >> 11, 0x00..=0x06 | 0x08 | 0x0A | 0x18 | 0x1A)
}

/// Is this word RORC r?
pub fn is_rorc(word: u16) -> bool {
    word & 0xFFF0 == RORC
}

/// Is this word MOV @r,m or MOV m,@r?
pub fn is_indirect(word: u16) -> bool {
    matches!(word >> 11, 0x0A | 0x1A)
}

fn data(random: &mut Random) -> u16 {
    random.pick(&DATA) << 11 | operands(random)
}

/// m with r or n; m is often a port or a system register.
fn operands(random: &mut Random) -> u16 {
    let m = if random.once_in(2) { 0x6F + random.word(17) } else { random.word(128) };
    m << 4 | random.word(16)
}

/// A word of the group, of every column, mostly an instruction.
fn group(random: &mut Random) -> u16 {
    let row = if random.once_in(2) { 0 } else { random.word(8) };
    let low = if random.once_in(4) { random.word(16) } else { 0 };
    GROUP << 11 | row << 8 | random.word(16) << 4 | low
}

/// BR or CALL with an address around and past 1,024.
fn far(random: &mut Random, opcode: u16) -> u16 {
    let address = if random.once_in(3) { 1020 + random.word(8) } else { random.word(2048) };
    opcode << 11 | address
}
