//! The 47 instructions and their words (document 01, "Words"; source 000,
//! 18.1 and 18.3).

use crate::fault::{self, fault};

/// One instruction with its operands.
///
/// `m` is row and column in one 7-bit address, `r` the column of a general
/// register, `n` immediate data, `addr` an 11-bit ROM address, `rf` and `p`
/// 7-bit addresses, `cond` the release condition of STOP and HALT.
/// Names ending in `RM` work on r,m; names ending in `MN` on m,#n.
#[rustfmt::skip]
#[derive(Clone, Copy, Debug, PartialEq, Eq)]
pub enum Instruction {
    AddRM { r: u8, m: u8 },
    SubRM { r: u8, m: u8 },
    AddcRM { r: u8, m: u8 },
    SubcRM { r: u8, m: u8 },
    AndRM { r: u8, m: u8 },
    XorRM { r: u8, m: u8 },
    OrRM { r: u8, m: u8 },
    AddMN { m: u8, n: u8 },
    SubMN { m: u8, n: u8 },
    AddcMN { m: u8, n: u8 },
    SubcMN { m: u8, n: u8 },
    AndMN { m: u8, n: u8 },
    XorMN { m: u8, n: u8 },
    OrMN { m: u8, n: u8 },
    /// LD r,m
    Ld { r: u8, m: u8 },
    /// ST m,r
    St { m: u8, r: u8 },
    Ske { m: u8, n: u8 },
    Skge { m: u8, n: u8 },
    Skne { m: u8, n: u8 },
    Sklt { m: u8, n: u8 },
    /// MOV @r,m
    MovTo { r: u8, m: u8 },
    /// MOV m,@r
    MovFrom { m: u8, r: u8 },
    MovMN { m: u8, n: u8 },
    Skt { m: u8, n: u8 },
    Skf { m: u8, n: u8 },
    Br { addr: u16 },
    Call { addr: u16 },
    IncAr,
    IncIx,
    /// MOVT DBF,@AR
    Movt,
    /// BR @AR
    BrAr,
    /// CALL @AR
    CallAr,
    Ret,
    Retsk,
    Reti,
    Ei,
    Di,
    PushAr,
    PopAr,
    Get { p: u8 },
    Put { p: u8 },
    Peek { rf: u8 },
    Poke { rf: u8 },
    Rorc { r: u8 },
    Stop { cond: u8 },
    Halt { cond: u8 },
    Nop,
}

use Instruction::*;

/// The opcodes: a word's top five bits, bit 15 first. Code 7 with bit 15
/// equal to 0 is a group; the codes that are missing here are no instruction.
pub(crate) mod opcode {
    pub const ADD_RM: u16 = 0x00;
    pub const SUB_RM: u16 = 0x01;
    pub const ADDC_RM: u16 = 0x02;
    pub const SUBC_RM: u16 = 0x03;
    pub const AND_RM: u16 = 0x04;
    pub const XOR_RM: u16 = 0x05;
    pub const OR_RM: u16 = 0x06;
    pub const GROUP: u16 = 0x07;
    pub const LD: u16 = 0x08;
    pub const SKE: u16 = 0x09;
    pub const MOV_TO: u16 = 0x0A;
    pub const SKNE: u16 = 0x0B;
    pub const BR: u16 = 0x0C;
    pub const ADD_MN: u16 = 0x10;
    pub const SUB_MN: u16 = 0x11;
    pub const ADDC_MN: u16 = 0x12;
    pub const SUBC_MN: u16 = 0x13;
    pub const AND_MN: u16 = 0x14;
    pub const XOR_MN: u16 = 0x15;
    pub const OR_MN: u16 = 0x16;
    pub const ST: u16 = 0x18;
    pub const SKGE: u16 = 0x19;
    pub const MOV_FROM: u16 = 0x1A;
    pub const SKLT: u16 = 0x1B;
    pub const CALL: u16 = 0x1C;
    pub const MOV_MN: u16 = 0x1D;
    pub const SKT: u16 = 0x1E;
    pub const SKF: u16 = 0x1F;
}

/// The opcode that a word's top five bits are taken for, and that an
/// instruction is given: itself, but for a deliberate fault.
#[inline(always)]
pub(crate) fn taken_for(code: u16) -> u16 {
    match code {
        opcode::SKGE if fault(fault::SKIPS_EXCHANGED) => opcode::SKLT,
        opcode::SKLT if fault(fault::SKIPS_EXCHANGED) => opcode::SKGE,
        _ => code,
    }
}

/// The word of MOVT, which has no operand.
pub(crate) const MOVT: u16 = opcode::GROUP << 11 | 0x1 << 4;

/// The word of RETSK, which has no operand.
pub(crate) const RETSK: u16 = opcode::GROUP << 11 | 0x1 << 8 | 0xE << 4;

/// Row and column of m.
#[inline(always)]
pub(crate) fn m_field(word: u16) -> u8 {
    (word >> 4 & 0x7F) as u8
}

/// r or n4.
#[inline(always)]
pub(crate) fn low_field(word: u16) -> u8 {
    (word & 0xF) as u8
}

/// The 11-bit address of BR and CALL.
#[inline(always)]
pub(crate) fn addr_field(word: u16) -> u16 {
    word & 0x7FF
}

/// The instruction of a word, or none.
pub fn decode(word: u16) -> Option<Instruction> {
    let (m, r, n, addr) = (m_field(word), low_field(word), low_field(word), addr_field(word));
    let instruction = match taken_for(word >> 11) {
        opcode::ADD_RM => AddRM { r, m },
        opcode::SUB_RM => SubRM { r, m },
        opcode::ADDC_RM => AddcRM { r, m },
        opcode::SUBC_RM => SubcRM { r, m },
        opcode::AND_RM => AndRM { r, m },
        opcode::XOR_RM => XorRM { r, m },
        opcode::OR_RM => OrRM { r, m },
        opcode::GROUP => return decode_group(word),
        opcode::LD => Ld { r, m },
        opcode::SKE => Ske { m, n },
        opcode::MOV_TO => MovTo { r, m },
        opcode::SKNE => Skne { m, n },
        opcode::BR => Br { addr },
        opcode::ADD_MN => AddMN { m, n },
        opcode::SUB_MN => SubMN { m, n },
        opcode::ADDC_MN => AddcMN { m, n },
        opcode::SUBC_MN => SubcMN { m, n },
        opcode::AND_MN => AndMN { m, n },
        opcode::XOR_MN => XorMN { m, n },
        opcode::OR_MN => OrMN { m, n },
        opcode::ST => St { m, r },
        opcode::SKGE => Skge { m, n },
        opcode::MOV_FROM => MovFrom { m, r },
        opcode::SKLT => Sklt { m, n },
        opcode::CALL => Call { addr },
        opcode::MOV_MN => MovMN { m, n },
        opcode::SKT => Skt { m, n },
        opcode::SKF => Skf { m, n },
        _ => return None,
    };
    Some(instruction)
}

/// Code 7 with bit 15 equal to 0: source 000's list, by column, row and r.
#[inline(always)]
pub(crate) fn decode_group(word: u16) -> Option<Instruction> {
    let mut row = (word >> 8 & 7) as u8;
    let column = word >> 4 & 0xF;
    let low = low_field(word);
    let seven = row << 4 | low;
    if fault(fault::GROUP_ANY_ROW) && column < 0xE {
        row = 0;
    }
    let instruction = match (column, row, low) {
        (0x1, 0, 0) => Movt,
        (0x2, _, _) => Poke { rf: seven },
        (0x3, _, _) => Peek { rf: seven },
        (0x4, 0, 0) => BrAr,
        (0x5, 0, 0) => CallAr,
        (0x7, 0, _) => Rorc { r: low },
        (0x8, 0, 0) => IncIx,
        (0x9, 0, 0) => IncAr,
        (0xA, _, _) => Put { p: seven },
        (0xB, _, _) => Get { p: seven },
        (0xC, 0, 0) => PopAr,
        (0xD, 0, 0) => PushAr,
        (0xE, 0, 0) => Ret,
        (0xE, 1, 0) => Retsk,
        (0xE, 4, 0) => Reti,
        (0xF, 0, 0) => Ei,
        (0xF, 1, 0) => Di,
        (0xF, 2, _) => Stop { cond: low },
        (0xF, 3, _) => Halt { cond: low },
        (0xF, 4, 0) => Nop,
        _ => return None,
    };
    Some(instruction)
}

/// The instructions of refusal 4.
pub(crate) fn unsupported(instruction: Instruction) -> bool {
    matches!(instruction, Ei | Di | Reti)
}

/// The word of an instruction; refusal 10 for an operand too large for its
/// field (document 01's encoder then answers word 0).
pub fn encode(instruction: Instruction) -> Result<u16, u8> {
    match instruction {
        AddRM { r, m } => memory(opcode::ADD_RM, m, r),
        SubRM { r, m } => memory(opcode::SUB_RM, m, r),
        AddcRM { r, m } => memory(opcode::ADDC_RM, m, r),
        SubcRM { r, m } => memory(opcode::SUBC_RM, m, r),
        AndRM { r, m } => memory(opcode::AND_RM, m, r),
        XorRM { r, m } => memory(opcode::XOR_RM, m, r),
        OrRM { r, m } => memory(opcode::OR_RM, m, r),
        Ld { r, m } => memory(opcode::LD, m, r),
        Ske { m, n } => memory(opcode::SKE, m, n),
        MovTo { r, m } => memory(opcode::MOV_TO, m, r),
        Skne { m, n } => memory(opcode::SKNE, m, n),
        Br { addr } => address(opcode::BR, addr),
        AddMN { m, n } => memory(opcode::ADD_MN, m, n),
        SubMN { m, n } => memory(opcode::SUB_MN, m, n),
        AddcMN { m, n } => memory(opcode::ADDC_MN, m, n),
        SubcMN { m, n } => memory(opcode::SUBC_MN, m, n),
        AndMN { m, n } => memory(opcode::AND_MN, m, n),
        XorMN { m, n } => memory(opcode::XOR_MN, m, n),
        OrMN { m, n } => memory(opcode::OR_MN, m, n),
        St { m, r } => memory(opcode::ST, m, r),
        Skge { m, n } => memory(opcode::SKGE, m, n),
        MovFrom { m, r } => memory(opcode::MOV_FROM, m, r),
        Sklt { m, n } => memory(opcode::SKLT, m, n),
        Call { addr } => address(opcode::CALL, addr),
        MovMN { m, n } => memory(opcode::MOV_MN, m, n),
        Skt { m, n } => memory(opcode::SKT, m, n),
        Skf { m, n } => memory(opcode::SKF, m, n),
        Movt => group(0, 0x1, 0),
        Poke { rf } => group_seven(0x2, rf),
        Peek { rf } => group_seven(0x3, rf),
        BrAr => group(0, 0x4, 0),
        CallAr => group(0, 0x5, 0),
        Rorc { r } => group(0, 0x7, r),
        IncIx => group(0, 0x8, 0),
        IncAr => group(0, 0x9, 0),
        Put { p } => group_seven(0xA, p),
        Get { p } => group_seven(0xB, p),
        PopAr => group(0, 0xC, 0),
        PushAr => group(0, 0xD, 0),
        Ret => group(0, 0xE, 0),
        Retsk => group(1, 0xE, 0),
        Reti => group(4, 0xE, 0),
        Ei => group(0, 0xF, 0),
        Di => group(1, 0xF, 0),
        Stop { cond } => group(2, 0xF, cond),
        Halt { cond } => group(3, 0xF, cond),
        Nop => group(4, 0xF, 0),
    }
}

/// Opcode, 7-bit memory address, r or n.
fn memory(opcode: u16, m: u8, low: u8) -> Result<u16, u8> {
    Ok(taken_for(opcode) << 11 | field(m.into(), 0x7F)? << 4 | field(low.into(), 0xF)?)
}

/// Opcode and 11-bit ROM address.
fn address(opcode: u16, addr: u16) -> Result<u16, u8> {
    Ok(opcode << 11 | field(addr, 0x7FF)?)
}

/// A word of the group with its row, column and low nibble.
fn group(row: u8, column: u8, low: u8) -> Result<u16, u8> {
    memory(opcode::GROUP, row << 4 | column, low)
}

/// A word of the group whose 7-bit operand lies around its column.
fn group_seven(column: u8, operand: u8) -> Result<u16, u8> {
    let seven = field(operand.into(), 0x7F)? as u8;
    group(seven >> 4, column, seven & 0xF)
}

/// An operand in a field that holds 0 to `most`; refusal 10 where it is larger.
fn field(operand: u16, most: u16) -> Result<u16, u8> {
    if operand > most && !fault(fault::ENCODER_MASKS) {
        return Err(10);
    }
    Ok(operand & most)
}
