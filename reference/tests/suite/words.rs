//! Words: source 000, 18.1 and 18.3.

use crate::kit::*;
use reference::Instruction::{self, *};
use reference::{decode, encode, Answer};
use std::collections::HashSet;

#[test]
fn every_word_goes_round() {
    let mut instructions = 0;
    let mut kinds = HashSet::new();
    for word in 0..=u16::MAX {
        if let Some(instruction) = decode(word) {
            instructions += 1;
            kinds.insert(std::mem::discriminant(&instruction));
            assert_eq!(encode(instruction), Ok(word));
        }
    }
    assert_eq!(instructions, 55_869);
    assert_eq!(kinds.len(), 47);
}

/// The machine codes of the list, read off bit by bit and grouped as there.
/// r, n4, s and h are 0101B, m, rf and p are 110 0011B, addr is
/// 101 0010 1101B.
#[test]
#[allow(clippy::unusual_byte_groupings)]
fn the_list_of_source_000() {
    let (r, n, cond) = (0b0101, 0b0101, 0b0101);
    let (m, rf, p) = (0b110_0011, 0b110_0011, 0b110_0011);
    let addr = 0b101_0010_1101;
    let list: [(Instruction, u16); 47] = [
        (AddRM { r, m }, 0b00000_110_0011_0101),
        (AddMN { m, n }, 0b10000_110_0011_0101),
        (AddcRM { r, m }, 0b00010_110_0011_0101),
        (AddcMN { m, n }, 0b10010_110_0011_0101),
        (IncAr, 0b00111_000_1001_0000),
        (IncIx, 0b00111_000_1000_0000),
        (SubRM { r, m }, 0b00001_110_0011_0101),
        (SubMN { m, n }, 0b10001_110_0011_0101),
        (SubcRM { r, m }, 0b00011_110_0011_0101),
        (SubcMN { m, n }, 0b10011_110_0011_0101),
        (OrRM { r, m }, 0b00110_110_0011_0101),
        (OrMN { m, n }, 0b10110_110_0011_0101),
        (AndRM { r, m }, 0b00100_110_0011_0101),
        (AndMN { m, n }, 0b10100_110_0011_0101),
        (XorRM { r, m }, 0b00101_110_0011_0101),
        (XorMN { m, n }, 0b10101_110_0011_0101),
        (Skt { m, n }, 0b11110_110_0011_0101),
        (Skf { m, n }, 0b11111_110_0011_0101),
        (Ske { m, n }, 0b01001_110_0011_0101),
        (Skne { m, n }, 0b01011_110_0011_0101),
        (Skge { m, n }, 0b11001_110_0011_0101),
        (Sklt { m, n }, 0b11011_110_0011_0101),
        (Rorc { r }, 0b00111_000_0111_0101),
        (Ld { r, m }, 0b01000_110_0011_0101),
        (St { m, r }, 0b11000_110_0011_0101),
        (MovTo { r, m }, 0b01010_110_0011_0101),
        (MovFrom { m, r }, 0b11010_110_0011_0101),
        (MovMN { m, n }, 0b11101_110_0011_0101),
        (Movt, 0b00111_000_0001_0000),
        (PushAr, 0b00111_000_1101_0000),
        (PopAr, 0b00111_000_1100_0000),
        (Peek { rf }, 0b00111_110_0011_0011),
        (Poke { rf }, 0b00111_110_0010_0011),
        (Get { p }, 0b00111_110_1011_0011),
        (Put { p }, 0b00111_110_1010_0011),
        (Br { addr }, 0b01100_101_0010_1101),
        (BrAr, 0b00111_000_0100_0000),
        (Call { addr }, 0b11100_101_0010_1101),
        (CallAr, 0b00111_000_0101_0000),
        (Ret, 0b00111_000_1110_0000),
        (Retsk, 0b00111_001_1110_0000),
        (Reti, 0b00111_100_1110_0000),
        (Ei, 0b00111_000_1111_0000),
        (Di, 0b00111_001_1111_0000),
        (Stop { cond }, 0b00111_010_1111_0101),
        (Halt { cond }, 0b00111_011_1111_0101),
        (Nop, 0b00111_100_1111_0000),
    ];
    for (instruction, word) in list {
        assert_eq!(encode(instruction), Ok(word), "{instruction:?}");
        assert_eq!(decode(word), Some(instruction), "{word:04X}");
    }
}

#[test]
fn operands_too_large() {
    let too_large = [
        AddRM { r: 16, m: 0 },
        AddRM { r: 0, m: 128 },
        AddMN { m: 128, n: 0 },
        AddMN { m: 0, n: 16 },
        Ld { r: 255, m: 0 },
        St { m: 255, r: 0 },
        MovTo { r: 16, m: 0 },
        MovFrom { m: 128, r: 0 },
        Ske { m: 0, n: 16 },
        Skt { m: 0, n: 255 },
        Br { addr: 2048 },
        Call { addr: 65_535 },
        Peek { rf: 128 },
        Poke { rf: 255 },
        Get { p: 128 },
        Put { p: 255 },
        Rorc { r: 16 },
        Stop { cond: 16 },
        Halt { cond: 255 },
    ];
    for instruction in too_large {
        assert_eq!(encode(instruction), Err(10), "{instruction:?}");
    }
    // An address of 1,024 to 2,047 fits its field.
    assert_eq!(encode(Br { addr: 2047 }), Ok(0x67FF));
}

/// A step takes each word as `decode` does.
#[test]
fn steps_and_words_agree() {
    for word in 0..=u16::MAX {
        let mut machine = reset();
        machine.levels = 1;
        let answer = step(&[word], &mut machine, &quiet(), 0);
        let expected = match decode(word) {
            None => Answer::Refused(3),
            Some(Ei | Di | Reti) => Answer::Refused(4),
            Some(instruction) if meets_30(instruction) => Answer::Refused(30),
            Some(Br { addr } | Call { addr }) if addr >= 1024 => Answer::Refused(5),
            Some(_) => Answer::Done,
        };
        assert_eq!(answer, expected, "{word:04X}");
    }
}
