//! Words and rows: the decoders and the encoders of both emulators. The rows
//! are those of source 000's list, 18.3, in its order.

use reference::isa::Instruction::*;
use reference::isa::{decode, encode, Instruction};

use crate::host::{self, DecodedRow, EncodedRow};
use crate::pair::{self, Finding};
use crate::random::Random;
use crate::tally::Tally;

/// A row and what it makes of its operands.
enum Row {
    Two(fn(u8, u8) -> Instruction),
    One(fn(u8) -> Instruction),
    To(fn(u16) -> Instruction),
    Fixed(Instruction),
}

use Row::{Fixed, One, To, Two};

const LIST: [Row; 47] = [
    Two(|r, m| AddRM { r, m }),
    Two(|m, n| AddMN { m, n }),
    Two(|r, m| AddcRM { r, m }),
    Two(|m, n| AddcMN { m, n }),
    Fixed(IncAr),
    Fixed(IncIx),
    Two(|r, m| SubRM { r, m }),
    Two(|m, n| SubMN { m, n }),
    Two(|r, m| SubcRM { r, m }),
    Two(|m, n| SubcMN { m, n }),
    Two(|r, m| OrRM { r, m }),
    Two(|m, n| OrMN { m, n }),
    Two(|r, m| AndRM { r, m }),
    Two(|m, n| AndMN { m, n }),
    Two(|r, m| XorRM { r, m }),
    Two(|m, n| XorMN { m, n }),
    Two(|m, n| Skt { m, n }),
    Two(|m, n| Skf { m, n }),
    Two(|m, n| Ske { m, n }),
    Two(|m, n| Skne { m, n }),
    Two(|m, n| Skge { m, n }),
    Two(|m, n| Sklt { m, n }),
    One(|r| Rorc { r }),
    Two(|r, m| Ld { r, m }),
    Two(|m, r| St { m, r }),
    Two(|r, m| MovTo { r, m }),
    Two(|m, r| MovFrom { m, r }),
    Two(|m, n| MovMN { m, n }),
    Fixed(Movt),
    Fixed(PushAr),
    Fixed(PopAr),
    One(|rf| Peek { rf }),
    One(|rf| Poke { rf }),
    One(|p| Get { p }),
    One(|p| Put { p }),
    To(|addr| Br { addr }),
    Fixed(BrAr),
    To(|addr| Call { addr }),
    Fixed(CallAr),
    Fixed(Ret),
    Fixed(Retsk),
    Fixed(Reti),
    Fixed(Ei),
    Fixed(Di),
    One(|cond| Stop { cond }),
    One(|cond| Halt { cond }),
    Fixed(Nop),
];

/// The instruction that the proved decoder lists.
fn made_of(listed: DecodedRow) -> Result<Instruction, u8> {
    made(listed.row, listed.first, listed.second, listed.addr)
}

/// The instruction of a row, or a refusal.
fn made(row: u8, a: u8, b: u8, addr: u16) -> Result<Instruction, u8> {
    let (instruction, spare) = match LIST.get(usize::from(row)).ok_or(1)? {
        Two(make) => (make(a, b), addr != 0),
        One(make) => (make(a), b != 0 || addr != 0),
        To(make) => (make(addr), a != 0 || b != 0),
        Fixed(instruction) => (*instruction, a != 0 || b != 0 || addr != 0),
    };
    if spare {
        Err(10)
    } else {
        Ok(instruction)
    }
}

/// What the decoder answers for a word that is no instruction.
const NONE: DecodedRow = DecodedRow { number: 3, row: 0, first: 0, second: 0, addr: 0 };

/// A word through both decoders and back, and a row with operands through both
/// encoders.
pub fn code(random: &mut Random, index: u64, tally: &mut Tally) -> Result<(), Finding> {
    let word = index as u16;
    let listed = decodes(word, tally)?;
    if listed.number == pair::DONE {
        comes_back(word, listed, tally)?;
    }
    encodes(random, tally)
}

fn decodes(word: u16, tally: &mut Tally) -> Result<DecodedRow, Finding> {
    let listed = host::decode(word);
    let second = decode(word);
    let agree = match second {
        Some(instruction) => listed.number == pair::DONE && made_of(listed) == Ok(instruction),
        None => listed == NONE,
    };
    if !agree {
        return Err(Finding(format!(
            "decode of word {word:04X}\nfirst difference: proved {listed:?}, second {second:?}\n"
        )));
    }
    tally.answer(listed.number);
    Ok(listed)
}

/// What a word was decoded to gives that word in both encoders.
fn comes_back(word: u16, listed: DecodedRow, tally: &mut Tally) -> Result<(), Finding> {
    let DecodedRow { row, first, second, addr, .. } = listed;
    let coded = host::encode(row, first, second, addr);
    let answer = made_of(listed).and_then(encode);
    if coded != (EncodedRow { number: pair::DONE, word }) || answer != Ok(word) {
        return Err(Finding(format!(
            "encode of {listed:?}, which is word {word:04X}\n\
             first difference: proved {coded:04X?}, second {answer:04X?}\n"
        )));
    }
    tally.answer(coded.number);
    tally.see("words that come back");
    Ok(())
}

/// A random row.
fn encodes(random: &mut Random, tally: &mut Tally) -> Result<(), Finding> {
    let row = random.byte(50);
    let (first, second, addr) = operands(random, row);
    let coded = host::encode(row, first, second, addr);
    let answer = match made(row, first, second, addr).and_then(encode) {
        Ok(word) => EncodedRow { number: pair::DONE, word },
        Err(number) => EncodedRow { number, word: 0 },
    };
    if coded != answer {
        return Err(Finding(format!(
            "encode of row {row} with {first}, {second}, {addr}\n\
             first difference: proved {coded:04X?}, second {answer:04X?}\n"
        )));
    }
    tally.answer(coded.number);
    Ok(())
}

/// Operands that mostly fit, at times one too large or too many.
fn operands(random: &mut Random, row: u8) -> (u8, u8, u16) {
    let spare = random.once_in(8);
    let mut small = || match random.below(8) {
        0 => random.below(256) as u8,
        1 => 120 + random.below(16) as u8,
        2 => random.below(128) as u8,
        _ => random.below(17) as u8,
    };
    let (a, b) = (small(), small());
    let addr = if random.once_in(4) { 2040 + random.word(16) } else { random.word(2048) };
    match LIST.get(usize::from(row)) {
        _ if spare => (a, b, addr),
        Some(Two(_)) => (a, b, 0),
        Some(One(_)) => (a, 0, 0),
        Some(To(_)) => (0, 0, addr),
        Some(Fixed(_)) | None => (0, 0, 0),
    }
}
