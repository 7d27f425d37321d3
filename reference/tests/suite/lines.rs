//! In the files of `cases/data` a word stands with its line of the manual's
//! assembler behind it. The two must agree.

use reference::encode;
use reference::Instruction::{self, *};

/// The system registers that a line may name.
const REGISTERS: [(&str, u16); 14] = [
    ("AR3", 0x74),
    ("AR2", 0x75),
    ("AR1", 0x76),
    ("AR0", 0x77),
    ("WR", 0x78),
    ("BANK", 0x79),
    ("IXH", 0x7A),
    ("MPH", 0x7A),
    ("IXM", 0x7B),
    ("MPL", 0x7B),
    ("IXL", 0x7C),
    ("RPH", 0x7D),
    ("RPL", 0x7E),
    ("PSW", 0x7F),
];

/// The flags, each with its cell and its bit.
const FLAGS: [(&str, u8, u8); 6] = [
    ("CMP", 0x7F, 0b1000),
    ("CY", 0x7F, 0b0100),
    ("Z", 0x7F, 0b0010),
    ("IXE", 0x7F, 0b0001),
    ("BCD", 0x7E, 0b0001),
    ("MPE", 0x7A, 0b1000),
];

/// A register's address or a hexadecimal number, with or without a mark.
fn number(operand: &str) -> u16 {
    let name = operand.trim_start_matches(['#', '@']);
    match REGISTERS.iter().find(|(register, _)| *register == name) {
        Some(&(_, address)) => address,
        None => u16::from_str_radix(name, 16).expect("a number"),
    }
}

/// An operand of seven bits, or an immediate.
fn cell(operand: &str) -> u8 {
    number(operand).try_into().expect("a byte")
}

/// A general register, which a line gives by its address or its column.
fn column(operand: &str) -> u8 {
    cell(operand) % 16
}

/// The cell of some flags and their bits.
fn flags(names: &[&str]) -> (u8, u8) {
    let found = names.iter().map(|name| FLAGS.iter().find(|flag| flag.0 == *name).expect("a flag"));
    found.fold((0, 0), |(_, bits), flag| (flag.1, bits | flag.2))
}

/// An operation on r and m, or on m and an immediate.
fn operation(
    a: &str,
    b: &str,
    register: fn(u8, u8) -> Instruction,
    immediate: fn(u8, u8) -> Instruction,
) -> Instruction {
    if b.starts_with('#') {
        immediate(cell(a), cell(b))
    } else {
        register(column(a), cell(b))
    }
}

fn transfer(a: &str, b: &str) -> Instruction {
    match (a.strip_prefix('@'), b.strip_prefix('@')) {
        (Some(r), _) => MovTo { r: column(r), m: cell(b) },
        (None, Some(r)) => MovFrom { m: cell(a), r: column(r) },
        (None, None) => MovMN { m: cell(a), n: cell(b) },
    }
}

/// The macros of flags: source 000, 18.4.
fn flag_macro(name: &str, names: &[&str]) -> Instruction {
    let (m, n) = flags(names);
    match &name[..3] {
        "SET" => OrMN { m, n },
        "CLR" => AndMN { m, n: n ^ 0b1111 },
        "SKT" => Skt { m, n },
        _ => Skf { m, n },
    }
}

/// The instruction of a line.
fn assembled(line: &str) -> Instruction {
    let parts: Vec<&str> = line.split([' ', ',']).filter(|part| !part.is_empty()).collect();
    match parts[..] {
        ["ADD", a, b] => operation(a, b, |r, m| AddRM { r, m }, |m, n| AddMN { m, n }),
        ["SUB", a, b] => operation(a, b, |r, m| SubRM { r, m }, |m, n| SubMN { m, n }),
        ["ADDC", a, b] => operation(a, b, |r, m| AddcRM { r, m }, |m, n| AddcMN { m, n }),
        ["SUBC", a, b] => operation(a, b, |r, m| SubcRM { r, m }, |m, n| SubcMN { m, n }),
        ["AND", a, b] => operation(a, b, |r, m| AndRM { r, m }, |m, n| AndMN { m, n }),
        ["XOR", a, b] => operation(a, b, |r, m| XorRM { r, m }, |m, n| XorMN { m, n }),
        ["OR", a, b] => operation(a, b, |r, m| OrRM { r, m }, |m, n| OrMN { m, n }),
        ["SKE", a, b] => Ske { m: cell(a), n: cell(b) },
        ["SKNE", a, b] => Skne { m: cell(a), n: cell(b) },
        ["SKGE", a, b] => Skge { m: cell(a), n: cell(b) },
        ["SKLT", a, b] => Sklt { m: cell(a), n: cell(b) },
        ["SKT", a, b] => Skt { m: cell(a), n: cell(b) },
        ["SKF", a, b] => Skf { m: cell(a), n: cell(b) },
        ["LD", a, b] => Ld { r: column(a), m: cell(b) },
        ["ST", a, b] => St { m: cell(a), r: column(b) },
        ["MOV", a, b] => transfer(a, b),
        ["RORC", a] => Rorc { r: column(a) },
        ["BR", "@AR"] => BrAr,
        ["BR", a] => Br { addr: number(a) },
        ["CALL", "@AR"] => CallAr,
        ["CALL", a] => Call { addr: number(a) },
        ["INC", "AR"] => IncAr,
        ["INC", "IX"] => IncIx,
        ["MOVT", "DBF", "@AR"] => Movt,
        ["PUSH", "AR"] => PushAr,
        ["POP", "AR"] => PopAr,
        ["PEEK", "WR", a] => Peek { rf: cell(a) },
        ["POKE", a, "WR"] => Poke { rf: cell(a) },
        ["GET", "DBF", a] => Get { p: cell(a) },
        ["PUT", a, "DBF"] => Put { p: cell(a) },
        ["STOP", a] => Stop { cond: cell(a) },
        ["HALT", a] => Halt { cond: cell(a) },
        ["RET"] => Ret,
        ["RETSK"] => Retsk,
        ["RETI"] => Reti,
        ["EI"] => Ei,
        ["DI"] => Di,
        ["NOP"] => Nop,
        [name @ ("SET1" | "SET2" | "CLR1" | "CLR2" | "SKT1" | "SKF1"), ref names @ ..] => {
            flag_macro(name, names)
        }
        _ => panic!("no such line: {line}"),
    }
}

/// The word of a line of cases, where it has one, and what stands behind. What
/// a line sets before a call is no word.
fn word_and_line(text: &str) -> Option<(u16, &str)> {
    let (front, line) = text.split_once(';')?;
    let is_word = |part: &&str| {
        part.len() == 4 && part.bytes().all(|b| b.is_ascii_digit() || b.is_ascii_uppercase())
    };
    let word = front.split([' ', ',']).find(is_word)?;
    let sets = front.trim_start().starts_with("with ");
    (!sets).then(|| (u16::from_str_radix(word, 16).expect("a word"), line.trim()))
}

fn each_word_is_its_line(cases: &str, count: usize) {
    let words: Vec<_> = cases.lines().filter_map(word_and_line).collect();
    for (word, line) in &words {
        assert_eq!(encode(assembled(line)), Ok(*word), "{line}");
    }
    assert_eq!(words.len(), count);
}

#[test]
fn each_word_of_the_cases_is_its_line() {
    each_word_is_its_line(include_str!("../../../cases/data/programs.cases"), 666);
    each_word_is_its_line(include_str!("../../../cases/data/data.cases"), 235);
    each_word_is_its_line(include_str!("../../../cases/data/cycles.cases"), 61);
    each_word_is_its_line(include_str!("../../../cases/data/registers.cases"), 529);
    each_word_is_its_line(include_str!("../../../cases/data/timer.cases"), 215);
    each_word_is_its_line(include_str!("../../../cases/data/host.cases"), 5);
    each_word_is_its_line(include_str!("../../../cases/data/models.cases"), 518);
    each_word_is_its_line(include_str!("../../../cases/data/checks.cases"), 697);
    each_word_is_its_line(include_str!("../../../cases/data/ranges.cases"), 276);
}
