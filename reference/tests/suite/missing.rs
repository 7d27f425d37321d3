//! Refusal 31, a missing cell read or written: document 02, E1; source 000,
//! 5.1.3, 5.1.6 and 8.1. The 17120 lacks 40H to 6EH.

use crate::kit::*;
use reference::Instruction::{self, *};
use reference::{decode, Answer, Count, Input, Machine, Report};

use reference::Model::{Upd17120, Upd17132};

/// The 17120's missing cells, as the papers name them.
fn is_missing(address: u8) -> bool {
    (0x40..=0x6E).contains(&address)
}

/// The 17120's step and run are refused with 31 and leave the record; or the
/// step does what the 17132's does.
fn judged(machine: &Machine, input: &Input, i: Instruction, refused: bool) {
    let rom = rom(&[i]);
    let (mut after, mut other) = (machine.clone(), machine.clone());
    let answer = reference::step(Upd17120, &rom, &mut after, input, 1);
    if refused {
        assert_eq!(answer, Answer::Refused(31), "{i:?} {machine:?}");
        assert_eq!(&after, machine, "{i:?}");
        let report = reference::run(Upd17120, &rom, &mut after, input, 1, 9);
        assert_eq!(report, Report { count: Count::default(), refusal: 31 });
        assert_eq!(&after, machine, "{i:?}");
    } else {
        assert_eq!(answer, reference::step(Upd17132, &rom, &mut other, input, 1));
        assert_eq!(answer, Answer::Done, "{i:?} {machine:?}");
        assert_eq!(after, other, "{i:?}");
    }
}

/// A form of instruction on two operands, r or n first.
type Form = fn(u8, u8) -> Instruction;

/// The forms on r and m but for those with @r.
const ON_R_AND_M: [Form; 9] = [
    |r, m| AddRM { r, m },
    |r, m| AddcRM { r, m },
    |r, m| SubRM { r, m },
    |r, m| SubcRM { r, m },
    |r, m| AndRM { r, m },
    |r, m| OrRM { r, m },
    |r, m| XorRM { r, m },
    |r, m| Ld { r, m },
    |r, m| St { r, m },
];

/// The forms on m and n.
const ON_M: [Form; 14] = [
    |n, m| AddMN { m, n },
    |n, m| AddcMN { m, n },
    |n, m| SubMN { m, n },
    |n, m| SubcMN { m, n },
    |n, m| AndMN { m, n },
    |n, m| OrMN { m, n },
    |n, m| XorMN { m, n },
    |n, m| MovMN { m, n },
    |n, m| Ske { m, n },
    |n, m| Skne { m, n },
    |n, m| Skge { m, n },
    |n, m| Sklt { m, n },
    |n, m| Skt { m, n },
    |n, m| Skf { m, n },
];

const INDIRECT: [Form; 2] = [|r, m| MovTo { r, m }, |r, m| MovFrom { m, r }];

/// Every m, with every n, and with CMP: a result that is not stored, n = 0.
#[test]
fn every_m() {
    for form in ON_M {
        for m in 0..128 {
            for n in 0..16 {
                for flags in [0, CMP | Z] {
                    judged(&cells(&[(PSW, flags)]), &quiet(), form(n, m), is_missing(m));
                }
            }
        }
    }
}

/// Every m by every IX: the address after the OR counts.
#[test]
fn every_index() {
    for form in ON_M {
        for ix in 0..128 {
            for m in (0..128).step_by(3) {
                let machine = cells(&[(IXM, ix >> 4), (IXL, ix & 0xF), (PSW, IXE)]);
                judged(&machine, &quiet(), form(3, m), is_missing(m | ix));
                let machine = cells(&[(IXM, ix >> 4), (IXL, ix & 0xF)]);
                judged(&machine, &quiet(), form(3, m), is_missing(m));
            }
        }
    }
}

/// Every r in every row, with m missing or not; CMP changes nothing.
#[test]
fn every_r() {
    for row in 0..8 {
        for r in 0..16 {
            for flags in [0, CMP] {
                let machine = cells(&[(RPL, row << 1), (PSW, flags)]);
                let missing = is_missing(row << 4 | r);
                for form in ON_R_AND_M {
                    for m in [0x00, 0x3F, 0x40, 0x57, 0x6E, 0x6F, 0x70, 0x7F] {
                        judged(&machine, &quiet(), form(r, m), missing || is_missing(m));
                    }
                }
                judged(&machine, &quiet(), Rorc { r }, missing);
            }
        }
    }
}

/// r is never ORed with IX.
#[test]
fn no_index_in_r() {
    let machine = cells(&[(IXM, 4), (PSW, IXE)]);
    judged(&machine, &quiet(), Rorc { r: 3 }, false);
    judged(&machine, &quiet(), Ld { r: 3, m: 0x30 }, false);
    judged(&machine, &quiet(), Ld { r: 3, m: 0x00 }, true);
}

/// @r: the row of m, of m with IX, or of MP; the column in r.
#[test]
fn every_pointed_cell() {
    for form in INDIRECT {
        for row in 0..8 {
            for column in 0..16 {
                let target = row << 4 | column;
                // m's own cell is 6FH where it is in row 6, and else its first.
                let m = if row == 6 { 0x6F } else { row << 4 };
                let missing = is_missing(target) || is_missing(m);
                judged(&cells(&[(0x05, column)]), &quiet(), form(5, m), missing);
                // By MP, and m in row 1.
                let by_pointer = [(0x05, column), (IXH, 8), (IXM, row)];
                judged(&cells(&by_pointer), &quiet(), form(5, 0x12), is_missing(target));
                // By IX: m is in that row then.
                let by_index = [(0x05, column), (IXM, row), (PSW, IXE)];
                let missing = is_missing(target) || is_missing(row << 4 | 0xF);
                judged(&cells(&by_index), &quiet(), form(5, 0x0F), missing);
            }
        }
    }
}

/// r of @r is read for the column, so that it counts; r in a port gives its
/// pins.
#[test]
fn every_pointer() {
    for form in INDIRECT {
        for row in 0..8 {
            for r in 0..16 {
                let machine = cells(&[(RPL, row << 1)]);
                judged(&machine, &quiet(), form(r, 0x12), is_missing(row << 4 | r));
            }
        }
        // P0E is r15 of row 6; with pins 3, @r in row 4 is 43H.
        let machine = cells(&[(RPL, 0xC), (IXH, 8), (IXM, 4)]);
        let input = Input { pins: [0, 0, 0, 0, 3], ..quiet() };
        judged(&machine, &input, form(0xF, 0x12), true);
        judged(&cells(&[(RPL, 0xC), (IXH, 8), (IXM, 3)]), &input, form(0xF, 0x12), false);
        // In row 6 column F is installed, and the column before it is not.
        for (column, missing) in [(0xE, true), (0xF, false)] {
            let machine = cells(&[(0x05, column), (IXH, 8), (IXM, 6)]);
            judged(&machine, &quiet(), form(5, 0x12), missing);
        }
    }
}

/// PEEK and POKE of data memory: 31, and 30 stays below 40H. IX does not change
/// rf.
#[test]
fn register_file() {
    for machine in [reset(), cells(&[(0x78, 9), (IXM, 4), (IXL, 7), (PSW, IXE)])] {
        for rf in 0x40..0x80 {
            judged(&machine, &quiet(), Peek { rf }, is_missing(rf));
            judged(&machine, &quiet(), Poke { rf }, is_missing(rf));
        }
        for i in (0..128).flat_map(four).filter(|&i| meets_30(i)) {
            let mut after = machine.clone();
            let answer = reference::step(Upd17120, &rom(&[i]), &mut after, &quiet(), 0);
            assert_eq!(answer, Answer::Refused(30), "{i:?}");
        }
        for rf in [0x11, 0x12, 0x24, 0x32, 0x33, 0x34, 0x35] {
            judged(&machine, &quiet(), Peek { rf }, false);
            judged(&machine, &quiet(), Poke { rf }, false);
        }
        judged(&machine, &quiet(), Get { p: 2 }, false);
        judged(&machine, &quiet(), Put { p: 3 }, false);
    }
}

/// What implies its registers meets no missing cell.
#[test]
fn implied_registers() {
    let machine = cells(&[(IXH, 8), (IXM, 6), (IXL, 0xE), (RPL, 0xB), (PSW, IXE)]);
    for i in [IncAr, IncIx, Movt, PushAr, BrAr, CallAr, Br { addr: 0 }, Call { addr: 0 }, Nop] {
        judged(&machine, &quiet(), i, false);
    }
    for i in [Halt { cond: 0 }, Stop { cond: 0 }, Get { p: 2 }, Put { p: 3 }] {
        judged(&machine, &quiet(), i, false);
    }
    let mut machine = machine;
    (machine.levels, machine.stack[0]) = (1, 0x345);
    for i in [Ret, Retsk, PopAr] {
        judged(&machine, &quiet(), i, false);
    }
}

/// The 17132 has every cell.
#[test]
fn never_on_the_17132() {
    let mut random = Random::new(8);
    for _ in 0..100_000 {
        let word = [random.word()];
        let mut machine = Machine { pc: 0, ..random.machine() };
        let answer = step(&word, &mut machine, &random.input(), random.pulse());
        assert_ne!(answer, Answer::Refused(31));
    }
}

/// The operand cells of an instruction, by document 01, "Addresses".
fn operands(machine: &Machine, input: &Input, i: Instruction) -> Vec<u8> {
    let cell = |address: u8| at(machine, address);
    let ix = cell(IXM) << 4 | cell(IXL);
    let indexed = |m: u8| if cell(PSW) & IXE != 0 { m | ix } else { m };
    let general = |r: u8| (cell(RPL) >> 1) << 4 | r;
    // What r holds, as ST would store it into 00H.
    let held = |r: u8| {
        let mut copy = Machine { pc: 0, skip: 0, standby: 0, ..machine.clone() };
        copy.cells[usize::from(PSW)] = 0;
        let released = Input { release: 0, ..*input };
        assert_eq!(step(&rom(&[St { m: 0x00, r }]), &mut copy, &released, 0), Answer::Done);
        // r is 7FH: its own flags count.
        if general(r) == PSW {
            cell(PSW)
        } else {
            at(&copy, 0x00)
        }
    };
    let pointed = |m: u8, r: u8| {
        let row = if cell(IXH) & 8 != 0 { cell(IXM) } else { indexed(m) >> 4 };
        row << 4 | held(r)
    };
    match i {
        AddRM { r, m } | AddcRM { r, m } | SubRM { r, m } | SubcRM { r, m } => {
            vec![general(r), indexed(m)]
        }
        AndRM { r, m } | OrRM { r, m } | XorRM { r, m } => vec![general(r), indexed(m)],
        Ld { r, m } | St { m, r } => vec![general(r), indexed(m)],
        AddMN { m, .. } | AddcMN { m, .. } | SubMN { m, .. } | SubcMN { m, .. } => {
            vec![indexed(m)]
        }
        AndMN { m, .. } | OrMN { m, .. } | XorMN { m, .. } | MovMN { m, .. } => vec![indexed(m)],
        Ske { m, .. } | Skne { m, .. } | Skge { m, .. } | Sklt { m, .. } => vec![indexed(m)],
        Skt { m, .. } | Skf { m, .. } => vec![indexed(m)],
        MovTo { r, m } | MovFrom { m, r } => vec![general(r), indexed(m), pointed(m, r)],
        Rorc { r } => vec![general(r)],
        Peek { rf } | Poke { rf } if rf >= 0x40 => vec![rf],
        _ => vec![],
    }
}

/// Random machines of the 17120: refused with 31 where an operand is missing,
/// and else as the 17132 does.
#[test]
fn random_steps() {
    let mut random = Random::new(9);
    let (mut refused, mut done) = (0, 0);
    for _ in 0..300_000 {
        let word = random.word();
        let mut before = random.machine_of(Upd17120);
        before.pc = 0;
        let input = Input { release: 1, ..random.input() };
        let (mut after, mut other) = (before.clone(), before.clone());
        let pulse = random.pulse();
        let answer = reference::step(Upd17120, &[word], &mut after, &input, pulse);
        let instruction = decode(word).filter(|_| before.skip == 0);
        let missing = instruction.map(|i| operands(&before, &input, i)).unwrap_or_default();
        if missing.iter().any(|&address| is_missing(address)) {
            assert_eq!(answer, Answer::Refused(31), "{word:04X} {before:?}");
            assert_eq!(after, before);
            refused += 1;
            continue;
        }
        assert_eq!(answer, reference::step(Upd17132, &[word], &mut other, &input, pulse));
        assert_eq!(after, other);
        assert!(after.in_range(Upd17120));
        done += u32::from(answer == Answer::Done);
    }
    assert!(refused > 50_000 && done > 50_000, "{refused} refused, {done} done");
}
