//! Skips: source 000, 3.2.6, 11.5 and 11.6; document 01, "Results".

use crate::kit::*;
use reference::Instruction::{self, *};
use reference::{decode, Answer};

/// Does this test on 10H holding `value` skip?
fn skips(value: u8, test: Instruction) -> bool {
    let m = pass(cells(&[(0x10, value)]), &[test]);
    assert_eq!(m.pc, 1);
    m.skip == 1
}

#[test]
fn section_11_5_bit_tests() {
    assert!(skips(0b1011, Skt { m: 0x10, n: 0b1011 }));
    assert!(!skips(0b1011, Skt { m: 0x10, n: 0b1101 }));
    // Source 001, 5.5.2: source 000 prints SKT and 1011B in this example.
    assert!(skips(0b1001, Skf { m: 0x10, n: 0b0110 }));
    assert!(!skips(0b1001, Skf { m: 0x10, n: 0b1110 }));
}

#[test]
fn section_11_6_comparisons() {
    assert!(skips(0b1010, Ske { m: 0x10, n: 0b1010 }));
    assert!(!skips(0b1010, Ske { m: 0x10, n: 0b1000 }));
    assert!(skips(0b1010, Skne { m: 0x10, n: 0b1000 }));
    assert!(!skips(0b1010, Skne { m: 0x10, n: 0b1010 }));
    for (n, at_least) in [(7, true), (8, true), (9, false)] {
        assert_eq!(skips(8, Skge { m: 0x10, n }), at_least);
        assert_eq!(skips(8, Sklt { m: 0x10, n }), !at_least);
    }
}

#[test]
fn every_test() {
    for value in 0..16 {
        for n in 0..16 {
            let m = 0x10;
            assert_eq!(skips(value, Ske { m, n }), value == n);
            assert_eq!(skips(value, Skne { m, n }), value != n);
            assert_eq!(skips(value, Skge { m, n }), value >= n);
            assert_eq!(skips(value, Sklt { m, n }), value < n);
            let bits = || [1, 2, 4, 8].into_iter().filter(move |bit| n & bit != 0);
            assert_eq!(skips(value, Skt { m, n }), bits().all(|bit| value & bit != 0));
            assert_eq!(skips(value, Skf { m, n }), bits().all(|bit| value & bit == 0));
        }
    }
    assert!(skips(5, Skt { m: 0x10, n: 0 }) && skips(5, Skf { m: 0x10, n: 0 }));
}

/// SKT and SKF clear CMP whether they skip or not, and nothing else; the
/// test itself sees CMP as it was.
#[test]
fn bit_tests_clear_compare() {
    for psw in 0..16 {
        for n in 0..16 {
            for (test, skip) in
                [(Skt { m: PSW, n }, psw & n == n), (Skf { m: PSW, n }, psw & n == 0)]
            {
                let m = pass(cells(&[(PSW, psw)]), &[test]);
                assert_eq!((m.skip == 1, at(&m, PSW)), (skip, psw & !CMP));
            }
            let m = pass(cells(&[(PSW, psw)]), &[Ske { m: PSW, n }]);
            assert_eq!((m.skip == 1, at(&m, PSW)), (psw == n, psw));
        }
    }
}

/// A skipped word is a NOP whatever it is, and counts as a step.
#[test]
fn a_skipped_word_is_not_decoded() {
    for word in 0..=u16::MAX {
        let mut m = reset();
        m.skip = 1;
        assert_eq!(step(&[word], &mut m, &quiet(), 0), Answer::Done);
        let mut wanted = reset();
        wanted.pc = 1;
        wanted.peripherals = cycles_on(1);
        assert_eq!(m, wanted);
    }
    let rom = [rom(&[Ske { m: 0, n: 0 }])[0], 0xB800, rom(&[Nop])[0]];
    assert_eq!(decode(rom[1]), None);
    let mut m = reset();
    go(&rom, &mut m, 3);
    assert_eq!(m.pc, 3);
}

/// A skipped skip does not skip.
#[test]
fn a_skip_is_spent_on_one_word() {
    let program = rom(&[Ske { m: 0, n: 0 }, Ske { m: 0, n: 0 }, mov(0x10, 7)]);
    let mut m = reset();
    go(&program, &mut m, 3);
    assert_eq!(at(&m, 0x10), 7);
}

#[test]
fn a_skip_at_the_last_word() {
    let mut full = vec![rom(&[Nop])[0]; 1024];
    full[1023] = 0xFFFF; // SKF 7FH,#0FH
    let mut m = reset();
    m.pc = 1023;
    go(&full, &mut m, 1);
    assert_eq!((m.pc, m.skip), (0, 1));
    go(&full, &mut m, 1);
    assert_eq!((m.pc, m.skip), (1, 0));
}

/// A pending skip still meets refusal 2.
#[test]
fn a_skip_past_the_rom() {
    let mut m = reset();
    let program = rom(&[Ske { m: 0, n: 0 }]);
    go(&program, &mut m, 1);
    let before = m.clone();
    assert_eq!(step(&program, &mut m, &quiet(), 0), Answer::Refused(2));
    assert_eq!(m, before);
}

/// Source 000, 18.5.5 (2): 8-bit compare by SKNE and SKE.
#[test]
fn section_18_5_5_eight_bits() {
    let program =
        rom(&[Skne { m: 0x1F, n: 1 }, Ske { m: 0x1E, n: 3 }, Br { addr: 10 }, Br { addr: 20 }]);
    for (high, low, target) in [(3, 1, 20), (3, 2, 10), (2, 1, 10), (2, 2, 10)] {
        let mut m = cells(&[(0x1E, high), (0x1F, low)]);
        while m.pc < 4 {
            go(&program, &mut m, 1);
        }
        assert_eq!(m.pc, target, "{high}{low}");
    }
}

/// Source 000, 18.5.5 (3): RET above 17H, else RETSK.
#[test]
fn section_18_5_5_return_by_size() {
    let routine = rom(&[
        Skge { m: 0x1F, n: 1 },
        Retsk,
        Skne { m: 0x1F, n: 1 },
        Sklt { m: 0x2F, n: 8 },
        Ret,
        Retsk,
    ]);
    for value in 0..=255_u8 {
        let mut m = cells(&[(0x1F, value >> 4), (0x2F, value & 0xF)]);
        m.levels = 1;
        m.stack[0] = 0x100;
        while m.pc != 0x100 {
            go(&routine, &mut m, 1);
        }
        assert_eq!(m.skip == 0, value > 0x17, "{value:02X}");
    }
}
