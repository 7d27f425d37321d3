//! The check: document 01, "Clearance rules", with one level at each word. Ranges
//! of levels are in `ranges`.

use crate::kit::*;
use reference::Instruction::{self, *};
use reference::{encode, Verdict};

const NEVER: u8 = 15;

fn fail(word: u16, rule: u8) -> Verdict {
    Verdict::Fail { word, rule }
}

fn check(program: &[Instruction], depths: &[u8]) -> Verdict {
    verify(&rom(program), depths)
}

/// BR to itself.
fn stay(addr: u16) -> Instruction {
    Br { addr }
}

#[test]
fn refusals() {
    assert_eq!(verify(&[], &[]), Verdict::Refused(1));
    assert_eq!(verify(&[0; 1025], &[0; 1025]), Verdict::Refused(1));
    assert_eq!(verify(&[], &[0]), Verdict::Refused(1));
    assert_eq!(verify(&[0], &[]), Verdict::Refused(9));
    assert_eq!(verify(&[0], &[0, 0]), Verdict::Refused(9));
    assert_eq!(verify(&[0; 2], &[99]), Verdict::Refused(9));
}

#[test]
fn the_least_rom() {
    assert_eq!(check(&[stay(0)], &[0]), Verdict::Pass);
}

#[test]
fn rule_1_at_word_0() {
    for depth in (1..=255).collect::<Vec<u8>>() {
        assert_eq!(check(&[stay(0)], &[depth]), fail(0, 1));
    }
}

#[test]
fn rule_2_at_every_entry() {
    for depth in 0..=255_u8 {
        let verdict = check(&[stay(0), stay(1)], &[0, depth]);
        let good = depth <= 5 || depth == NEVER;
        assert_eq!(verdict, if good { Verdict::Pass } else { fail(1, 2) });
    }
}

#[test]
fn rule_3_for_the_word() {
    let reached = |word: u16| verify(&[encode(stay(0)).unwrap(), word], &[0, 0]);
    let never = |word: u16| verify(&[encode(stay(0)).unwrap(), word], &[0, NEVER]);
    let banned = [
        Ei,
        Di,
        Reti,
        Peek { rf: 0 },
        Poke { rf: 0x10 },
        Get { p: 3 },
        Put { p: 2 },
        BrAr,
        CallAr,
        PushAr,
        PopAr,
        Movt,
    ];
    let words = rom(&banned).into_iter().chain([0x7000, 0xB800, 0x3800]);
    for word in words {
        assert_eq!(reached(word), fail(1, 3), "{word:04X}");
        assert_eq!(never(word), Verdict::Pass, "{word:04X}");
    }
}

/// Document 02, E4: PEEK, POKE, GET and PUT where refusal 30 does not meet them.
#[test]
fn rule_3_for_the_register_file() {
    for seven in 0..128 {
        for instruction in four(seven) {
            let verdict = check(&[instruction, stay(0)], &[0, 0]);
            let wanted = if meets_30(instruction) { fail(0, 3) } else { Verdict::Pass };
            assert_eq!(verdict, wanted, "{instruction:?}");
        }
    }
    // Rule 4 holds for them as for others.
    assert_eq!(check(&[Poke { rf: 0x11 }], &[0]), fail(0, 4));
}

#[test]
fn rule_3_for_table_reference() {
    let mut full = vec![encode(stay(0)).unwrap(); 1024];
    full[1..3].copy_from_slice(&rom(&[Movt, stay(2)]));
    for depth in 0..=5 {
        let mut depths = vec![NEVER; 1024];
        depths[0] = 0;
        depths[1..3].fill(depth);
        let wanted = if depth <= 4 { Verdict::Pass } else { fail(1, 3) };
        assert_eq!(verify(&full, &depths), wanted);
        assert_eq!(verify(&full[..1023], &depths[..1023]), fail(1, 3));
    }
}

#[test]
fn rule_4_for_next() {
    assert_eq!(check(&[Nop, stay(1)], &[0, 0]), Verdict::Pass);
    assert_eq!(check(&[Nop, stay(1)], &[0, 1]), fail(0, 4));
    assert_eq!(check(&[Nop, stay(1)], &[0, NEVER]), fail(0, 4));
    // Past the ROM's end, and round at 1,024 words.
    assert_eq!(check(&[Nop], &[0]), fail(0, 4));
    assert_eq!(check(&[Halt { cond: 0 }], &[0]), fail(0, 4));
    let full = vec![encode(Nop).unwrap(); 1024];
    assert_eq!(verify(&full, &[0; 1024]), Verdict::Pass);
    assert_eq!(verify(&full[..1023], &[0; 1023]), fail(1022, 4));
}

#[test]
fn rule_4_for_skips() {
    let m = 0x10;
    let skips = [
        Ske { m, n: 1 },
        Skne { m, n: 1 },
        Skge { m, n: 1 },
        Sklt { m, n: 1 },
        Skt { m, n: 1 },
        Skf { m, n: 1 },
    ];
    for skip in skips {
        assert_eq!(check(&[skip, stay(0), stay(0)], &[0, 0, 0]), Verdict::Pass);
        assert_eq!(check(&[skip, stay(0), stay(2)], &[0, 0, 1]), fail(0, 4));
        assert_eq!(check(&[skip, stay(0), stay(0)], &[0, NEVER, 0]), fail(0, 4));
        assert_eq!(check(&[skip, stay(0)], &[0, 0]), fail(0, 4));
        // The word after next goes round at 1,024.
        let mut full = vec![encode(stay(0)).unwrap(); 1024];
        full[1022] = encode(skip).unwrap();
        assert_eq!(verify(&full, &[0; 1024]), Verdict::Pass);
    }
}

#[test]
fn rule_4_for_branches() {
    assert_eq!(check(&[stay(1), stay(0)], &[0, 0]), Verdict::Pass);
    assert_eq!(check(&[stay(1), stay(1)], &[0, 1]), fail(0, 4));
    assert_eq!(check(&[stay(2), stay(0)], &[0, 0]), fail(0, 4));
    assert_eq!(check(&[stay(1023)], &[0]), fail(0, 4));
    // 1,024 and more name no word, not the word that a mask would leave.
    assert_eq!(check(&[stay(1024)], &[0]), fail(0, 4));
}

#[test]
fn rule_5_for_calls() {
    let call = |target: u16| [Call { addr: target }, stay(1), Ret];
    assert_eq!(check(&call(2), &[0, 0, 1]), Verdict::Pass);
    assert_eq!(check(&call(1), &[0, 0, NEVER]), fail(0, 5));
    assert_eq!(check(&call(3), &[0, 0, 1]), fail(0, 5));
    assert_eq!(check(&call(1026), &[0, 0, 1]), fail(0, 5));
    assert_eq!(check(&call(2), &[0, 0, 2]), fail(0, 5));
    // Rule 4 comes first where the word after CALL is wrong too.
    assert_eq!(check(&call(3), &[0, NEVER, 1]), fail(0, 4));
    // At level 5 no call is left.
    let deep = [stay(0), Call { addr: 3 }, stay(2), stay(3)];
    assert_eq!(check(&deep, &[0, 4, 4, 5]), Verdict::Pass);
    assert_eq!(check(&deep, &[0, 5, 5, NEVER]), fail(1, 5));
    assert_eq!(check(&deep, &[0, 5, 5, 5]), fail(1, 5));
}

#[test]
fn rule_5_with_skipped_returns() {
    let program = |last| [Call { addr: 3 }, stay(1), stay(2), last];
    assert_eq!(check(&program(Retsk), &[0, 0, 0, 1]), Verdict::Pass);
    assert_eq!(check(&program(Retsk), &[0, 0, NEVER, 1]), fail(0, 5));
    assert_eq!(check(&program(Ret), &[0, 0, NEVER, 1]), Verdict::Pass);
    // A RETSK anywhere at that level counts, one never reached does not.
    let elsewhere = [Call { addr: 3 }, stay(1), stay(2), Ret, Retsk];
    assert_eq!(check(&elsewhere, &[0, 0, NEVER, 1, 1]), fail(0, 5));
    assert_eq!(check(&elsewhere, &[0, 0, NEVER, 1, NEVER]), Verdict::Pass);
    assert_eq!(check(&elsewhere, &[0, 0, NEVER, 1, 2]), Verdict::Pass);
    // The word after next must lie in the ROM, or come round at 1,024.
    let short = [stay(2), Retsk, Call { addr: 1 }, stay(3)];
    assert_eq!(check(&short, &[0, 1, 0, 0]), fail(2, 5));
    let mut full = vec![encode(stay(0)).unwrap(); 1024];
    full[1] = encode(Retsk).unwrap();
    full[1022] = encode(Call { addr: 1 }).unwrap();
    let mut depths = vec![0; 1024];
    depths[1] = 1;
    assert_eq!(verify(&full, &depths), Verdict::Pass);
}

#[test]
fn rule_6_for_returns() {
    for back in [Ret, Retsk] {
        assert_eq!(check(&[back], &[0]), fail(0, 6));
        for depth in 0..=5 {
            let wanted = if depth == 0 { fail(1, 6) } else { Verdict::Pass };
            assert_eq!(check(&[stay(0), back], &[0, depth]), wanted);
        }
    }
}

/// The lowest word, and its lowest rule.
#[test]
fn which_fault_is_named() {
    assert_eq!(check(&[stay(0), Nop, Ret], &[0, 0, 9]), fail(1, 4));
    assert_eq!(check(&[stay(0), Nop, Ret], &[0, 9, 9]), fail(1, 2));
    assert_eq!(check(&[stay(0), Call { addr: 0 }], &[0, 0]), fail(1, 4));
    assert_eq!(check(&[Ret], &[9]), fail(0, 1));
}
