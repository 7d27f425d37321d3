//! What `station` prints: document 01, "Station file".

use crate::kit::*;
use reference::sheet::of_levels;
use reference::station::write;
use reference::Instruction::{self, *};
use reference::{transcript, Input, Station};

fn text(program: &[Instruction], levels: &[u8], inputs: &[Input]) -> String {
    let station = Station { rom: rom(program), sheet: of_levels(levels), inputs: inputs.to_vec() };
    transcript(&write(&station).unwrap())
}

#[test]
fn the_example() {
    let mut file = vec![0, 1, 0, 2, 0xE8, 0x05, 0x60, 0x01, 0, 2, 0, 0, 0, 2];
    file.extend([0; 22]);
    let wanted = "SHEET PASS\n1 000 E805 001 0 0\n2 001 6001 001 0 0\nEND 2 2 0\n";
    assert_eq!(transcript(&file), wanted);
}

#[test]
fn bad_files() {
    assert_eq!(transcript(&[]), "FILE 21\n");
    assert_eq!(transcript(&[0, 3]), "FILE 20\n");
    assert_eq!(transcript(&[0, 1, 0, 0]), "FILE 22\n");
    assert_eq!(transcript(&[0, 1, 0, 1, 0, 0, 0, 1, 9]), "FILE 23\n");
    assert_eq!(transcript(&[0, 1, 0, 1, 0, 0, 0, 0, 0, 0, 0]), "FILE 24\n");
}

#[test]
fn no_sheet_and_no_input() {
    assert_eq!(text(&[Nop], &[], &[]), "SHEET NONE\nEND 0 0 0\n");
}

/// A sheet that fails does not stop it; a refusal prints no line.
#[test]
fn failed_sheet_and_refusal() {
    let mut program = vec![Nop; 12];
    program[0] = Call { addr: 11 };
    program[11] = Ret;
    let mut depths = vec![0; 12];
    depths[11] = 1;
    let wanted = "SHEET FAIL 00A 4\n1 000 E00B 00B 1 0\n2 00B 38E0 001 0 0\nEND 2 2 0\n";
    assert_eq!(text(&program, &depths, &[quiet(); 2]), wanted);
    let wanted = "SHEET FAIL 000 6\nEND 0 0 7\n";
    assert_eq!(text(&[Ret], &[0], &[quiet(); 3]), wanted);
}

/// A machine that stays in standby prints dashes and counts no step; a
/// skipped word prints as it is.
#[test]
fn standby_and_skip() {
    let release = Input { release: 1, ..quiet() };
    let program =
        [Halt { cond: 0 }, SubMN { m: 0, n: 1 }, Ske { m: 0, n: 0xF }, Ei, Br { addr: 0 }];
    let inputs = [quiet(), quiet(), release, quiet(), release, quiet(), quiet(), quiet()];
    let wanted = "SHEET NONE\n\
        1 000 3BF0 001 0 0\n\
        2 001 ---- 001 0 0\n\
        3 001 8801 002 0 4\n\
        4 002 480F 003 0 4\n\
        5 003 38F0 004 0 4\n\
        6 004 6000 000 0 4\n\
        7 000 3BF0 001 0 4\n\
        8 001 ---- 001 0 4\n\
        END 6 6 0\n";
    assert_eq!(text(&program, &[], &inputs), wanted);
}

#[test]
fn record_numbers_are_decimal() {
    let all = text(&[Br { addr: 0 }], &[0], &[quiet(); 4095]);
    for record in ["\n9 ", "\n10 ", "\n99 ", "\n100 ", "\n909 ", "\n1000 ", "\n4095 "] {
        assert_eq!(all.matches(record).count(), 1, "{record:?}");
    }
    assert!(all.ends_with("\n4095 000 6000 000 0 0\nEND 4095 4095 0\n"));
    // 4,095 lines of 18 bytes and a number each, SHEET PASS and END.
    assert_eq!(all.len(), 4095 * 18 + 9 + 2 * 90 + 3 * 900 + 4 * 3096 + 11 + 16);
}

/// Hex digits from A on, five levels, and every digit of an address.
#[test]
fn digits() {
    let mut program = vec![Nop; 1024];
    program[0] = Br { addr: 0x2CF };
    for level in 0..5 {
        program[0x2CF + 0x10 * level] = Call { addr: 0x2DF + 0x10 * level as u16 };
    }
    program[0x31F] = MovMN { m: 0x7F, n: 0xF };
    let all = text(&program, &[], &[quiet(); 7]);
    assert!(all.ends_with("\n6 30F E31F 31F 5 0\n7 31F EFFF 320 5 F\nEND 7 7 0\n"), "{all}");
}

/// Document 02, E3: `END` has the cycles between steps and refusal. SKT of
/// P0B's bit 3 passes over the MOVT.
#[test]
fn cycles() {
    let program = [Skt { m: 0x71, n: 8 }, Movt, Br { addr: 0 }];
    let skips = Input { pins: [0, 8, 0, 0, 0], ..quiet() };
    let inputs = [quiet(), quiet(), quiet(), skips, skips, skips];
    let wanted = "SHEET NONE\n\
        1 000 F718 001 0 0\n\
        2 001 3810 002 0 0\n\
        3 002 6000 000 0 0\n\
        4 000 F718 001 0 0\n\
        5 001 3810 002 0 0\n\
        6 002 6000 000 0 0\n\
        END 6 7 0\n";
    assert_eq!(text(&program, &[], &inputs), wanted);
}

/// The last line with a refused MOVT, in standby, and at its longest.
#[test]
fn cycles_at_the_end() {
    let end = |program: &[Instruction], records: usize| {
        let all = text(program, &[], &vec![quiet(); records]);
        all.lines().last().expect("a last line").to_string()
    };
    assert_eq!(end(&[Movt, mov(AR0, 3), Movt], 5), "END 2 3 8");
    assert_eq!(end(&[Movt, PushAr, PushAr, PushAr, PushAr, PushAr, Movt], 9), "END 6 7 6");
    assert_eq!(end(&[Movt, Movt], 9), "END 2 4 2");
    assert_eq!(end(&[Movt, Halt { cond: 0 }], 9), "END 2 3 0");
    assert_eq!(end(&[Movt; 1024], 4095), "END 4095 8190 0");
}

/// Document 02, E4: HALT's standing records move the timer, so that GET finds 1
/// and the ADD carries, and are not counted; STOP's do not.
#[test]
fn standing_records_and_the_timer() {
    let released = Input { release: 1, ..quiet() };
    let mut inputs = vec![quiet(); 16];
    inputs.extend([released; 2]);
    let counted = [Get { p: 2 }, AddMN { m: 0x0F, n: 0xF }];
    let all = text(&[Halt { cond: 0 }, counted[0], counted[1]], &[], &inputs);
    assert!(all.contains("\n16 001 ---- 001 0 0\n17 001 38B2 002 0 0\n"), "{all}");
    assert!(all.ends_with("\n18 002 80FF 003 0 6\nEND 3 3 0\n"), "{all}");
    let all = text(&[Stop { cond: 0 }, counted[0], counted[1]], &[], &inputs);
    assert!(all.ends_with("\n18 002 80FF 003 0 0\nEND 3 3 0\n"), "{all}");
}

/// With a station file the pulse bit is 0: the INT clock never counts.
#[test]
fn no_pulse_in_a_file() {
    let program = [
        mov(0x78, 0xB),
        Poke { rf: 0x11 },
        Get { p: 2 },
        AddMN { m: 0x0F, n: 0xF },
        Br { addr: 2 },
    ];
    let all = text(&program, &[0; 5], &[quiet(); 200]);
    assert!(all.starts_with("SHEET PASS\n1 000 EF8B 001 0 0\n2 001 3921 002 0 0\n"), "{all}");
    assert!(all.lines().skip(1).take(200).all(|line| line.ends_with(" 0 0")), "{all}");
    // fx/32 instead does count.
    let program = [mov(0x78, 0x9), program[1], program[2], program[3], program[4]];
    assert!(text(&program, &[0; 5], &[quiet(); 200]).contains(" 80FF 004 0 4\n"));
}
