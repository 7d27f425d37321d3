//! The models: document 02, E1; source 000, 1.1, 3.3 and chapter 4. The refusal
//! of missing cells is in `missing`.

use crate::kit::*;
use reference::sheet::of_levels;
use reference::Instruction::{self, *};
use reference::Model::{self, Upd17120, Upd17132};
use reference::{encode, station, transcript};
use reference::{Answer, Count, Input, Machine, Report, Station, Verdict};

const NEVER: u8 = 15;

fn fail(word: u16, rule: u8) -> Verdict {
    Verdict::Fail { word, rule }
}

/// The check for the 17120 with a sheet of single levels.
fn checked(rom: &[u16], levels: &[u8]) -> Verdict {
    reference::verify(Upd17120, rom, &of_levels(levels))
}

/// One step on the 17120.
fn small(rom: &[u16], machine: &mut Machine) -> Answer {
    reference::step(Upd17120, rom, machine, &quiet(), 0)
}

fn nops(words: usize) -> Vec<u16> {
    vec![encode(Nop).unwrap(); words]
}

fn refused(rom: &[u16], machine: &Machine, input: &Input, pulse: u8, number: u8) {
    let mut after = machine.clone();
    let answer = reference::step(Upd17120, rom, &mut after, input, pulse);
    assert_eq!(answer, Answer::Refused(number));
    assert_eq!(&after, machine);
    let report = reference::run(Upd17120, rom, &mut after, input, pulse, 5);
    assert_eq!(report, Report { count: Count::default(), refusal: number });
    assert_eq!(&after, machine);
}

#[test]
fn numbers() {
    assert_eq!(Model::of_number(0), Ok(Upd17132));
    assert_eq!(Model::of_number(1), Ok(Upd17120));
    for number in 2..=255 {
        assert_eq!(Model::of_number(number), Err(1));
    }
    assert_eq!(Model::ALL.map(Model::number), [0, 1]);
    assert_eq!(Model::ALL.map(Model::rom_words), [1024, 768]);
    assert_eq!(Machine::reset(Upd17120), Machine::reset(Upd17132));
}

/// 64 nibbles of RAM and 111 (000, 1.1); ports and registers are the same.
#[test]
fn installed_cells() {
    for address in 0..128 {
        assert!(!Upd17132.lacks(address));
        assert_eq!(Upd17120.lacks(address), (0x40..=0x6E).contains(&address));
    }
    assert_eq!((0..0x6F).filter(|&address| !Upd17120.lacks(address)).count(), 64);
    for (address, (all, some)) in (0..).zip(Upd17132.writable().iter().zip(Upd17120.writable())) {
        assert_eq!(*some, if Upd17120.lacks(address) { 0 } else { *all });
    }
}

/// Refusal 1: each missing cell with each value but 0; the same record is in
/// range for the 17132 up to 15.
#[test]
fn one_for_each_missing_cell() {
    for address in 0x40..=0x6E {
        for value in 0..=255 {
            let mut machine = cells(&[(address, value)]);
            assert_eq!(machine.in_range(Upd17120), value == 0);
            assert_eq!(machine.in_range(Upd17132), value <= 15);
            if value == 0 {
                continue;
            }
            // 1 comes before 2, before 31 and before the marks.
            refused(&nops(1), &machine, &quiet(), 0, 1);
            refused(&rom(&[mov(address, 1)]), &machine, &quiet(), 0, 1);
            (machine.pc, machine.skip, machine.standby) = (900, 1, Machine::HALT);
            refused(&nops(1), &machine, &quiet(), 0, 1);
        }
    }
    // The neighbours are installed.
    for (address, value) in [(0x3F, 15), (0x6F, 3)] {
        let mut machine = cells(&[(address, value)]);
        assert_eq!(small(&nops(1), &mut machine), Answer::Done);
    }
}

#[test]
fn one_for_the_rom() {
    for words in [769, 770, 1023, 1024, 1025, 65_536 + 768] {
        refused(&nops(words), &reset(), &quiet(), 0, 1);
        let verdict = checked(&nops(words), &vec![0; words]);
        assert_eq!(verdict, Verdict::Refused(1));
        // Before 9.
        assert_eq!(checked(&nops(words), &[0]), Verdict::Refused(1));
    }
    refused(&[], &reset(), &quiet(), 0, 1);
    for words in [1, 767, 768] {
        assert_eq!(small(&nops(words), &mut reset()), Answer::Done);
    }
    let report = reference::run(Upd17120, &nops(769), &mut reset(), &quiet(), 0, 0);
    assert_eq!(report, Report { count: Count::default(), refusal: 1 });
}

/// PC has ten bits: 768 to 1,023 is in range and meets 2, a stacked address
/// too; next of 767 is 768.
#[test]
fn two_past_the_rom() {
    for pc in [768, 769, 1000, 1023] {
        let mut machine = Machine { pc, ..reset() };
        assert!(machine.in_range(Upd17120));
        refused(&nops(768), &machine, &quiet(), 0, 2);
        machine.skip = 1;
        refused(&nops(768), &machine, &quiet(), 0, 2);
        machine.standby = Machine::STOP;
        let stood = machine.clone();
        assert_eq!(small(&nops(768), &mut machine), Answer::Standby);
        assert_eq!(machine, stood);
        refused(&nops(768), &machine, &Input { release: 1, ..quiet() }, 0, 2);
        refused(&nops(768), &Machine { pc: 1024, ..reset() }, &quiet(), 0, 1);

        let mut machine = reset();
        (machine.levels, machine.stack[0]) = (1, pc);
        let mut program = nops(768);
        program[0] = encode(Ret).unwrap();
        assert_eq!(small(&program, &mut machine), Answer::Done);
        assert_eq!(machine.pc, pc);
        refused(&program, &machine, &quiet(), 0, 2);
    }
    for skip in [0, 1] {
        let mut machine = Machine { pc: 767, skip, ..reset() };
        assert_eq!(small(&nops(768), &mut machine), Answer::Done);
        assert_eq!(machine.pc, 768);
        refused(&nops(768), &machine, &quiet(), 0, 2);
    }
    let mut machine = Machine { pc: 767, ..reset() };
    let report = reference::run(Upd17120, &nops(768), &mut machine, &quiet(), 0, 9);
    assert_eq!(report, Report { count: Count { steps: 1, cycles: 1 }, refusal: 2 });
}

/// BR and CALL to 768 and more are done, and the next step meets 2; 5 starts at
/// 1,024. CALL at 767 stacks 768.
#[test]
fn five_for_the_address() {
    for addr in [768, 1000, 1023] {
        for i in [Br { addr }, Call { addr }] {
            let mut machine = reset();
            assert_eq!(small(&rom(&[i]), &mut machine), Answer::Done);
            assert_eq!(machine.pc, addr);
            refused(&rom(&[i]), &machine, &quiet(), 0, 2);
        }
    }
    for addr in [1024, 2047] {
        refused(&rom(&[Br { addr }]), &reset(), &quiet(), 0, 5);
        refused(&rom(&[Call { addr }]), &reset(), &quiet(), 0, 5);
    }
    let mut program = nops(768);
    program[767] = encode(Call { addr: 5 }).unwrap();
    let mut machine = Machine { pc: 767, ..reset() };
    assert_eq!(small(&program, &mut machine), Answer::Done);
    assert_eq!((machine.pc, machine.levels, machine.stack[0]), (5, 1, 768));
}

/// AR has ten bits; MOVT past the ROM is 8.
#[test]
fn table_reference() {
    let mut program = nops(768);
    program[0] = encode(Movt).unwrap();
    program[767] = 0xABCD;
    let mut machine = cells(&[(AR2, 2), (AR1, 15), (AR0, 15)]);
    assert_eq!(small(&program, &mut machine), Answer::Done);
    assert_eq!(machine.cells[0x0C..0x10], [0xA, 0xB, 0xC, 0xD]);
    refused(&program, &cells(&[(AR2, 3)]), &quiet(), 0, 8);
    let m = cells(&[(AR2, 3), (AR1, 15), (AR0, 15)]);
    refused(&program, &m, &quiet(), 0, 8);
    let mut machine = cells(&[(AR2, 2), (AR1, 15), (AR0, 15)]);
    assert_eq!(small(&rom(&[IncAr]), &mut machine), Answer::Done);
    assert_eq!((at(&machine, AR2), at(&machine, AR1), at(&machine, AR0)), (3, 0, 0));
}

/// 31 comes after 1 and 2; no other refusal of a word can meet it.
#[test]
fn thirty_one_after_the_others() {
    let program = rom(&[mov(0x40, 1), SubMN { m: 0x6E, n: 1 }]);
    refused(&program, &reset(), &quiet(), 0, 31);
    refused(&program, &reset(), &quiet(), 2, 1);
    refused(&program, &reset(), &Input { release: 2, ..quiet() }, 0, 1);
    refused(&program, &Machine { pc: 2, ..reset() }, &quiet(), 0, 2);
    // What the step would have cleared or moved: CMP, the timer, the mark.
    let mut machine = cells(&[(PSW, CMP | CY | Z)]);
    machine.peripherals.divider = 127;
    refused(&program, &machine, &quiet(), 1, 31);
    refused(&rom(&[Skt { m: 0x50, n: 0 }]), &machine, &quiet(), 1, 31);
    machine.standby = Machine::HALT;
    refused(&program, &machine, &Input { release: 1, ..quiet() }, 1, 31);
}

/// A skipped word meets only 1 and 2, a standing step only 1.
#[test]
fn skipped_and_standing() {
    for i in [mov(0x40, 1), Peek { rf: 0x50 }, Skt { m: 0x6E, n: 0 }, MovTo { r: 0, m: 0x60 }] {
        let mut machine = Machine { skip: 1, ..reset() };
        assert_eq!(small(&rom(&[i]), &mut machine), Answer::Done);
        assert_eq!((machine.pc, machine.skip), (1, 0));
        for standby in [Machine::HALT, Machine::STOP] {
            let mut machine = Machine { standby, ..reset() };
            assert_eq!(small(&rom(&[i]), &mut machine), Answer::Standby);
            let report = reference::run(Upd17120, &rom(&[i]), &mut machine, &quiet(), 0, 9);
            assert_eq!(report, Report { count: Count::default(), refusal: 0 });
        }
    }
}

/// A refused run keeps its completed steps.
#[test]
fn a_run_up_to_a_missing_cell() {
    let program = rom(&[mov(0x3F, 7), Movt, mov(IXM, 4), set(IXE), AddMN { m: 0x00, n: 1 }]);
    let mut machine = reset();
    let report = reference::run(Upd17120, &program, &mut machine, &quiet(), 0, 100);
    assert_eq!(report, Report { count: Count { steps: 4, cycles: 5 }, refusal: 31 });
    let mut wanted = pass(reset(), &[mov(0x3F, 7), Movt, mov(IXM, 4), set(IXE)]);
    wanted.cells[0x0C..0x10].copy_from_slice(&machine.cells[0x0C..0x10]);
    assert_eq!(machine, wanted);
    refused(&program, &machine, &quiet(), 0, 31);
}

/// The check: next of 767 is 768, which is no word.
#[test]
fn checks_at_the_last_word() {
    let check = |program: &[u16]| checked(program, &vec![0; program.len()]);
    let with_last = |i: Instruction| {
        let mut program = nops(768);
        program[767] = encode(i).unwrap();
        program
    };
    assert_eq!(check(&nops(768)), fail(767, 4));
    assert_eq!(check(&with_last(Br { addr: 0 })), Verdict::Pass);
    for addr in [768, 1000, 1023, 1024] {
        assert_eq!(check(&with_last(Br { addr })), fail(767, 4));
    }
    // A skip at 766 names 768, a CALL at 767 too.
    let mut program = with_last(Br { addr: 0 });
    program[766] = encode(Ske { m: 0x10, n: 1 }).unwrap();
    assert_eq!(check(&program), fail(766, 4));
    assert_eq!(check(&with_last(Call { addr: 0 })), fail(767, 4));
    // The 17132 goes on with 768 words as the 17120 does.
    assert_eq!(verify(&nops(768), &[0; 768]), fail(767, 4));
}

#[test]
fn checks_of_calls() {
    let program = rom(&[Call { addr: 3 }, Br { addr: 1 }, Nop, Ret]);
    let verdict = checked(&program, &[0, 0, NEVER, 1]);
    assert_eq!(verdict, Verdict::Pass);
    for addr in [768, 1023] {
        let program = rom(&[Call { addr }, Br { addr: 1 }]);
        assert_eq!(checked(&program, &[0, 0]), fail(0, 5));
    }
    // A RETSK's level at 766: the word after next is 768.
    let mut program = nops(768);
    program[0] = encode(Br { addr: 766 }).unwrap();
    program[1] = encode(Retsk).unwrap();
    program[766] = encode(Call { addr: 1 }).unwrap();
    program[767] = encode(Br { addr: 0 }).unwrap();
    let mut depths = vec![NEVER; 768];
    (depths[0], depths[1], depths[766], depths[767]) = (0, 1, 0, 0);
    assert_eq!(checked(&program, &depths), fail(766, 5));
}

/// Rule 3's MOVT needs 1,024 words, which no ROM of the 17120 has.
#[test]
fn checks_of_table_references() {
    for words in [2, 767, 768] {
        let mut program = nops(words);
        program[0] = encode(Movt).unwrap();
        program[words - 1] = encode(Br { addr: 0 }).unwrap();
        let verdict = checked(&program, &vec![0; words]);
        assert_eq!(verdict, fail(0, 3));
    }
}

/// A missing operand breaks no rule; refusal 30 still does.
#[test]
fn checks_of_missing_operands() {
    let stay = Br { addr: 0 };
    for m in 0x40..=0x6E {
        for i in [mov(m, 1), Peek { rf: m }, Poke { rf: m }, Ld { r: 0, m }, MovTo { r: 0, m }] {
            let verdict = checked(&rom(&[i, stay]), &[0, 0]);
            assert_eq!(verdict, Verdict::Pass);
        }
    }
    for i in [Peek { rf: 0x3F }, Poke { rf: 0 }, Get { p: 3 }] {
        assert_eq!(checked(&rom(&[i, stay]), &[0, 0]), fail(0, 3));
    }
}

/// Station files stay those of the 17132.
#[test]
fn files_of_the_17132() {
    let mut rom = nops(1024);
    rom[..2]
        .copy_from_slice(&[encode(mov(0x40, 5)).unwrap(), encode(Ld { r: 0, m: 0x40 }).unwrap()]);
    let station = Station { rom, sheet: vec![0; 2048], inputs: vec![quiet(); 2] };
    let file = station::write(&station).expect("a good station");
    assert_eq!(station::read(&file), Ok(station));
    let text = "SHEET PASS\n1 000 EC05 001 0 0\n2 001 4400 002 0 0\nEND 2 2 0\n";
    assert_eq!(transcript(&file), text);
}
