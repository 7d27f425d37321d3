//! Each deliberate fault shows itself in at least one small case, and is
//! gone again with fault 0. One test, because the switch is one for all.

#![cfg(feature = "faults")]

use reference::fault::*;
use reference::sheet::of_levels;
use reference::Instruction::{self, *};
use reference::{decode, encode, station, transcript};
use reference::{Answer, Input, Machine, Model, Peripherals, Report, Station, Verdict};

const PSW: u8 = Machine::PSW;

/// The model of every case that names none.
const MODEL: Model = Model::Upd17132;

fn step(rom: &[u16], machine: &mut Machine, input: &Input, pulse: u8) -> Answer {
    reference::step(MODEL, rom, machine, input, pulse)
}

fn run(rom: &[u16], machine: &mut Machine, input: &Input, pulse: u8, budget: u32) -> Report {
    reference::run(MODEL, rom, machine, input, pulse, budget)
}

/// The check with a sheet of single levels.
fn verify(rom: &[u16], levels: &[u8]) -> Verdict {
    reference::verify(MODEL, rom, &of_levels(levels))
}

fn word(i: Instruction) -> u16 {
    encode(i).expect("operands fit")
}

fn rom(program: &[Instruction]) -> Vec<u16> {
    program.iter().map(|&i| word(i)).collect()
}

/// What one step makes of a machine with these cells and this input.
fn one(input: Input, cells: &[(u8, u8)], i: Instruction) -> String {
    let mut machine = Machine::reset(MODEL);
    for &(address, value) in cells {
        machine.cells[usize::from(address)] = value;
    }
    let answer = step(&[word(i)], &mut machine, &input, 0);
    format!("{answer:?} {machine:?}")
}

fn quiet(cells: &[(u8, u8)], i: Instruction) -> String {
    one(Input::default(), cells, i)
}

/// What one step makes of a machine that `change` sets up.
fn changed(change: fn(&mut Machine), release: u8, words: &[u16]) -> String {
    let mut machine = Machine::reset(MODEL);
    change(&mut machine);
    let input = Input { release, ..Input::default() };
    let answer = step(words, &mut machine, &input, 0);
    format!("{answer:?} {machine:?}")
}

/// What one step makes of a machine with these cells and these peripherals.
fn timed(pulse: u8, cells: &[(u8, u8)], peripherals: Peripherals, i: Instruction) -> String {
    let mut machine = Machine { peripherals, ..Machine::reset(MODEL) };
    for &(address, value) in cells {
        machine.cells[usize::from(address)] = value;
    }
    let answer = step(&[word(i)], &mut machine, &Input::default(), pulse);
    format!("{answer:?} {machine:?}")
}

/// A timer with this mode, modulo register, counter and divider.
fn timer(mode: u8, modulo: u8, counter: u8, divider: u8) -> Peripherals {
    Peripherals { registers: [mode, 0, 0, 0, 0, 0, 0], modulo, counter, divider }
}

/// What one step makes of all pins high, all latches low and this register set.
fn port(place: usize, value: u8, i: Instruction) -> String {
    let mut machine = Machine::reset(MODEL);
    machine.peripherals.registers[place] = value;
    let answer = step(&[word(i)], &mut machine, &Input { pins: [15; 5], ..Input::default() }, 0);
    format!("{answer:?} {machine:?}")
}

/// What a run makes of a machine in standby.
fn stood(standby: u8, budget: u32) -> String {
    let mut machine = Machine { standby, ..Machine::reset(MODEL) };
    let report = run(&[word(Nop)], &mut machine, &Input::default(), 0, budget);
    format!("{report:?} {machine:?}")
}

/// What one step makes of a 17120 that `change` sets up, and a run.
fn small(change: fn(&mut Machine), pulse: u8, words: &[u16]) -> String {
    let mut machine = Machine::reset(Model::Upd17120);
    change(&mut machine);
    let (mut other, input) = (machine.clone(), Input::default());
    let answer = reference::step(Model::Upd17120, words, &mut machine, &input, pulse);
    let report = reference::run(Model::Upd17120, words, &mut other, &input, pulse, 2);
    format!("{answer:?} {machine:?} {report:?} {other:?}")
}

/// What the 17120 makes of one instruction with these cells.
fn tiny(cells: &[(u8, u8)], i: Instruction) -> String {
    let mut machine = Machine::reset(Model::Upd17120);
    for &(address, value) in cells {
        machine.cells[usize::from(address)] = value;
    }
    let answer = reference::step(Model::Upd17120, &[word(i)], &mut machine, &Input::default(), 0);
    format!("{answer:?} {machine:?}")
}

/// The check of so many words for the 17120, all at level 0: NOPs with this last
/// word.
fn judged(words: usize, last: Instruction) -> String {
    let mut rom = vec![word(Nop); words];
    rom[words - 1] = word(last);
    format!("{:?}", reference::verify(Model::Upd17120, &rom, &vec![0; 2 * words]))
}

/// What a run from reset reports.
fn ran(program: &[Instruction], budget: u32) -> String {
    format!("{:?}", run(&rom(program), &mut Machine::reset(MODEL), &Input::default(), 0, budget))
}

fn full(machine: &mut Machine) {
    machine.levels = 5;
    machine.stack = [9; 5];
}

/// A case for each fault.
fn witness(fault: u32) -> String {
    let ports = |pin, direction| Input { pins: [pin; 5], directions: [direction; 5], release: 0 };
    match fault {
        IX_IN_R => quiet(&[(0x7C, 4), (0x06, 7), (PSW, 1)], Ld { r: 1, m: 2 }),
        IX_IN_COLUMN => quiet(&[(0x7C, 4), (0x06, 7), (PSW, 1)], MovTo { r: 1, m: 2 }),
        DECIMAL_NO_BORROW => quiet(&[(0x7E, 1)], SubMN { m: 0x10, n: 10 }),
        SKIPPED_DECODED => changed(|m| m.skip = 1, 0, &[0x7000]),
        BRANCH_MASKED => quiet(&[], Br { addr: 1024 }),
        P0E_HIGH_PINS => one(ports(0xF, 0), &[], Ld { r: 1, m: 0x6F }),
        DIRECTION_INVERTED => one(ports(0xF, 0), &[], Ld { r: 1, m: 0x70 }),
        COMPARE_STORES => quiet(&[(PSW, 8)], AddMN { m: 0x10, n: 1 }),
        COMPARE_SETS_Z => quiet(&[(PSW, 8)], AddMN { m: 0x10, n: 0 }),
        INC_IX_CLEARS_MPE => quiet(&[(0x7A, 8)], IncIx),
        MOVT_WITHOUT_LEVEL => changed(full, 0, &[word(Movt)]),
        STANDBY_COUNTED | STANDBY_CYCLE => {
            let mut machine = Machine::reset(MODEL);
            machine.standby = 1;
            format!("{:?}", run(&[word(Nop)], &mut machine, &Input::default(), 0, 5))
        }
        RETSK_NO_SKIP => changed(|m| m.levels = 1, 0, &[word(Retsk)]),
        CHECK_NO_RETSK_CLAUSE => {
            let program = [Call { addr: 3 }, Br { addr: 1 }, Nop, Retsk];
            format!("{:?}", verify(&rom(&program), &[0, 0, 15, 1]))
        }
        STACK_NOT_CLEARED => changed(|m| (m.levels, m.stack[0]) = (1, 9), 0, &[word(Ret)]),
        PSW_FLAGS_AFTER_STORE => quiet(&[], AddMN { m: PSW, n: 4 }),
        ZERO_OF_STORED => quiet(&[], AddMN { m: 0x74, n: 1 }),
        RORC_PSW_CARRY => quiet(&[(0x7E, 14), (PSW, 1)], Rorc { r: 15 }),
        MPE_ONLY_WITHOUT_IXE => {
            quiet(&[(0x7A, 8), (0x7B, 1), (0x30, 7), (PSW, 1)], MovTo { r: 1, m: 0x20 })
        }
        LEVEL_BEFORE_ADDRESS => changed(full, 0, &[word(Call { addr: 1024 })]),
        TEST_KEEPS_CMP => quiet(&[(PSW, 8)], Skt { m: 0x10, n: 1 }),
        RELEASE_LOST => changed(|m| m.standby = 1, 1, &[0x7000]),
        WRAP_AT_ROM_END => quiet(&[], Nop),
        CHECK_ODD_ENTRY => format!("{:?}", verify(&rom(&[Br { addr: 0 }, Nop]), &[0, 7])),
        SHORT_BEFORE_RANGE => {
            format!("{:?}", station::read(&[0, 1, 0, 2, 0, 0, 0, 0, 0, 2, 9]))
        }
        R_PAST_PORT => one(ports(5, 0), &[(0x7E, 14)], St { m: 0x10, r: 0 }),
        GROUP_ANY_ROW => format!("{:?}", decode(word(IncIx) | 0x100)),
        ENCODER_MASKS => format!("{:?}", encode(Br { addr: 2048 })),
        CLOSED_NOT_TESTED => changed(|m| m.stack[4] = 9, 0, &[word(Nop)]),
        COUNTS_BEFORE_ENTRIES => {
            let inputs = vec![Input::default(); 4096];
            format!("{:?}", station::write(&Station { rom: vec![0], sheet: vec![9; 2], inputs }))
        }
        EXCESS_BEFORE_RANGE => {
            let mut file = vec![0, 1, 0, 1, 0, 0, 0, 0, 0, 1, 16];
            file.resize(22, 0);
            format!("{:?}", station::read(&file))
        }
        SKIPS_EXCHANGED => format!("{:?}", decode(0xC800)),
        SIX_LEVELS => changed(|m| m.levels = 6, 0, &[word(Nop)]),
        SKIP_OF_TWO => changed(|m| m.skip = 2, 0, &[word(Nop)]),
        STANDBY_OF_THREE => changed(|m| m.standby = 3, 0, &[word(Nop)]),
        PC_PAST_LAST => changed(|m| m.pc = 1024, 0, &[word(Nop)]),
        RELEASE_OF_TWO => changed(|_| (), 2, &[word(Nop)]),
        ROM_ONE_MORE => changed(|_| (), 0, &[word(Nop); 1025]),
        BUDGET_ONE_MORE => ran(&[Nop], 65_536),
        MOVT_ONE_CYCLE => ran(&[Movt], 1),
        SKIPPED_MOVT_TWO => ran(&[Skt { m: 0x10, n: 0 }, Movt], 2),
        SKIPPED_FREE => ran(&[Skt { m: 0x10, n: 0 }, Nop], 2),
        REFUSED_CYCLES => ran(&[Nop, Ret], 2),
        REFUSED_RUN_NO_CYCLES => ran(&[Nop, Ret], 2),
        BUDGET_OF_CYCLES => ran(&[Movt, Nop], 2),
        CYCLES_OF_BUDGET => ran(&[Movt, Halt { cond: 0 }], 5),
        CYCLES_OF_16_BITS => ran(&[Movt, Br { addr: 0 }], 65_535),
        END_EXCHANGED => {
            let station =
                Station { rom: rom(&[Movt]), sheet: vec![], inputs: vec![Input::default()] };
            transcript(&station::write(&station).expect("a good station"))
        }
        _ => peripheral_witness(fault),
    }
}

/// A case for each fault in registers and timer.
fn peripheral_witness(fault: u32) -> String {
    const WR: u8 = Machine::WR;
    let mode = Poke { rf: 0x11 };
    match fault {
        PULSE_BEFORE_WRITES => timed(0, &[], timer(8, 255, 9, 15), Get { p: 2 }),
        TMRES_STORED => timed(0, &[(WR, 12)], timer(8, 255, 9, 3), mode),
        TMRES_CLEARS_DIVIDER => timed(0, &[(WR, 12)], timer(8, 255, 9, 3), mode),
        TMRES_ONLY_RUNNING => timed(0, &[(WR, 4)], timer(8, 255, 9, 3), mode),
        MATCH_AT_EQUALITY => timed(0, &[], timer(8, 10, 9, 15), Nop),
        MATCH_ABOVE => timed(0, &[], timer(8, 10, 12, 15), Nop),
        COUNTER_STUCK => timed(0, &[], timer(8, 10, 10, 15), Nop),
        CLOCKS_EXCHANGED => timed(0, &[], timer(8, 255, 9, 1), Nop),
        DIVIDER_STOPPED => timed(0, &[], timer(0, 255, 9, 1), Nop),
        CLOCK_CHANGE_DIVIDES => timed(0, &[(WR, 9)], timer(8, 255, 9, 4), mode),
        MOVT_DIVIDES_ONE => timed(0, &[], timer(8, 255, 9, 4), Movt),
        MOVT_TWO_PULSES => timed(1, &[], timer(11, 255, 9, 4), Movt),
        PULSE_WITH_ANY_CLOCK => timed(1, &[], timer(8, 255, 9, 4), Nop),
        TIMER_OFF_AT_RESET => quiet(&[], Peek { rf: 0x11 }),
        PUT_RESTARTS => timed(0, &[], timer(8, 255, 9, 4), Put { p: 3 }),
        PUT_COUNTER => timed(0, &[], timer(8, 255, 9, 4), Put { p: 2 }),
        GET_MODULO => timed(0, &[], timer(8, 255, 9, 4), Get { p: 3 }),
        GET_WHOLE_BUFFER => quiet(&[(0x0C, 5)], Get { p: 2 }),
        IX_IN_RF => quiet(&[(0x7C, 5), (0x45, 6), (PSW, 1)], Peek { rf: 0x40 }),
        PEEK_PAST_PORT => port(6, 0, Peek { rf: 0x70 }),
        GROUP_BY_BITS => port(2, 1, Ld { r: 1, m: 0x71 }),
        TMOSEL_IGNORED => port(1, 1, Ld { r: 1, m: 0x73 }),
        DIRECTIONS_OF_INPUT => port(6, 15, Ld { r: 1, m: 0x70 }),
        SKIPPED_MEETS_30 => changed(|m| m.skip = 1, 0, &[word(Peek { rf: 0 })]),
        REFUSED_MOVES_TIMER => quiet(&[], Ei),
        HALT_COUNTED => stood(Machine::HALT, 5),
        HALT_FOR_BUDGET => stood(Machine::HALT, 5),
        BUDGET_0_STANDS => stood(Machine::HALT, 0),
        STOP_MOVES_TIMER => stood(Machine::STOP, 5),
        STOP_CLEARS_COUNTER => timed(0, &[], timer(8, 255, 9, 4), Stop { cond: 0 }),
        TMRES_IN_RANGE => timed(0, &[], timer(12, 255, 9, 4), Nop),
        DIVIDER_OF_128 => timed(0, &[], timer(8, 255, 9, 128), Nop),
        PULSE_OF_TWO => timed(2, &[], timer(8, 255, 9, 4), Nop),
        CHECK_BANS_FOUR => format!("{:?}", verify(&rom(&[mode, Br { addr: 0 }]), &[0, 0])),
        CHECK_WITHOUT_30 => {
            format!("{:?}", verify(&rom(&[Put { p: 2 }, Br { addr: 0 }]), &[0, 0]))
        }
        _ => model_witness(fault),
    }
}

/// A case for each fault in the models.
fn model_witness(fault: u32) -> String {
    let missing = MovMN { m: 0x40, n: 1 };
    match fault {
        POINTER_NOT_TESTED => tiny(&[(0x7E, 8)], MovTo { r: 1, m: 0x20 }),
        TESTED_IN_ROW_OF_M => tiny(&[(0x7A, 8), (0x7B, 4)], MovTo { r: 1, m: 0x20 }),
        TESTED_BEFORE_IX => tiny(&[(0x7B, 4), (PSW, 1)], SubMN { m: 0x20, n: 1 }),
        COMPARE_NOT_TESTED => tiny(&[(PSW, 8)], SubMN { m: 0x40, n: 1 }),
        EMPTY_TEST_NOT_TESTED => tiny(&[], Skt { m: 0x40, n: 0 }),
        RORC_NOT_TESTED => tiny(&[(0x7E, 8)], Rorc { r: 1 }),
        WRITE_LOST => tiny(&[], missing),
        PEEK_READS_0 => tiny(&[], Peek { rf: 0x40 }),
        POKE_LOST => tiny(&[], Poke { rf: 0x40 }),
        FILE_CELL_MEETS_30 => tiny(&[], Peek { rf: 0x40 }),
        P0E_MISSING => tiny(&[], MovMN { m: 0x6F, n: 1 }),
        MISSING_ON_17132 => quiet(&[], missing),
        REFUSED_TEST_CLEARS_CMP => tiny(&[(PSW, 8)], Skt { m: 0x40, n: 1 }),
        REFUSED_31_MOVES_PC => tiny(&[], missing),
        RUN_UNDONE_BY_31 => small(|_| (), 0, &rom(&[Nop, missing])),
        SKIPPED_MEETS_31 => small(|m| m.skip = 1, 0, &[word(missing)]),
        STANDING_MEETS_31 => small(|m| m.standby = 1, 0, &[word(missing)]),
        MISSING_BEFORE_RANGE => small(|_| (), 2, &[word(missing)]),
        MISSING_NOT_0 => small(|m| m.cells[0x40] = 1, 0, &[word(Nop)]),
        MISSING_NOT_0_MEETS_31 => small(|m| m.cells[0x40] = 1, 0, &[word(Nop)]),
        ROM_OF_769 => small(|_| (), 0, &[word(Nop); 769]),
        PC_OF_ROM => small(|m| m.pc = 768, 0, &[word(Nop); 768]),
        STACK_OF_ROM => small(|m| (m.levels, m.stack[0]) = (1, 768), 0, &[word(Nop)]),
        READS_PAST_ROM => small(|m| m.pc = 768, 0, &[word(Nop); 768]),
        ADDRESS_OF_ROM => tiny(&[], Br { addr: 768 }),
        WRAP_AT_768 => small(|m| m.pc = 767, 0, &[word(Nop); 768]),
        CHECK_WRAPS_AT_768 => judged(768, Nop),
        CHECK_OF_17132 => judged(769, Br { addr: 0 }),
        CHECK_MOVT_OF_ROM => judged(768, Movt),
        CHECK_BANS_MISSING => judged(2, Peek { rf: 0x40 }),
        MODEL_BY_LOW_BIT => format!("{:?}", Model::of_number(2)),
        _ => range_witness(fault),
    }
}

/// The check of a program with its sheet.
fn ranged(program: &[Instruction], sheet: &[[u8; 2]]) -> String {
    format!("{:?}", reference::verify(MODEL, &rom(program), sheet.as_flattened()))
}

/// The check of 1,024 words, the second of them this one and the third to stay
/// there, both with this entry; the others stay at word 0.
fn table(second: Instruction, entry: [u8; 2]) -> String {
    let mut program = vec![Br { addr: 0 }; 1024];
    (program[1], program[2]) = (second, Br { addr: 2 });
    let mut sheet = vec![[0, 0]; 1024];
    sheet[1..3].fill(entry);
    ranged(&program, &sheet)
}

/// What the reader makes of a file of one word with these last bytes.
fn file(form: u8, sheet: &[u8]) -> String {
    format!("{:?}", station::read(&[&[0, form, 0, 1, 0, 0], sheet].concat()))
}

/// What the writer makes of two words with this sheet.
fn written(sheet: &[u8]) -> String {
    let station = Station { rom: vec![0; 2], sheet: sheet.to_vec(), inputs: vec![] };
    format!("{:?}", station::write(&station))
}

/// A case for each fault in the check of ranges.
fn range_witness(fault: u32) -> String {
    const NEVER: [u8; 2] = [15; 2];
    let here = Br { addr: 0 };
    // Words 0 and 1 at level 0 go on at 2; a CALL of the last word stands there.
    let called = |last| [here, here, Call { addr: 5 }, Br { addr: 3 }, Br { addr: 4 }, last];
    let ranges = |call, after, last| [[0, 0], [0, 0], call, call, after, last];
    match fault {
        CHECK_BYTE_A_WORD => ranged(&[here], &[[0, 0]]),
        CHECK_ODD_LENGTH => format!("{:?}", reference::verify(MODEL, &rom(&[here]), &[0; 3])),
        CHECK_HOLDS_INVERTED => ranged(&[Br { addr: 1 }, Br { addr: 1 }], &[[0, 0], [0, 1]]),
        CHECK_SAME_RANGE => ranged(&[Br { addr: 1 }, Br { addr: 1 }], &[[0, 0], [0, 1]]),
        CHECK_START_OF_0_ALONE => ranged(&[here], &[[0, 1]]),
        CHECK_ODD_START => ranged(&[here], &[[0, 9]]),
        CHECK_HALF_NEVER => ranged(&[here, here], &[[0, 0], [0, 15]]),
        CHECK_TURNED_RANGE => ranged(&[here, here], &[[0, 0], [1, 0]]),
        CHECK_ODD_HOLDS => ranged(&[Br { addr: 1 }, here], &[[0, 0], [0, 9]]),
        CHECK_ODD_RETSK => ranged(
            &[here, here, Call { addr: 5 }, Br { addr: 3 }, Retsk, Ret],
            &ranges([0, 0], [1, 9], [1, 1]),
        ),
        CHECK_LOWEST_RAISED => ranged(&called(Ret), &ranges([0, 1], NEVER, [1, 1])),
        CHECK_HIGHEST_RAISED => ranged(&called(Ret), &ranges([0, 1], NEVER, [1, 2])),
        CHECK_RETSK_AT_LOWEST => ranged(&called(Retsk), &ranges([1, 1], NEVER, [1, 2])),
        CHECK_CALLED_AT_LOWEST => ranged(
            &[here, here, Call { addr: 5 }, Br { addr: 3 }, Retsk, Ret],
            &ranges([0, 1], [2, 2], [1, 2]),
        ),
        CHECK_SHARED_ALONE => ranged(
            &[here, here, Call { addr: 6 }, Br { addr: 3 }, Br { addr: 4 }, Retsk, Ret],
            &[[0, 0], [0, 0], [0, 1], [0, 1], [1, 1], [2, 2], [1, 2]],
        ),
        CHECK_CALL_AT_LOWEST => ranged(&called(Ret), &ranges([4, 5], NEVER, [5, 5])),
        CHECK_MOVT_AT_LOWEST => table(Movt, [4, 5]),
        CHECK_RETURN_AT_HIGHEST => ranged(&[here, Ret], &[[0, 0], [0, 1]]),
        _ => form_witness(fault),
    }
}

/// A case for each fault in the forms of a file.
fn form_witness(fault: u32) -> String {
    match fault {
        FORM_OF_THREE => file(3, &[0, 0, 0, 0]),
        READ_HALF_NEVER => file(2, &[0, 1, 0, 15, 0, 0]),
        READ_TURNED_RANGE => file(2, &[0, 1, 1, 0, 0, 0]),
        CUT_ENTRY_MEETS_23 => file(2, &[0, 1, 0]),
        CUT_NOT_TESTED => file(2, &[0, 1, 6]),
        COUNT_OF_BYTES => file(2, &[0, 1, 0, 1, 0, 0]),
        ROOM_OF_FILE => {
            let (bytes, mut rom, mut sheet) = ([0, 1, 0, 1, 0, 0, 0, 1, 5, 0, 0], [7], [7]);
            format!("{:?}", station::read_into(&bytes, &mut rom, &mut sheet, &mut []))
        }
        WRITE_ODD_LENGTH => written(&[0; 5]),
        FORM_2_ALWAYS => written(&[0; 4]),
        NONE_IN_FORM_2 => written(&[]),
        FORM_BY_FIRST => written(&[0, 0, 0, 1]),
        _ => unreachable!("fault {fault}"),
    }
}

#[test]
fn every_fault_shows() {
    for fault in 1..=LAST {
        set_fault(0);
        let right = witness(fault);
        set_fault(fault);
        let wrong = witness(fault);
        set_fault(0);
        assert_ne!(right, wrong, "fault {fault}");
        assert_eq!(right, witness(fault), "fault {fault}");
    }
}
