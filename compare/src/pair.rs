//! The two emulators side by side: each call goes to both, and a finding
//! tells what differs.

use reference::{Answer, Machine, Model, Peripherals, Report, Verdict};

use crate::board::Board;
use crate::clock;
use crate::findings::{outcome, show_rom, shown};
use crate::host::{self, RunReply, VerdictReply};

pub use crate::findings::{case, difference, place, show, word_at, Finding};

/// The header's numbers for what is no refusal (include/pollwezen.h).
pub const DONE: u8 = 0;
pub const FAIL: u8 = 254;
pub const STANDBY: u8 = 255;

/// Reset in both, which is all zeros but for the timer.
pub fn reset(model: Model) -> Result<Machine, Finding> {
    let (mut proved, second) = (used(), Machine::reset(model));
    let number = host::reset(model.number(), &mut proved);
    if number != DONE {
        return Err(Finding(format!("reset of the {model:?} is refused with {number}\n")));
    }
    if let Some(first) = difference(&proved, &second) {
        return Err(Finding(format!("reset differs\nfirst difference: {first}\n")));
    }
    let Machine { cells, pc, stack, levels, skip, standby, peripherals } = &proved;
    let zeros = cells.iter().chain([levels, skip, standby]).all(|&byte| byte == 0);
    if zeros && *pc == 0 && *stack == [0; 5] && *peripherals == clock::RESET {
        return Ok(proved);
    }
    Err(Finding(format!("both resets are not what the papers tell:\n{}", show(&proved))))
}

/// A record in which no byte is as reset leaves it.
pub fn used() -> Machine {
    let peripherals =
        Peripherals { registers: [0x5A; 7], modulo: 0x5A, counter: 0x5A, divider: 0x5A };
    Machine {
        cells: [0x5A; 128],
        pc: 0x5A5A,
        stack: [0x5A5A; 5],
        levels: 0x5A,
        skip: 0x5A,
        standby: 0x5A,
        peripherals,
    }
}

/// One step in both, on `machine`. Answers the step's number.
pub fn step(rom: &[u16], machine: &mut Machine, board: &Board) -> Result<u8, Finding> {
    let before = machine.clone();
    let mut second = before.clone();
    let Board { model, input, pulse } = *board;
    let number = host::step(model.number(), rom, machine, &input, pulse);
    let answer = number_of(reference::step(model, rom, &mut second, &input, pulse));
    if number == answer && *machine == second {
        return Ok(number);
    }
    let left = outcome(&format!("number {number}"), &format!("number {answer}"), machine, &second);
    Err(Finding(case("step", rom, &before, board) + &left))
}

/// The header's number for what a step answers.
pub fn number_of(answer: Answer) -> u8 {
    match answer {
        Answer::Done => DONE,
        Answer::Standby => STANDBY,
        Answer::Refused(refusal) => refusal,
    }
}

/// A run's report as the header has it.
pub fn reply_of(Report { count, refusal }: Report) -> RunReply {
    RunReply { steps: count.steps, cycles: count.cycles, number: refusal }
}

/// A verdict as the header has it.
pub fn verdict_of(verdict: Verdict) -> VerdictReply {
    match verdict {
        Verdict::Pass => VerdictReply { number: DONE, word: 0, rule: 0 },
        Verdict::Fail { word, rule } => VerdictReply { number: FAIL, word, rule },
        Verdict::Refused(number) => VerdictReply { number, word: 0, rule: 0 },
    }
}

/// One run in both, on `machine`.
pub fn run(
    rom: &[u16],
    machine: &mut Machine,
    board: &Board,
    budget: u32,
) -> Result<RunReply, Finding> {
    let before = machine.clone();
    both_run(rom, machine, board, budget).map_err(|text| {
        let step = odd_step(rom, before, board, budget);
        Finding(format!("{step}{text}{}", show_rom(rom)))
    })
}

/// A run in both; what differs, as text.
fn both_run(
    rom: &[u16],
    machine: &mut Machine,
    board: &Board,
    budget: u32,
) -> Result<RunReply, String> {
    let before = machine.clone();
    let mut second = before.clone();
    let Board { model, input, pulse } = *board;
    let report = host::run(model.number(), rom, machine, &input, pulse, budget);
    let answer = reply_of(reference::run(model, rom, &mut second, &input, pulse, budget));
    if report == answer && *machine == second {
        return Ok(report);
    }
    let given = case(&format!("run of {budget}"), rom, &before, board);
    Err(given + &outcome(&format!("{report:?}"), &format!("{answer:?}"), machine, &second))
}

/// The step of a run in which the two disagree, whole; its cycles are those of
/// a run of one.
fn odd_step(rom: &[u16], mut machine: Machine, board: &Board, budget: u32) -> String {
    for steps in 0..budget {
        let alone = both_run(rom, &mut machine.clone(), board, 1);
        let stepped = step(rom, &mut machine, board).map_err(|Finding(text)| text);
        match stepped.and_then(|number| alone.map(|_| number)) {
            Err(text) => return format!("in a run, after {steps} steps, {text}"),
            Ok(DONE) if machine.standby == 0 => {}
            Ok(_) => break,
        }
    }
    "in a run, though no single step disagrees\n".to_string()
}

/// The check for a model in both.
pub fn verify(model: Model, rom: &[u16], sheet: &[u8]) -> Result<VerdictReply, Finding> {
    let checked = host::verify(model.number(), rom, sheet);
    let answer = verdict_of(reference::verify(model, rom, sheet));
    if checked == answer {
        return Ok(checked);
    }
    Err(Finding(format!(
        "verify for the {model:?}, {} words and {} bytes\n{}sheet: {:?}\n\
         first difference: proved {}, second {}\n",
        rom.len(),
        sheet.len(),
        show_rom(rom),
        shown(sheet),
        named(rom, &checked),
        named(rom, &answer)
    )))
}

/// A verdict with the word that it names.
pub fn named(rom: &[u16], checked: &VerdictReply) -> String {
    match rom.get(usize::from(checked.word)) {
        Some(word) if checked.number == FAIL => format!("{checked:?} ({word:04X})"),
        _ => format!("{checked:?}"),
    }
}
