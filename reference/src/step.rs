//! A single step and a counted run (document 01, "Results" and "Refusal
//! numbers"; document 02, E1 and E4; source 000, chapters 3, 6 and 18).

use crate::count::{cycles, Count};
use crate::execute::following;
use crate::fault::{self, fault};
use crate::isa::{decode, unsupported};
use crate::machine::{rom_in_range, Input, Machine};
use crate::model::Model;
use crate::pace::Pace;
use crate::peripherals::Peripherals;
use crate::register_file::missing;

/// What a step answers.
#[derive(Clone, Copy, Debug, PartialEq, Eq)]
pub enum Answer {
    /// The step is completed.
    Done,
    /// The machine stays in standby: document 01's answer "standing".
    Standby,
    /// Refused with this number; the machine is as it came.
    Refused(u8),
}

/// What a run reports.
#[derive(Clone, Copy, Debug, PartialEq, Eq)]
pub struct Report {
    /// Its completed steps, in a refused run too.
    pub count: Count,
    /// The refusal that ended the run, or 0.
    pub refusal: u8,
}

/// The largest budget of a run.
pub const MAX_BUDGET: u32 = 65_535;

/// One step. `pulse` is the pulse bit of the INT clock.
///
/// Here and in `run` each model has a copy of the work, with the model as a
/// constant: the 17132 then asks for no missing cell.
pub fn step(model: Model, rom: &[u16], machine: &mut Machine, input: &Input, pulse: u8) -> Answer {
    use Model::*;
    let count = &mut Count::default();
    match model {
        Upd17132 => counted_step(Upd17132, rom, machine, input, pulse, count),
        Upd17120 => counted_step(Upd17120, rom, machine, input, pulse, count),
    }
}

/// One step, added to a count.
#[inline(always)]
pub(crate) fn counted_step(
    model: Model,
    rom: &[u16],
    machine: &mut Machine,
    input: &Input,
    pulse: u8,
    count: &mut Count,
) -> Answer {
    if early_31(model, rom, machine, input, pulse) {
        return Answer::Refused(31);
    }
    if !all_in_range(model, rom, machine, input, pulse) {
        return Answer::Refused(1);
    }
    if stays_standing(machine, input) {
        stand(machine, pulse, count);
        return Answer::Standby;
    }
    let stood = machine.standby;
    machine.standby = 0;
    match advance(model, rom, machine, input, pulse, count) {
        Ok(cycles) => {
            machine.peripherals.tick_after_writes(cycles, pulse);
            Answer::Done
        }
        Err(refusal) => {
            put_back(machine, stood);
            Answer::Refused(refusal)
        }
    }
}

/// At most `budget` steps with one input, and a pulse in each if `pulse` is 1.
pub fn run(
    model: Model,
    rom: &[u16],
    machine: &mut Machine,
    input: &Input,
    pulse: u8,
    budget: u32,
) -> Report {
    use Model::*;
    match model {
        Upd17132 => counted_run(Upd17132, rom, machine, input, pulse, budget),
        Upd17120 => counted_run(Upd17120, rom, machine, input, pulse, budget),
    }
}

/// The ranges are tested once: a step keeps the machine in range.
#[inline(always)]
fn counted_run(
    model: Model,
    rom: &[u16],
    machine: &mut Machine,
    input: &Input,
    pulse: u8,
    budget: u32,
) -> Report {
    let most = MAX_BUDGET + u32::from(fault(fault::BUDGET_ONE_MORE));
    let mut count = Count::default();
    if early_31(model, rom, machine, input, pulse) {
        return Report { count, refusal: 31 };
    }
    if budget > most || !all_in_range(model, rom, machine, input, pulse) {
        return Report { count, refusal: 1 };
    }
    if budget == 0 {
        if fault(fault::BUDGET_0_STANDS) && stays_standing(machine, input) {
            stand(machine, pulse, &mut count);
        }
        return Report { count, refusal: 0 };
    }
    if stays_standing(machine, input) {
        stand_in_run(machine, pulse, budget, &mut count);
        return Report { count, refusal: 0 };
    }
    let came = fault(fault::RUN_UNDONE_BY_31).then(|| machine.clone());
    let stood = machine.standby;
    machine.standby = 0;
    let mut pace = Pace::new(&machine.peripherals, pulse);
    while spent(&count) < budget && machine.standby == 0 {
        match advance(model, rom, machine, input, pulse, &mut count) {
            Ok(cycles) => pace.step(&mut machine.peripherals, cycles, pulse),
            Err(refusal) => {
                pace.settle(&mut machine.peripherals);
                if count.steps == 0 {
                    put_back(machine, stood);
                }
                if fault(fault::REFUSED_RUN_NO_CYCLES) {
                    count.cycles = 0;
                }
                if let (31, Some(came)) = (refusal, came) {
                    (*machine, count) = (came, Count::default());
                }
                return Report { count, refusal };
            }
        }
    }
    pace.settle(&mut machine.peripherals);
    if fault(fault::CYCLES_OF_BUDGET) {
        count.cycles += budget - count.steps;
    }
    Report { count, refusal: 0 }
}

/// What a budget counts: steps.
#[inline(always)]
fn spent(count: &Count) -> u32 {
    if fault(fault::BUDGET_OF_CYCLES) {
        return count.cycles;
    }
    count.steps
}

/// Refusal 1 for a step or run, but for the budget.
fn all_in_range(model: Model, rom: &[u16], machine: &Machine, input: &Input, pulse: u8) -> bool {
    let one_more = match model {
        Model::Upd17132 => fault(fault::ROM_ONE_MORE),
        Model::Upd17120 => fault(fault::ROM_OF_769),
    };
    machine.in_range(model)
        && input.in_range()
        && pulse <= 1 + u8::from(fault(fault::PULSE_OF_TWO))
        && (rom_in_range(model, rom) || one_more && rom.len() == model.rom_words() + 1)
}

/// Is a call refused with 31 before its step is taken up? Only by a deliberate
/// fault.
#[inline(always)]
fn early_31(model: Model, rom: &[u16], machine: &Machine, input: &Input, pulse: u8) -> bool {
    let operand = || meets_31(model, rom, machine, input);
    let cell = || (0..128).any(|at| model.lacks(at) && machine.cells[usize::from(at)] != 0);
    fault(fault::MISSING_BEFORE_RANGE) && pulse > 1 && operand()
        || fault(fault::STANDING_MEETS_31) && stays_standing(machine, input) && operand()
        || fault(fault::MISSING_NOT_0_MEETS_31) && cell()
}

/// Would the word at PC be refused with 31, skipped or not? Only a deliberate
/// fault asks.
fn meets_31(model: Model, rom: &[u16], machine: &Machine, input: &Input) -> bool {
    let word = rom.get(usize::from(machine.pc)).copied();
    let in_range = machine.in_range(model) && input.in_range();
    word.filter(|_| in_range)
        .is_some_and(|word| machine.clone().execute(model, rom, input, word) == Err(31))
}

/// A machine in standby moves on only with release 1.
fn stays_standing(machine: &Machine, input: &Input) -> bool {
    machine.standby != 0 && input.release == 0
}

/// A step that stays in standby: HALT's moves the timer by one cycle, STOP's
/// changes nothing (document 02, E4).
fn stand(machine: &mut Machine, pulse: u8, count: &mut Count) {
    if machine.standby == Machine::HALT || fault(fault::STOP_MOVES_TIMER) {
        machine.peripherals.tick(1, pulse);
    }
    count.stood(machine.standby);
}

/// A run that begins in standby ends after one such step.
fn stand_in_run(machine: &mut Machine, pulse: u8, budget: u32, count: &mut Count) {
    let steps = if fault(fault::HALT_FOR_BUDGET) { budget } else { 1 };
    for _ in 0..steps {
        stand(machine, pulse, count);
    }
    count.steps += u32::from(fault(fault::STANDBY_COUNTED));
}

/// A refused step leaves the standby mark as it came.
fn put_back(machine: &mut Machine, stood: u8) {
    if !fault(fault::RELEASE_LOST) {
        machine.standby = stood;
    }
}

/// One step of a machine in range and not in standby, added to a count, but for
/// what it does to the timer after its writes. Answers its cycles.
#[inline(always)]
fn advance(
    model: Model,
    rom: &[u16],
    machine: &mut Machine,
    input: &Input,
    pulse: u8,
    count: &mut Count,
) -> Result<u8, u8> {
    let Some(word) = fetch(model, rom, machine.pc) else {
        return Err(2);
    };
    let cycles = cycles(word, machine.skip != 0);
    let came = machine.peripherals;
    machine.peripherals.tick_before_writes(cycles, pulse);
    match work(model, rom, machine, input, word) {
        Ok(next) => machine.pc = next,
        Err(refusal) => {
            refused_word(machine, came, word, pulse, count);
            if fault(fault::REFUSED_31_MOVES_PC) && refusal == 31 {
                machine.pc = following(model, rom, machine.pc);
            }
            return Err(refusal);
        }
    }
    count.add(cycles);
    Ok(cycles)
}

/// The word at PC. Past the ROM there is none: the 17120 would read FFFFH from
/// 300H on (000, 3.3), and document 01 refuses with 2.
#[inline(always)]
fn fetch(model: Model, rom: &[u16], pc: u16) -> Option<u16> {
    if fault(fault::READS_PAST_ROM) && usize::from(pc) >= model.rom_words() {
        return Some(0xFFFF);
    }
    rom.get(usize::from(pc)).copied()
}

/// What the word does, and the PC after it.
#[inline(always)]
fn work(
    model: Model,
    rom: &[u16],
    machine: &mut Machine,
    input: &Input,
    word: u16,
) -> Result<u16, u8> {
    if machine.skip != 0 {
        if fault(fault::SKIPPED_MEETS_31) && meets_31(model, rom, machine, input) {
            return Err(31);
        }
        skip_word(model, rom, machine, word)
    } else {
        machine.execute(model, rom, input, word)
    }
}

/// A word that is refused leaves the timer as it came, and counts nothing.
/// Only deliberate faults have something to do here.
#[inline(always)]
fn refused_word(machine: &mut Machine, came: Peripherals, word: u16, pulse: u8, count: &mut Count) {
    if fault(fault::PULSE_BEFORE_WRITES) {
        machine.peripherals = came;
    }
    if fault(fault::REFUSED_MOVES_TIMER) {
        machine.peripherals.tick(1, pulse);
    }
    count.refused(word);
}

/// The PC after a skipped word. It is a NOP, undecoded, and meets only
/// refusals 1 and 2.
#[inline(always)]
fn skip_word(model: Model, rom: &[u16], machine: &mut Machine, word: u16) -> Result<u16, u8> {
    if fault(fault::SKIPPED_DECODED) {
        match decode(word) {
            None => return Err(3),
            Some(instruction) if unsupported(instruction) => return Err(4),
            Some(_) => {}
        }
    }
    if fault(fault::SKIPPED_MEETS_30) && decode(word).is_some_and(missing) {
        return Err(30);
    }
    machine.skip = 0;
    Ok(following(model, rom, machine.pc))
}
