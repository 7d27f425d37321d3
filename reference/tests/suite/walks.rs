//! Random walks: what must hold of every state, ROM and input.

use crate::kit::*;
use crate::routines::shared_rom;
use reference::sheet::of_levels;
use reference::Instruction::{self, *};
use reference::{decode, encode};
use reference::{Answer, Count, Input, Machine, Model, Peripherals, Report, Verdict};

/// Whatever comes, a step keeps the range, and a refused one the record.
fn random_steps(model: Model, seed: u64) {
    let mut random = Random::new(seed);
    for _ in 0..300_000 {
        let rom: Vec<u16> = (0..=random.below(1024).min(20)).map(|_| random.word()).collect();
        let mut machine = random.machine_of(model);
        machine.pc = random.below(rom.len() as u64 + 1) as u16;
        let before = machine.clone();
        let (input, pulse) = (random.input(), random.pulse());
        match reference::step(model, &rom, &mut machine, &input, pulse) {
            Answer::Done => assert!(machine.in_range(model), "{before:?}"),
            Answer::Standby => {
                assert!(machine.in_range(model), "{before:?}");
                assert_eq!(machine == before, before.standby == Machine::STOP);
                machine.peripherals.counter = before.peripherals.counter;
                machine.peripherals.divider = before.peripherals.divider;
                assert_eq!(machine, before);
            }
            Answer::Refused(number) => {
                assert_eq!(machine, before);
                assert!(matches!(number, 2..=8 | 30) || number == 31 && model != Model::Upd17132);
            }
        }
    }
}

#[test]
fn random_steps_of_the_17132() {
    random_steps(Model::Upd17132, 1);
}

#[test]
fn random_steps_of_the_17120() {
    random_steps(Model::Upd17120, 11);
}

/// A run is its steps, one after the other, and a MOVT that is not skipped
/// takes a cycle more.
fn run_by_steps(
    model: Model,
    rom: &[u16],
    machine: &mut Machine,
    input: &Input,
    pulse: u8,
    budget: u32,
) -> Report {
    let mut count = Count::default();
    while count.steps < budget {
        let skipped = machine.skip == 1;
        let word = rom.get(usize::from(machine.pc)).and_then(|&word| decode(word));
        match reference::step(model, rom, machine, input, pulse) {
            Answer::Done => {
                count.steps += 1;
                count.cycles += if word == Some(Movt) && !skipped { 2 } else { 1 };
            }
            Answer::Standby => break,
            Answer::Refused(refusal) => return Report { count, refusal },
        }
        if machine.standby != 0 {
            break;
        }
    }
    Report { count, refusal: 0 }
}

/// Runs, and how many of them had a MOVT and how many were refused with 31.
fn random_runs(model: Model, seed: u64) -> (u32, u32) {
    let mut random = Random::new(seed);
    let (mut longer, mut missing) = (0, 0);
    for _ in 0..30_000 {
        let most = model.rom_words() as u64;
        let length = if random.below(8) == 0 { most } else { 1 + random.below(40) };
        let rom: Vec<u16> = (0..length).map(|_| likely_word(&mut random, length)).collect();
        let mut machine = random.machine_of(model);
        machine.pc = random.below(length) as u16;
        // Mostly a table that lies in the ROM.
        if random.below(4) > 0 {
            machine.cells[0x74..0x77].fill(0);
        }
        let mut twin = machine.clone();
        let (input, pulse) = (random.input(), random.pulse());
        let budget = random.below(60) as u32;
        let report = reference::run(model, &rom, &mut machine, &input, pulse, budget);
        assert_eq!(report, run_by_steps(model, &rom, &mut twin, &input, pulse, budget));
        assert_eq!(machine, twin);
        longer += u32::from(report.count.cycles > report.count.steps);
        missing += u32::from(report.count.steps > 0 && report.refusal == 31);
    }
    (longer, missing)
}

#[test]
fn random_runs_of_the_17132() {
    let (longer, missing) = random_runs(Model::Upd17132, 2);
    assert!(longer > 1_000, "{longer} runs with a MOVT");
    assert_eq!(missing, 0);
}

#[test]
fn random_runs_of_the_17120() {
    let (longer, missing) = random_runs(Model::Upd17120, 12);
    assert!(longer > 1_000, "{longer} runs with a MOVT");
    assert!(missing > 1_000, "{missing} runs refused with 31 after some steps");
}

/// A word that is an instruction, at times MOVT or one that works on the timer;
/// BR and CALL stay below `length`.
fn likely_word(random: &mut Random, length: u64) -> u16 {
    match random.below(32) {
        0 | 1 => return encode(Movt).unwrap(),
        2 => return encode(on_timer(random)).unwrap(),
        _ => {}
    }
    loop {
        let word = random.word();
        match decode(word) {
            None => {}
            Some(instruction) if meets_30(instruction) => {}
            Some(Br { .. }) => return encode(Br { addr: random.below(length) as u16 }).unwrap(),
            Some(Call { .. }) => {
                return encode(Call { addr: random.below(length) as u16 }).unwrap()
            }
            Some(_) => return word,
        }
    }
}

/// An instruction on a control register, the counter or the modulo register.
pub fn on_timer(random: &mut Random) -> Instruction {
    let rf = Peripherals::ADDRESSES[random.below(7) as usize];
    [Get { p: 2 }, Put { p: 3 }, Poke { rf: 0x11 }, Poke { rf }, Peek { rf }]
        [random.below(5) as usize]
}

/// A ROM that passes the check, and its sheet: six blocks of 32 words, one for
/// each level, each ended by two branches to its front or by two returns.
fn passing_rom(random: &mut Random) -> (Vec<u16>, Vec<u8>) {
    const BLOCK: u16 = 32;
    let mut rom = Vec::new();
    let mut depths = Vec::new();
    for level in 0..6_u16 {
        let front = level * BLOCK;
        for place in 0..BLOCK {
            let last = place >= BLOCK - 2;
            let end = Br { addr: front + random.below(30) as u16 };
            let instruction = match (last, level) {
                (true, 0) => end,
                (true, _) => [Ret, Retsk, end][random.below(3) as usize],
                _ => inner(random, front, level),
            };
            rom.push(encode(instruction).unwrap());
            depths.push(level as u8);
        }
    }
    (rom, of_levels(&depths))
}

/// An instruction that keeps its block's level.
fn inner(random: &mut Random, front: u16, level: u16) -> Instruction {
    match random.below(20) {
        0 => Br { addr: front + random.below(30) as u16 },
        1 | 2 if level < 5 => Call { addr: front + 32 + random.below(30) as u16 },
        3 if level > 0 => [Ret, Retsk][random.below(2) as usize],
        4 if random.below(4) == 0 => Halt { cond: random.nibble() },
        5 => on_timer(random),
        _ => loop {
            match decode(random.word()) {
                Some(Br { .. } | Call { .. } | BrAr | CallAr | PushAr | PopAr | Movt) => {}
                Some(Ret | Retsk | Reti | Ei | Di | Halt { .. } | Stop { .. }) => {}
                Some(instruction) if !meets_30(instruction) => return instruction,
                _ => {}
            }
        },
    }
}

/// Demand 3, on lists of calls: never refused in range, never with another
/// number than 1, and the open calls lie in the sheet's range at every word. On a
/// model that lacks cells a call in range may be refused with 31, and the rest
/// holds. Answers the steps and the refusals with 31.
fn passed_roms(model: Model, seed: u64, make: Maker) -> (u32, u32) {
    let mut random = Random::new(seed);
    let (mut steps, mut missing) = (0, 0);
    for _ in 0..300 {
        let (rom, sheet) = make(&mut random);
        assert_eq!(reference::verify(model, &rom, &sheet), Verdict::Pass);
        let mut walk = Walk { model, rom, sheet, machine: Machine::reset(model), open: 0 };
        for _ in 0..500 {
            let (done, refused) = walk.call(&mut random);
            steps += done;
            missing += u32::from(refused);
        }
    }
    (steps, missing)
}

/// What makes a ROM and a sheet that passes.
type Maker = fn(&mut Random) -> (Vec<u16>, Vec<u8>);

/// A machine on a passed ROM, and the open calls counted from the words that ran.
struct Walk {
    model: Model,
    rom: Vec<u16>,
    sheet: Vec<u8>,
    machine: Machine,
    open: u8,
}

impl Walk {
    /// A step or a run: its steps, and whether it was refused with 31.
    fn call(&mut self, random: &mut Random) -> (u32, bool) {
        self.moment();
        let (mut input, pulse) = (random.input(), random.pulse());
        if random.below(20) == 0 {
            assert_eq!(self.step(&input, 2), Answer::Refused(1));
            input.pins[0] = 16;
            assert_eq!(self.step(&input, pulse), Answer::Refused(1));
            return (0, false);
        }
        if random.below(4) == 0 {
            return self.run(&input, pulse, random.below(50) as u32);
        }
        match self.step(&input, pulse) {
            Answer::Done => (1, false),
            Answer::Standby => (0, false),
            Answer::Refused(number) => (0, self.is_missing(number)),
        }
    }

    /// A refusal in range is 31, on a model that lacks cells.
    fn is_missing(&self, number: u8) -> bool {
        assert_eq!(number, 31);
        assert_ne!(self.model, Model::Upd17132);
        true
    }

    fn step(&mut self, input: &Input, pulse: u8) -> Answer {
        let next = counted(&self.rom, &self.machine, self.open);
        let answer = reference::step(self.model, &self.rom, &mut self.machine, input, pulse);
        if answer == Answer::Done {
            self.open = next;
        }
        self.moment();
        answer
    }

    /// A run, and the same by steps.
    fn run(&mut self, input: &Input, pulse: u8, budget: u32) -> (u32, bool) {
        let mut left = self.machine.clone();
        let report = reference::run(self.model, &self.rom, &mut left, input, pulse, budget);
        // A run that begins in standby does one step that is not counted.
        if budget > 0 && self.machine.standby != 0 && input.release == 0 {
            assert_eq!(self.step(input, pulse), Answer::Standby);
        }
        for _ in 0..report.count.steps {
            assert_eq!(self.step(input, pulse), Answer::Done);
        }
        assert_eq!(self.machine, left);
        (report.count.steps, report.refusal != 0 && self.is_missing(report.refusal))
    }

    /// The word about to run lies in the ROM, and the open calls in its range.
    fn moment(&self) {
        let pc = usize::from(self.machine.pc);
        assert!(pc < self.rom.len());
        assert!((self.sheet[2 * pc]..=self.sheet[2 * pc + 1]).contains(&self.open));
        assert_eq!(self.machine.levels, self.open);
    }
}

#[test]
fn passed_roms_of_the_17132() {
    assert_eq!(passed_roms(Model::Upd17132, 5, passing_rom).1, 0);
    assert_eq!(passed_roms(Model::Upd17132, 25, shared_rom).1, 0);
}

#[test]
fn passed_roms_of_the_17120() {
    for (seed, make) in [(15, passing_rom as Maker), (35, shared_rom)] {
        let (steps, missing) = passed_roms(Model::Upd17120, seed, make);
        assert!(steps > 1_000 && missing > 1_000, "{steps} steps, {missing} refused with 31");
    }
}

/// The open calls after the word at PC has run.
fn counted(rom: &[u16], machine: &Machine, open: u8) -> u8 {
    if machine.skip == 1 {
        return open;
    }
    match decode(rom[usize::from(machine.pc)]) {
        Some(Call { .. }) => open + 1,
        Some(Ret | Retsk) => open - 1,
        _ => open,
    }
}
