//! Programs: steps and runs on one lent record. The lines are told in
//! data/programs.cases.

use pollwezen_host::RunReply;

use crate::emulators::Emulator;
use crate::scan::{hex, is_word, model, word, Head};
use crate::setup::Setup;
use crate::Bench;

/// The word HALT 0, so that a run ends behind a program's last word and at a
/// label where nothing stands.
const HALT: u16 = 0x3BF0;

/// The largest budget.
const BUDGET: u32 = 65_535;

pub struct Programs {
    /// The model's number; the 17132 where none is named.
    model: u8,
    rom: Vec<u16>,
    words: usize,
    /// Where the next word goes.
    at: usize,
    setup: Setup,
}

impl Programs {
    pub fn new() -> Programs {
        Programs { model: 0, rom: vec![HALT; 1025], words: 64, at: 0, setup: Setup::new() }
    }

    fn put(&mut self, text: &str) -> Result<(), String> {
        *self.rom.get_mut(self.at).ok_or("past the ROM")? = word(text)?;
        self.at += 1;
        Ok(())
    }

    /// What a step or run gave, against what is told of it. The divider moves by
    /// the cycles that are told, unless an item tells otherwise.
    fn judged(&self, before: &Setup, given: &str, answer: &str) -> Result<String, String> {
        let is_answer = |item: &&str| {
            let words: Vec<&str> = item.split(' ').collect();
            matches!(words[..], ["done" | "standing"] | ["refusal", _] | [_, "steps" | "cycles"])
        };
        let (answers, items): (Vec<_>, Vec<_>) = answer.split(", ").partition(is_answer);
        let rest = items.contains(&"rest unchanged");
        let mut wanted = if rest { before.clone() } else { self.setup.clone() };
        let divider = before.machine.peripherals.divider;
        wanted.machine.peripherals.divider = match cycles(&answers) {
            0 => divider,
            cycles => ((usize::from(divider) + cycles) % 128) as u8,
        };
        for item in items.iter().filter(|item| **item != "rest unchanged") {
            wanted.set(item)?;
        }
        let same = answers.join(", ") == given;
        Ok(match self.setup.difference(&wanted) {
            None if same => answer.to_string(),
            None => given.to_string(),
            Some(difference) => format!("{given}, {difference}"),
        })
    }

    fn step(&mut self, emulator: &dyn Emulator) -> String {
        let Setup { machine, board } = &mut self.setup;
        answered(emulator.step(self.model, &self.rom[..self.words], machine, board))
    }

    fn run(&mut self, budget: u32, emulator: &dyn Emulator) -> String {
        let Setup { machine, board } = &mut self.setup;
        let RunReply { steps, cycles, number } =
            emulator.run(self.model, &self.rom[..self.words], machine, board, budget);
        let refusal = if number == 0 { String::new() } else { format!(", refusal {number}") };
        format!("{steps} steps, {cycles} cycles{refusal}")
    }

    /// A step by itself. The bench is as before when the next line comes.
    fn row(&self, line: &str, answer: &str, emulator: &dyn Emulator) -> Result<String, String> {
        let (word, items) = line.split_once(", ").unwrap_or((line, ""));
        let mut bench = Programs { rom: self.rom.clone(), setup: self.setup.clone(), ..*self };
        bench.at = 0;
        bench.put(word)?;
        bench.with(items)?;
        let before = bench.setup.clone();
        let given = bench.step(emulator);
        let whole = match answer {
            "nothing" => "done, PC 001, rest unchanged".to_string(),
            refusal if refusal.starts_with("refusal ") => format!("{refusal}, rest unchanged"),
            changes => format!("done, PC 001, {changes}, rest unchanged"),
        };
        let got = bench.judged(&before, &given, &whole)?;
        Ok(if got == whole { answer.to_string() } else { got })
    }

    fn with(&mut self, items: &str) -> Result<(), String> {
        let mut items = items.split(", ").filter(|item| !item.is_empty());
        items.try_for_each(|item| self.setup.set(item))
    }
}

/// What a step or reset answers.
fn answered(number: u8) -> String {
    match number {
        0 => "done".to_string(),
        255 => "standing".to_string(),
        number => format!("refusal {number}"),
    }
}

/// The cycles that are told: a run's, or one for a step that is done.
fn cycles(answers: &[&str]) -> usize {
    let told = answers.iter().find_map(|answer| answer.strip_suffix(" cycles")?.parse().ok());
    told.unwrap_or(usize::from(answers.contains(&"done")))
}

impl Bench for Programs {
    fn begin(&mut self, head: Head) {
        let cleared = Programs::new();
        match head {
            Head::Case => *self = cleared,
            Head::Also => (self.at, self.setup) = (0, cleared.setup),
            Head::Then => {}
        }
    }

    fn given(&mut self, line: &str) -> Result<(), String> {
        match line.split_once(' ').unwrap_or((line, "")) {
            ("ORG", address) => self.at = hex(address)?,
            ("words", count) => self.words = hex(count)?.min(self.rom.len()),
            ("model" | "number", _) => self.model = model(line)?.ok_or("no model")?,
            ("with", items) => self.with(items)?,
            _ => line.split(' ').try_for_each(|word| match is_word(word) {
                true => self.put(word),
                false => Err(format!("{line} is no line of a program")),
            })?,
        }
        Ok(())
    }

    fn got(&mut self, line: &str, answer: &str, emulator: &dyn Emulator) -> Result<String, String> {
        let before = self.setup.clone();
        let given = match line.split_once(' ').unwrap_or((line, "")) {
            ("reset", "") => answered(emulator.reset(self.model, &mut self.setup.machine)),
            ("step", "") => self.step(emulator),
            ("run", "") => self.run(BUDGET, emulator),
            ("run", budget) => self.run(hex(budget)? as u32, emulator),
            _ => return self.row(line, answer, emulator),
        };
        self.judged(&before, &given, answer)
    }
}
