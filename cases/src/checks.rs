//! Checks of a ROM and its level sheet. The lines are told in
//! data/checks.cases.

use reference::Verdict;

use crate::emulators::Emulator;
use crate::scan::{byte, hex, model, sweep, word, Head};
use crate::Bench;

/// The model is the 17132, number 0, where none is named.
#[derive(Default)]
pub struct Checks {
    model: u8,
    rom: Vec<u16>,
    /// Two bytes an entry.
    sheet: Vec<u8>,
    at: usize,
}

/// An entry: one level, or the lowest and the highest.
fn entry(text: &str) -> Result<[u8; 2], String> {
    match text.split_once('-') {
        Some((lowest, highest)) => Ok([byte(lowest)?, byte(highest)?]),
        None => Ok([byte(text)?; 2]),
    }
}

/// The halves of an entry that a row of values goes to.
type Halves = std::ops::Range<usize>;

impl Checks {
    fn fill(&mut self, count: usize, entry: [u8; 2], word: u16) {
        (self.rom, self.sheet, self.at) = (vec![word; count], entry.repeat(count), 0);
    }

    fn put(&mut self, entry: [u8; 2], word: u16) {
        let count = self.at + 1;
        self.rom.resize(count.max(self.rom.len()), 0);
        self.sheet.resize((2 * count).max(self.sheet.len()), 0);
        self.rom[self.at] = word;
        self.sheet[2 * self.at..2 * count].copy_from_slice(&entry);
        self.at = count;
    }

    /// So many bytes of the sheet, those that come as the last entry.
    fn lengthen(&mut self, bytes: usize) {
        let last = self.sheet.last_chunk().copied().unwrap_or([0; 2]);
        while self.sheet.len() < bytes {
            self.sheet.push(last[self.sheet.len() % 2]);
        }
        self.sheet.truncate(bytes);
    }

    fn check(&self, emulator: &dyn Emulator) -> String {
        match emulator.check(self.model, &self.rom, &self.sheet) {
            Verdict::Pass => "PASS".to_string(),
            Verdict::Fail { word, rule } => format!("FAIL {word:03X} {rule}"),
            Verdict::Refused(number) => format!("REFUSED {number}"),
        }
    }

    /// With each value from one to another in halves of the entry at a place.
    fn entries(
        &mut self,
        at: usize,
        halves: Halves,
        values: [u8; 2],
        emulator: &dyn Emulator,
    ) -> Option<String> {
        let places = 2 * at + halves.start..2 * at + halves.end;
        let old = self.sheet.get(places.clone())?.to_vec();
        let told = sweep((values[0]..=values[1]).map(|value| {
            self.sheet[places.clone()].fill(value);
            Some((format!("{value:02X}"), self.check(emulator)))
        }));
        self.sheet[places].copy_from_slice(&old);
        told
    }

    /// With each word from one to another at a place.
    fn words(&mut self, at: usize, values: [u16; 2], emulator: &dyn Emulator) -> Option<String> {
        let old = *self.rom.get(at)?;
        let told = sweep((values[0]..=values[1]).map(|word| {
            self.rom[at] = word;
            Some((format!("{word:04X}"), self.check(emulator)))
        }));
        self.rom[at] = old;
        told
    }
}

impl Bench for Checks {
    fn begin(&mut self, head: Head) {
        match head {
            Head::Case => *self = Checks::default(),
            Head::Also | Head::Then => self.at = 0,
        }
    }

    fn given(&mut self, line: &str) -> Result<(), String> {
        if let Some(number) = model(line)? {
            self.model = number;
            return Ok(());
        }
        match line.split(' ').collect::<Vec<_>>()[..] {
            ["fill", count, filled, word_] => self.fill(hex(count)?, entry(filled)?, word(word_)?),
            ["at", place] => self.at = hex(place)?,
            ["sheet", count] => self.lengthen(2 * hex(count)?),
            ["bytes", count] => self.lengthen(hex(count)?),
            [put, word_] => self.put(entry(put)?, word(word_)?),
            _ => return Err(format!("{line} is no line of a check")),
        }
        Ok(())
    }

    fn got(&mut self, line: &str, _: &str, emulator: &dyn Emulator) -> Result<String, String> {
        let told = match line.split(' ').collect::<Vec<_>>()[..] {
            ["check"] => Some(self.check(emulator)),
            [half @ ("entries" | "lowests" | "highests"), at, a, b] => {
                let halves = match half {
                    "lowests" => 0..1,
                    "highests" => 1..2,
                    _ => 0..2,
                };
                self.entries(hex(at)?, halves, [byte(a)?, byte(b)?], emulator)
            }
            ["words", at, a, b] => self.words(hex(at)?, [word(a)?, word(b)?], emulator),
            _ => return Err("no check".to_string()),
        };
        told.ok_or("no such place".to_string())
    }
}
