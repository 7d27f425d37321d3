//! The text that the program `station` prints (document 01, "Station file";
//! the cycles in its last line are document 02's, E3, and so is the pulse bit,
//! E4: it is 0 with a station file).

use crate::count::Count;
use crate::fault::{self, fault};
use crate::machine::Machine;
use crate::station::{read, Station, MODEL};
use crate::step::{counted_step, Answer};
use crate::verify::{verify, Verdict};

/// The pulse bit of every step.
const PULSE: u8 = 0;

/// No line is longer than "4095 3FF FFFF 3FF 5 F\n".
const LINE: usize = 22;

/// What `station` prints for a file, whole.
pub fn transcript(file: &[u8]) -> String {
    let station = match read(file) {
        Ok(station) => station,
        Err(refusal) => return format!("FILE {refusal}\n"),
    };
    // A line for the sheet, one for each record, and the last.
    let mut text = Text(String::with_capacity(LINE * (station.inputs.len() + 2)));
    text.sheet(&station);
    text.steps(&station);
    text.0
}

/// The text so far.
struct Text(String);

impl Text {
    /// The sheet's line. A sheet that fails does not stop the program.
    fn sheet(&mut self, station: &Station) {
        if station.sheet.is_empty() {
            return self.0.push_str("SHEET NONE\n");
        }
        match verify(MODEL, &station.rom, &station.sheet) {
            Verdict::Pass => self.0.push_str("SHEET PASS\n"),
            Verdict::Fail { word, rule } => {
                self.0.push_str("SHEET FAIL ");
                self.hex(word, 3);
                self.0.push(' ');
                self.decimal(rule.into());
                self.0.push('\n');
            }
            // Only a deliberate fault refuses the lengths of a station that was read.
            Verdict::Refused(_) => assert!(fault::any()),
        }
    }

    /// From reset, a line per input record up to a refusal, then the end line.
    fn steps(&mut self, station: &Station) {
        let mut machine = Machine::reset(MODEL);
        let (mut count, mut refusal) = (Count::default(), 0);
        for (record, input) in (1..).zip(&station.inputs) {
            let before = machine.pc;
            let rom = &station.rom;
            let word = match counted_step(MODEL, rom, &mut machine, input, PULSE, &mut count) {
                Answer::Done => Some(rom[usize::from(before)]),
                Answer::Standby => None,
                Answer::Refused(number) => {
                    refusal = number;
                    break;
                }
            };
            self.step(record, before, word, &machine);
        }
        self.end(count, refusal);
    }

    /// The end line: steps, cycles, refusal or 0.
    fn end(&mut self, Count { mut steps, mut cycles }: Count, refusal: u8) {
        if fault(fault::END_EXCHANGED) {
            (steps, cycles) = (cycles, steps);
        }
        self.0.push_str("END ");
        self.decimal(steps);
        self.0.push(' ');
        self.decimal(cycles);
        self.0.push(' ');
        self.decimal(refusal.into());
        self.0.push('\n');
    }

    /// One record's line; without a word the machine stayed in standby.
    fn step(&mut self, record: u32, before: u16, word: Option<u16>, after: &Machine) {
        self.decimal(record);
        self.0.push(' ');
        self.hex(before, 3);
        self.0.push(' ');
        match word {
            Some(word) => self.hex(word, 4),
            None => self.0.push_str("----"),
        }
        self.0.push(' ');
        self.hex(after.pc, 3);
        self.0.push(' ');
        self.decimal(after.levels.into());
        self.0.push(' ');
        self.hex(after.cells[usize::from(Machine::PSW)].into(), 1);
        self.0.push('\n');
    }

    /// So many hex digits.
    fn hex(&mut self, value: u16, digits: u16) {
        for place in (0..digits).rev() {
            self.digit(u32::from(value >> (4 * place) & 0xF));
        }
    }

    /// A number without zeros in front.
    fn decimal(&mut self, value: u32) {
        if value >= 10 {
            self.decimal(value / 10);
        }
        self.digit(value % 10);
    }

    fn digit(&mut self, value: u32) {
        self.0.push(char::from(b"0123456789ABCDEF"[value as usize]));
    }
}
