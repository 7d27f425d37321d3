//! The two emulators behind the same calls. Numbers are those of
//! include/pollwezen.h: 0 is done, 255 standing, and any other a refusal. A model
//! goes by its number too.

use pollwezen_host::{self as library, OutputReply, RunReply};
use reference::station::{self, read_into, write_into};
use reference::{sheet, Answer, Count, Input, Machine, Model, Report, Verdict};

use crate::words::Row;

/// A station, or the buffers that a reader fills with one. The sheet has two bytes
/// an entry, and the inputs have eleven a record.
pub struct Station {
    pub rom: Vec<u16>,
    pub sheet: Vec<u8>,
    pub inputs: Vec<u8>,
}

/// The input record, and the pulse bit beside it.
#[derive(Clone, Default, PartialEq, Eq)]
pub struct Board {
    pub input: Input,
    pub pulse: u8,
}

/// Bytes of an input record.
pub const RECORD: usize = 11;

pub trait Emulator {
    fn name(&self) -> &'static str;
    fn reset(&self, model: u8, machine: &mut Machine) -> u8;
    fn step(&self, model: u8, rom: &[u16], machine: &mut Machine, board: &Board) -> u8;
    fn run(
        &self,
        model: u8,
        rom: &[u16],
        machine: &mut Machine,
        board: &Board,
        budget: u32,
    ) -> RunReply;
    fn check(&self, model: u8, rom: &[u16], sheet: &[u8]) -> Verdict;
    /// What else a word is decoded to, where it is not this.
    fn decodes_else(&self, word: u16, row: Option<Row>) -> Option<String>;
    /// The number, and the word or 0.
    fn encode(&self, row: Row) -> (u8, u16);
    /// A word decoded and encoded; none where it is no instruction.
    fn there_and_back(&self, word: u16) -> Option<(u8, u16)>;
    /// Fills the fronts of buffers, of each so much as is lent. The words,
    /// entries and records of the file, or the refusal.
    fn read(&self, file: &[u8], held: &mut Station, lent: [usize; 3]) -> Result<[usize; 3], u8>;
    /// The bytes of the file, or the refusal.
    fn write(&self, station: &Station, out: &mut [u8]) -> Result<usize, u8>;
    /// Makes a sheet of single levels into one of ranges: its bytes, or the
    /// refusal.
    fn widen(&self, levels: &[u8], out: &mut [u8]) -> Result<usize, u8>;
    /// The bytes of the text, or the refusal.
    fn print(&self, file: &[u8], out: &mut [u8]) -> Result<usize, u8>;
}

/// The proved emulator: the shipped library. A refusal comes with zeros; where
/// it does not, its number here is 0, which no case has.
pub struct Library;

/// A word by the library: the number, and the row or zeros.
fn listed(word: u16) -> (u8, Row) {
    let l = library::decode(word);
    (l.number, Row { row: l.row, first: l.first, second: l.second, addr: l.addr })
}

/// The bytes that the library wrote, or its refusal.
fn length(output: OutputReply) -> Result<usize, u8> {
    match (output.number, output.length) {
        (0, length) => Ok(length),
        (number, 0) => Err(number),
        _ => Err(0),
    }
}

impl Emulator for Library {
    fn name(&self) -> &'static str {
        "the library"
    }

    fn reset(&self, model: u8, machine: &mut Machine) -> u8 {
        library::reset(model, machine)
    }

    fn step(&self, model: u8, rom: &[u16], machine: &mut Machine, board: &Board) -> u8 {
        library::step(model, rom, machine, &board.input, board.pulse)
    }

    fn run(
        &self,
        model: u8,
        rom: &[u16],
        machine: &mut Machine,
        board: &Board,
        budget: u32,
    ) -> RunReply {
        library::run(model, rom, machine, &board.input, board.pulse, budget)
    }

    fn check(&self, model: u8, rom: &[u16], sheet: &[u8]) -> Verdict {
        let checked = library::verify(model, rom, sheet);
        match (checked.number, checked.word, checked.rule) {
            (0, 0, 0) => Verdict::Pass,
            (254, word, rule) => Verdict::Fail { word, rule },
            (number, 0, 0) => Verdict::Refused(number),
            _ => Verdict::Refused(0),
        }
    }

    fn decodes_else(&self, word: u16, row: Option<Row>) -> Option<String> {
        let wanted = row.map_or((3, Row::default()), |row| (0, row));
        (listed(word) != wanted).then(|| format!("{:X?}", listed(word)))
    }

    fn encode(&self, row: Row) -> (u8, u16) {
        let coded = library::encode(row.row, row.first, row.second, row.addr);
        (coded.number, coded.word)
    }

    fn there_and_back(&self, word: u16) -> Option<(u8, u16)> {
        let (number, row) = listed(word);
        (number == 0).then(|| self.encode(row))
    }

    fn read(&self, file: &[u8], held: &mut Station, lent: [usize; 3]) -> Result<[usize; 3], u8> {
        let (rom, sheet) = (&mut held.rom[..lent[0]], &mut held.sheet[..lent[1]]);
        let counts = library::read(file, rom, sheet, &mut held.inputs[..lent[2]]);
        match (counts.number, [counts.words, counts.entries, counts.records]) {
            (0, counts) => Ok(counts),
            (number, [0, 0, 0]) => Err(number),
            _ => Err(0),
        }
    }

    fn write(&self, station: &Station, out: &mut [u8]) -> Result<usize, u8> {
        length(library::write(&station.rom, &station.sheet, &station.inputs, out))
    }

    fn widen(&self, levels: &[u8], out: &mut [u8]) -> Result<usize, u8> {
        length(library::widen(levels, out))
    }

    fn print(&self, file: &[u8], out: &mut [u8]) -> Result<usize, u8> {
        length(library::transcript(file, out))
    }
}

/// The second emulator.
pub struct Second;

fn record(bytes: &[u8]) -> Input {
    let five = |at: usize| [0, 1, 2, 3, 4].map(|k| bytes[at + k]);
    Input { pins: five(0), directions: five(5), release: bytes[10] }
}

/// Bytes to the front of a buffer: how many, or 25.
fn put(bytes: &[u8], out: &mut [u8]) -> Result<usize, u8> {
    out.get_mut(..bytes.len()).ok_or(25)?.copy_from_slice(bytes);
    Ok(bytes.len())
}

fn coded(word: Result<u16, u8>) -> (u8, u16) {
    word.map_or_else(|number| (number, 0), |word| (0, word))
}

impl Emulator for Second {
    fn name(&self) -> &'static str {
        "the second emulator"
    }

    fn reset(&self, model: u8, machine: &mut Machine) -> u8 {
        match Model::of_number(model) {
            Ok(model) => *machine = Machine::reset(model),
            Err(number) => return number,
        }
        0
    }

    fn step(&self, model: u8, rom: &[u16], machine: &mut Machine, board: &Board) -> u8 {
        let answer = Model::of_number(model)
            .map(|model| reference::step(model, rom, machine, &board.input, board.pulse));
        match answer.unwrap_or_else(Answer::Refused) {
            Answer::Done => 0,
            Answer::Standby => 255,
            Answer::Refused(number) => number,
        }
    }

    fn run(
        &self,
        model: u8,
        rom: &[u16],
        machine: &mut Machine,
        board: &Board,
        budget: u32,
    ) -> RunReply {
        let Board { input, pulse } = board;
        let report = Model::of_number(model)
            .map(|model| reference::run(model, rom, machine, input, *pulse, budget));
        let none = |refusal| Report { count: Count::default(), refusal };
        let Report { count, refusal } = report.unwrap_or_else(none);
        RunReply { steps: count.steps, cycles: count.cycles, number: refusal }
    }

    fn check(&self, model: u8, rom: &[u16], sheet: &[u8]) -> Verdict {
        let verdict = Model::of_number(model).map(|model| reference::verify(model, rom, sheet));
        verdict.unwrap_or_else(Verdict::Refused)
    }

    fn decodes_else(&self, word: u16, row: Option<Row>) -> Option<String> {
        let given = reference::decode(word);
        (given != row.map(Row::instruction)).then(|| format!("{given:X?}"))
    }

    fn encode(&self, row: Row) -> (u8, u16) {
        coded(reference::encode(row.instruction()))
    }

    fn there_and_back(&self, word: u16) -> Option<(u8, u16)> {
        reference::decode(word).map(|instruction| coded(reference::encode(instruction)))
    }

    fn read(&self, file: &[u8], held: &mut Station, lent: [usize; 3]) -> Result<[usize; 3], u8> {
        let (rom, sheet) = (&mut held.rom[..lent[0]], &mut held.sheet[..lent[1]]);
        let inputs = &mut held.inputs[..lent[2]];
        let mut records: Vec<Input> = inputs.chunks_exact(RECORD).map(record).collect();
        let counts = read_into(file, rom, sheet, &mut records);
        let bytes =
            records.iter().flat_map(|i| [&i.pins[..], &i.directions, &[i.release]].concat());
        inputs.iter_mut().zip(bytes).for_each(|(place, byte)| *place = byte);
        counts.map(|counts| [counts.words, counts.entries, counts.inputs])
    }

    /// It takes whole records. A part of one is 22 behind what comes before it
    /// in the file.
    fn write(&self, station: &Station, out: &mut [u8]) -> Result<usize, u8> {
        let records = station.inputs.chunks_exact(RECORD);
        let part = !records.remainder().is_empty();
        let inputs = if part { vec![] } else { records.map(record).collect() };
        let (rom, sheet) = (station.rom.clone(), station.sheet.clone());
        let station = reference::Station { rom, sheet, inputs };
        if part {
            return station::write(&station).and(Err(22));
        }
        write_into(&station, out)
    }

    /// It makes its sheet itself.
    fn widen(&self, levels: &[u8], out: &mut [u8]) -> Result<usize, u8> {
        put(&sheet::of_levels(levels), out)
    }

    /// It makes its text itself.
    fn print(&self, file: &[u8], out: &mut [u8]) -> Result<usize, u8> {
        put(reference::transcript(file).as_bytes(), out)
    }
}
