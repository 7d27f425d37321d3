//! Calls on lent buffers, each longer than what is lent and filled with a mark
//! before the call: what comes of them, as text.

use crate::emulators::{Emulator, Station, RECORD};

/// What stands in a buffer before a call, and how many such places lie behind
/// what is lent.
const MARK: u8 = 0xA5;
const WORD_MARK: u16 = 0xA5A5;
pub const BEHIND: usize = 16;

/// More bytes than any text has.
const TEXT: usize = 100_000;

/// The most bytes of a sheet that are told one by one.
const FEW: usize = 16;

/// How many words, bytes of the sheet and bytes of inputs.
pub type Sizes = [usize; 3];

/// What is told, and whether the buffers are as they must be.
pub fn told(outcome: String, right: bool) -> String {
    outcome + if right { "" } else { " with WRONG buffers" }
}

/// Does a buffer hold the mark from a place on?
fn kept<T: PartialEq>(buffer: &[T], from: usize, mark: T) -> bool {
    buffer.iter().skip(from).all(|place| *place == mark)
}

/// Each byte twice.
pub fn doubled(levels: &[u8]) -> Vec<u8> {
    levels.iter().flat_map(|&level| [level; 2]).collect()
}

/// The form that a station is written in: 1 where the halves of every entry are
/// equal.
pub fn form_of(sheet: &[u8]) -> usize {
    let equal = sheet.chunks_exact(2).all(|entry| entry[0] == entry[1]);
    if equal {
        1
    } else {
        2
    }
}

/// The file of a station in a form, whose number is that of an entry's bytes.
pub fn file_of(station: &Station, form: usize) -> Vec<u8> {
    let Station { rom, sheet, inputs } = station;
    let count = |n: usize| (n as u16).to_be_bytes();
    let words: Vec<u8> = rom.iter().flat_map(|word| word.to_be_bytes()).collect();
    let entries: Vec<u8> = sheet.chunks_exact(2).flat_map(|entry| entry[..form].to_vec()).collect();
    let counts = [form, rom.len(), sheet.len() / 2, inputs.len() / RECORD].map(count);
    [&counts[0][..], &counts[1], &words, &counts[2], &entries, &counts[3], inputs].concat()
}

/// Writes a station into so much room.
pub fn write(station: &Station, room: usize, emulator: &dyn Emulator) -> String {
    let mut out = vec![MARK; room + BEHIND];
    match emulator.write(station, &mut out[..room]) {
        Ok(size) => {
            let file = file_of(station, form_of(&station.sheet));
            let right = size == file.len() && out.starts_with(&file) && kept(&out, size, MARK);
            told(format!("WRITTEN {size}"), right)
        }
        Err(number) => told(format!("REFUSED {number}"), kept(&out, 0, MARK)),
    }
}

/// Reads a file into so much room, and writes what was read, in the lowest form
/// that has it.
pub fn read(file: &[u8], room: Sizes, emulator: &dyn Emulator) -> String {
    let [words, halves, bytes] = room.map(|room| room + BEHIND);
    let (rom, sheet, inputs) = (vec![WORD_MARK; words], vec![MARK; halves], vec![MARK; bytes]);
    let mut held = Station { rom, sheet, inputs };
    let counts = emulator.read(file, &mut held, room);
    let [words, entries, records] = counts.unwrap_or_default();
    let behind = kept(&held.rom, words, WORD_MARK)
        && kept(&held.sheet, 2 * entries, MARK)
        && kept(&held.inputs, RECORD * records, MARK);
    if let Err(number) = counts {
        return told(format!("REFUSED {number}"), behind);
    }
    held.rom.truncate(words);
    held.sheet.truncate(2 * entries);
    held.inputs.truncate(RECORD * records);
    let (form, lowest) = (usize::from(file[1]), form_of(&held.sheet));
    let size = file_of(&held, lowest).len();
    let right = (form == 1 || form == 2)
        && file_of(&held, form) == file
        && write(&held, size + BEHIND, emulator) == format!("WRITTEN {size}")
        && write(&held, size - 1, emulator) == "REFUSED 25";
    let written = if lowest < form { " AS FORM 1" } else { "" };
    told(format!("STATION {words} {entries} {records}{written}"), behind && right)
}

/// Widens a sheet into so much room: its bytes, or how many there are.
pub fn widen(levels: &[u8], room: usize, emulator: &dyn Emulator) -> String {
    let mut out = vec![MARK; room + BEHIND];
    match emulator.widen(levels, &mut out[..room]) {
        Ok(size) => {
            let right = out.starts_with(&doubled(levels)) && kept(&out, size, MARK);
            let bytes = out.iter().take(size).map(|byte| format!(" {byte:02X}"));
            let listed = if size > FEW { format!(" {size}") } else { bytes.collect() };
            told(format!("WIDENED{listed}"), right && size == 2 * levels.len())
        }
        Err(number) => told(format!("REFUSED {number}"), kept(&out, 0, MARK)),
    }
}

/// The text of a file as one line: printed into more room than any text needs
/// and into just enough, and refused with a byte less.
pub fn text(file: &[u8], emulator: &dyn Emulator) -> String {
    let mut out = vec![MARK; TEXT + BEHIND];
    let size = match emulator.print(file, &mut out[..TEXT]) {
        Ok(size) => size,
        Err(number) => return told(format!("REFUSED {number}"), kept(&out, 0, MARK)),
    };
    let mut tight = vec![MARK; size + BEHIND];
    let mut short = tight.clone();
    let right = kept(&out, size, MARK)
        && emulator.print(file, &mut short[..size - 1]) == Err(25)
        && kept(&short, 0, MARK)
        && emulator.print(file, &mut tight[..size]) == Ok(size)
        && tight == out[..size + BEHIND];
    let text = String::from_utf8_lossy(&out[..size]).into_owned();
    match text.strip_suffix('\n') {
        Some(lines) => told(lines.replace('\n', ", "), right),
        None => text + " without an end",
    }
}
