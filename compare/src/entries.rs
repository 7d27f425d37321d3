//! Station files, good and damaged, through the entries for C: the reader, the
//! writer and the transcript of both emulators on the same lent buffers, which
//! are compared whole.

use std::fmt::Debug;

use reference::station::{read, read_into, write, write_into};
use reference::{Input, Station};

use crate::counts;
use crate::events::files as events;
use crate::files::first_line;
use crate::host::{self, OutputReply, ReadReply};
use crate::pair::{place, Finding};
use crate::random::Random;
use crate::stations::{faults, file_of, flat, form_of, spoil, Filed};
use crate::tally::Tally;
use crate::widening::widens;

/// What stands in a lent buffer before a call.
pub const OLD: u8 = 0x5A;
const OLD_WORD: u16 = 0x5A5A;
/// Bytes of an input record.
const RECORD: usize = 11;

/// One station, its file damaged, read and printed, and itself spoiled and
/// written; and a sheet widened.
pub fn entry(random: &mut Random, _: u64, tally: &mut Tally) -> Result<(), Finding> {
    let filed = Filed::any(random);
    let mut file = filed.file();
    let damages = faults(random);
    if damages == 0 {
        goes_back(&filed, &file, tally)?;
    }
    (0..damages).for_each(|_| filed.damage(random, &mut file));
    reads(random, &file, tally)?;
    prints(random, &file, tally)?;
    let mut station = filed.station;
    let spoils = faults(random);
    let part = (0..spoils).fold(false, |part, _| spoil(random, &mut station) || part);
    writes(random, &station, part, tally)?;
    if damages == 2 && spoils == 2 {
        tally.see("files and stations with two faults");
    }
    widens(random, tally)
}

/// Room for so much, one less or more.
pub fn room(random: &mut Random, needed: usize) -> usize {
    match random.below(7) {
        0 => needed.saturating_sub(1),
        1 => random.below(needed as u64 + 1) as usize,
        2 => needed + 1 + random.below(20) as usize,
        3 => needed / 2,
        _ => needed,
    }
}

/// A good file, of either form, is read as its station, and that is written in the
/// lowest form that has it.
fn goes_back(filed: &Filed, file: &[u8], tally: &mut Tally) -> Result<(), Finding> {
    let Station { rom, sheet, inputs } = &filed.station;
    let inputs = flat(inputs);
    let mut rom_read = vec![OLD_WORD; rom.len()];
    let (mut sheet_read, mut inputs_read) = (vec![OLD; sheet.len()], vec![OLD; inputs.len()]);
    let counts = host::read(file, &mut rom_read, &mut sheet_read, &mut inputs_read);
    let told = file_of(&filed.station, form_of(&filed.station));
    let mut out = vec![OLD; told.len()];
    let output = host::write(&rom_read, &sheet_read, &inputs_read, &mut out);
    let right = counts.number == 0 && rom_read == *rom && sheet_read == *sheet;
    if right && inputs_read == inputs && output.number == 0 && out == told {
        tally.compared += 2;
        events::count_back(file, sheet, tally);
        return Ok(());
    }
    Err(Finding(format!(
        "a good file is read with {counts:?} and written with {output:?}\n\
         file: {file:02X?}\nwritten: {out:02X?}\ntold: {told:02X?}\n"
    )))
}

fn reads(random: &mut Random, file: &[u8], tally: &mut Tally) -> Result<(), Finding> {
    let (words, bytes, records) = match read(file) {
        Ok(station) => (station.rom.len(), station.sheet.len(), station.inputs.len()),
        Err(_) => (host::WORDS, host::SHEET_BYTES, host::INPUT_BYTES / RECORD),
    };
    let rooms = [room(random, words), room(random, bytes), room(random, RECORD * records)];
    let mut rom = vec![OLD_WORD; rooms[0]];
    let (mut sheet, mut inputs) = (vec![OLD; rooms[1]], vec![OLD; rooms[2]]);
    let counts = host::read(file, &mut rom, &mut sheet, &mut inputs);

    let mut rom2 = vec![OLD_WORD; rooms[0]];
    let mut sheet2 = vec![OLD; rooms[1]];
    let old = Input { pins: [OLD; 5], directions: [OLD; 5], release: OLD };
    let mut records2 = vec![old; rooms[2] / RECORD];
    let answer = match read_into(file, &mut rom2, &mut sheet2, &mut records2) {
        Ok(c) => ReadReply { number: 0, words: c.words, entries: c.entries, records: c.inputs },
        Err(number) => ReadReply { number, words: 0, entries: 0, records: 0 },
    };
    let mut inputs2 = flat(&records2);
    inputs2.resize(rooms[2], OLD);

    let first = answers(&counts, &answer)
        .or_else(|| place("word", &rom, &rom2))
        .or_else(|| place("sheet byte", &sheet, &sheet2))
        .or_else(|| place("input byte", &inputs, &inputs2));
    if let Some(first) = first {
        return Err(Finding(format!(
            "read into {rooms:?}, file of {} bytes: {file:02X?}\nfirst difference: {first}\n",
            file.len()
        )));
    }
    tally.compared += 1;
    events::count_read(file, counts.number, rooms, tally);
    Ok(())
}

/// `part` adds a byte to the flat list, which then is no whole number of records.
fn writes(
    random: &mut Random,
    station: &Station,
    part: bool,
    tally: &mut Tally,
) -> Result<(), Finding> {
    let mut inputs = flat(&station.inputs);
    if part {
        inputs.push(0);
    }
    let sheet_bytes = station.sheet.len() / 2 * form_of(station);
    let needed = 8 + 2 * station.rom.len() + sheet_bytes + inputs.len();
    let mut out = vec![OLD; room(random, needed)];
    let mut out2 = out.clone();
    let output = host::write(&station.rom, &station.sheet, &inputs, &mut out);
    let written = if part { part_refused(station) } else { write_into(station, &mut out2) };
    let answer = match written {
        Ok(length) => OutputReply { number: 0, length },
        Err(number) => OutputReply { number, length: 0 },
    };
    let first = answers(&output, &answer).or_else(|| place("byte", &out, &out2));
    if let Some(first) = first {
        return Err(Finding(format!(
            "write into {} bytes, part of a record after the inputs: {part}, {station:X?}\n\
             first difference: {first}\n",
            out.len()
        )));
    }
    tally.compared += 1;
    events::count_written(station.rom.len(), &station.sheet, output.number, tally);
    Ok(())
}

/// The second emulator has input records only. A part of one is 22 after what
/// comes before it in the file.
fn part_refused(station: &Station) -> Result<usize, u8> {
    let before = Station { inputs: vec![], ..station.clone() };
    write(&before).and(Err(22))
}

fn prints(random: &mut Random, file: &[u8], tally: &mut Tally) -> Result<(), Finding> {
    let text = reference::transcript(file);
    let mut out = vec![OLD; room(random, text.len())];
    let mut expected = out.clone();
    let answer = match expected.get_mut(..text.len()) {
        Some(front) => {
            front.copy_from_slice(text.as_bytes());
            OutputReply { number: 0, length: text.len() }
        }
        None => OutputReply { number: 25, length: 0 },
    };
    let output = host::transcript(file, &mut out);
    let first = answers(&output, &answer).or_else(|| place("byte", &out, &expected));
    if let Some(first) = first {
        let printed = String::from_utf8_lossy(&out[..output.length.min(out.len())]).into_owned();
        return Err(Finding(format!(
            "transcript into {} bytes, file of {} bytes: {file:02X?}\n\
             proved:\n{printed}second:\n{text}first difference: {first}; {}\n",
            out.len(),
            file.len(),
            first_line(&printed, &text)
        )));
    }
    tally.compared += 1;
    events::count_text(file, &text, output.number, tally);
    counts::end(file, &text, tally)
}

/// Two answers that differ.
pub fn answers<T: PartialEq + Debug>(proved: &T, second: &T) -> Option<String> {
    (proved != second).then(|| format!("proved {proved:?}, second {second:?}"))
}
