//! Random stations, faults in them, and damage to their files.

use reference::{Input, Model, Station};

use crate::damages;
use crate::random::Random;
use crate::records;
use crate::roms::{passing, Passing};
use crate::sheets::{entries, is_proper, is_single};
use crate::words;

/// A good station: a ROM that passes, one whose check may fail, one without a
/// sheet, or random words.
fn station(random: &mut Random) -> Station {
    let words = match random.below(4) {
        0 => 1024,
        1 => 1 + random.below(1024),
        _ => 1 + random.below(40),
    };
    let mut case = passing(random, Model::Upd17132, words as usize);
    match random.below(4) {
        0 => case = damaged(random, &case),
        1 => case.sheet.clear(),
        2 => {
            case.sheet.clear();
            case.rom.iter_mut().for_each(|word| *word = words::any(random));
        }
        _ => {}
    }
    let inputs = match random.below(32) {
        0 => 4095,
        1..=4 => random.below(3),
        _ => random.below(80),
    };
    let inputs = (0..inputs).map(|_| records::input(random)).collect();
    Station { rom: case.rom, sheet: case.sheet, inputs }
}

/// A ROM and its sheet damaged so that a file can still have them.
fn damaged(random: &mut Random, case: &Passing) -> Passing {
    loop {
        let mut damaged = case.clone();
        damages::damage(random, &mut damaged);
        let allowed = entries(&damaged.sheet).iter().all(|&entry| is_proper(entry));
        let length = damaged.rom.len();
        if 2 * length == damaged.sheet.len() && (1..=1024).contains(&length) && allowed {
            return damaged;
        }
    }
}

/// The form that a station is written in: 1 where every entry is one level.
pub fn form_of(station: &Station) -> usize {
    if is_single(&station.sheet) {
        1
    } else {
        2
    }
}

/// The file of a station in a form. An entry has as many bytes as the form's
/// number.
pub fn file_of(station: &Station, form: usize) -> Vec<u8> {
    let Station { rom, sheet, inputs } = station;
    let count = |n: usize| (n as u16).to_be_bytes();
    let words: Vec<u8> = rom.iter().flat_map(|word| word.to_be_bytes()).collect();
    let listed = entries(sheet).iter().flat_map(|entry| &entry[..form]);
    let listed: Vec<u8> = listed.copied().collect();
    let counts = [form, rom.len(), sheet.len() / 2, inputs.len()].map(count);
    let [form, words_count, entries_count, inputs_count] = counts;
    let front = [&form[..], &words_count, &words, &entries_count, &listed].concat();
    [&front[..], &inputs_count, &flat(inputs)].concat()
}

/// Input records as the file has them.
pub fn flat(inputs: &[Input]) -> Vec<u8> {
    let bytes = |i: &Input| i.pins.into_iter().chain(i.directions).chain([i.release]);
    inputs.iter().flat_map(bytes).collect()
}

/// A station, and the form of its file.
pub struct Filed {
    pub station: Station,
    pub form: usize,
}

impl Filed {
    /// A good station. Its form is at times 2 where 1 would do.
    pub fn any(random: &mut Random) -> Filed {
        let station = station(random);
        let form = if random.once_in(3) { 2 } else { form_of(&station) };
        Filed { station, form }
    }

    pub fn file(&self) -> Vec<u8> {
        file_of(&self.station, self.form)
    }

    /// One damage to the file, which may be damaged already.
    pub fn damage(&self, random: &mut Random, file: &mut Vec<u8>) {
        let sheet_at = 6 + 2 * self.station.rom.len();
        let inputs_at = sheet_at + self.form * self.station.sheet.len() / 2 + 2;
        let at = random.below(file.len() as u64) as usize;
        match random.below(14) {
            0..=1 => file.truncate(at),
            2 => {
                let most = random.pick(&[1, 20, 60_000]);
                let more = 1 + random.below(most);
                file.extend((0..more).map(|_| random.bits() as u8));
            }
            3 => change(file, at, |_| random.bits() as u8),
            4 => change_form(random, file),
            5 => count(random, file, 2),
            6 => count(random, file, sheet_at - 2),
            7 => count(random, file, inputs_at - 2),
            8 => *file = (0..random.below(64)).map(|_| random.byte(4)).collect(),
            9 => change(file, at, |byte| byte ^ 0x10),
            10..=11 => bad_entry(random, file, [sheet_at, inputs_at - 2]),
            12 => cut_between(random, file, [sheet_at, inputs_at - 2]),
            _ => bad_entry(random, file, [inputs_at, usize::MAX]),
        }
    }
}

/// How many faults a file or a station gets. With two, the first one from the
/// front counts.
pub fn faults(random: &mut Random) -> u8 {
    random.pick(&[0, 1, 2, 2])
}

/// Another byte, where the file has one at this place.
fn change(file: &mut [u8], at: usize, another: impl FnOnce(u8) -> u8) {
    if let Some(byte) = file.get_mut(at) {
        *byte = another(*byte);
    }
}

/// Another form number.
fn change_form(random: &mut Random, file: &mut [u8]) {
    let form: u16 = match random.below(3) {
        0 => 1 << random.below(16),
        _ => random.pick(&[0, 1, 2, 3, 256, 257, 258]),
    };
    for (place, byte) in form.to_be_bytes().into_iter().enumerate() {
        change(file, place, |_| byte);
    }
}

/// A place of the file between two, if there is one.
fn place(random: &mut Random, file: &[u8], [first, end]: [usize; 2]) -> usize {
    let room = end.min(file.len()).saturating_sub(first) as u64;
    first + random.below(room) as usize
}

/// A bad entry at some place, and often the file ends with it.
fn bad_entry(random: &mut Random, file: &mut Vec<u8>, places: [usize; 2]) {
    let at = place(random, file, places);
    change(file, at, |_| random.pick(&[6, 14, 16, 2, 255, 15, 0, 5]));
    if random.once_in(2) {
        file.truncate(at + 1);
    }
}

/// The file ends at some place.
fn cut_between(random: &mut Random, file: &mut Vec<u8>, places: [usize; 2]) {
    let at = place(random, file, places);
    file.truncate(at);
}

/// Another count, where the file has one at this place.
fn count(random: &mut Random, file: &mut [u8], at: usize) {
    let Some(pair) = file.get_mut(at..at + 2) else {
        return;
    };
    let old = u16::from_be_bytes([pair[0], pair[1]]);
    let new = match random.below(6) {
        0 => 0,
        1 => old.wrapping_add(1),
        2 => old.wrapping_sub(1),
        3 => random.pick(&[1024, 1025, 4095, 4096, 65_535]),
        4 => old.wrapping_mul(2),
        _ => random.bits() as u16,
    };
    pair.copy_from_slice(&new.to_be_bytes());
}

/// One fault in a station for the writer. True where the fault is to be a part
/// of a record after its inputs. Some lengths are good in their low sixteen bits.
pub fn spoil(random: &mut Random, station: &mut Station) -> bool {
    let long = if random.once_in(16) { 65_536 } else { 0 };
    match random.below(8) {
        0 => station.rom.clear(),
        1 => station.rom.resize(if long > 0 { long + station.rom.len() } else { 1025 }, 0),
        2 => {
            let more = random.pick(&[1, 2]).max(long);
            station.sheet.resize(station.sheet.len() + more, 0);
        }
        3 => station.sheet.truncate(random.pick(&[1, station.sheet.len().saturating_sub(1)])),
        4 => {
            let at = random.below(station.sheet.len() as u64) as usize;
            if let Some(half) = station.sheet.get_mut(at) {
                *half = random.pick(&[6, 14, 15, 16, 255, 0, 5]);
            }
        }
        5 => station.inputs.resize(long.max(4096), Input::default()),
        6 => {
            let at = random.below(station.inputs.len() as u64) as usize;
            if let Some(input) = station.inputs.get_mut(at) {
                records::spoil_input(random, input);
            }
        }
        _ => return true,
    }
    false
}
