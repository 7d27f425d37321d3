//! Changes to a ROM and its sheet that mostly make the check fail.

use crate::random::Random;
use crate::roms::Passing;
use crate::sheets::{Entry, NEVER};
use crate::words;

/// One change.
pub fn damage(random: &mut Random, case: &mut Passing) {
    let words = case.rom.len() as u64;
    if words == 0 {
        return case.rom.push(words::NOP);
    }
    let at = random.below(words) as usize;
    match random.below(24) {
        0..=5 => case.rom[at] = words::any(random),
        6..=7 => put(&mut case.sheet, at, entry(random)),
        8..=10 => change_half(random, &mut case.sheet, at),
        11 => case.rom[at] = random.pick(&[words::RET, words::RETSK, words::MOVT, words::NOP]),
        12..=13 => skip_a_return(random, case),
        14..=15 => change_retsk(random, case),
        16 => put(&mut case.sheet, 0, entry(random)),
        17 => change_half(random, &mut case.sheet, 0),
        18..=19 => change_call(random, case),
        20 => {
            case.rom.truncate(at);
            case.sheet.truncate(2 * at);
        }
        _ => change_length(random, case),
    }
}

/// Another length of the ROM, of the sheet, or of both.
fn change_length(random: &mut Random, case: &mut Passing) {
    match random.below(6) {
        0 => case.rom.push(words::any(random)),
        1 => {
            case.rom.push(words::any(random));
            case.sheet.extend(entry(random));
        }
        2 => case.sheet.truncate(case.sheet.len().saturating_sub(2)),
        3 => case.sheet.truncate(case.sheet.len().saturating_sub(1)),
        4 => case.sheet.push(random.pick(&[0, 1, 15])),
        _ => case.sheet.truncate(case.rom.len()),
    }
}

/// The places of some words, and one of them.
fn one_of(random: &mut Random, case: &Passing, wanted: impl Fn(u16) -> bool) -> Option<usize> {
    let all = 0..case.rom.len();
    let places: Vec<usize> = all.filter(|&at| wanted(case.rom[at])).collect();
    (!places.is_empty()).then(|| random.pick(&places))
}

/// A RETSK instead of a RET, perhaps the first at its level.
fn skip_a_return(random: &mut Random, case: &mut Passing) {
    if let Some(at) = one_of(random, case, |word| word == words::RET) {
        case.rom[at] = words::RETSK;
    }
}

/// A RETSK with more levels, or with an entry that is none.
fn change_retsk(random: &mut Random, case: &mut Passing) {
    let Some(at) = one_of(random, case, |word| word == words::RETSK) else {
        return;
    };
    let Some([lowest, highest]) = case.sheet.get_mut(2 * at..2 * at + 2) else {
        return;
    };
    match random.below(5) {
        0 => *lowest = 1,
        1 => *highest = 5,
        2 => (*lowest, *highest) = (1, 5),
        3 => *highest = random.pick(&[6, 9, 15]),
        _ => *lowest = lowest.saturating_sub(1),
    }
}

/// A CALL, or what it names, with one level more or less.
fn change_call(random: &mut Random, case: &mut Passing) {
    let Some(at) = one_of(random, case, words::is_call) else {
        return;
    };
    let target = usize::from(case.rom[at] & 0x7FF);
    let named = random.pick(&[at, target, (at + 2) & 0x3FF]);
    let less = |half: u8| half.wrapping_sub(1);
    let more = |half: u8| half.wrapping_add(1);
    let change = if random.once_in(2) { less } else { more };
    let half = random.below(2) as usize;
    if let Some(byte) = case.sheet.get_mut(2 * named + half) {
        *byte = change(*byte);
    }
}

/// Another number for one half of an entry.
fn change_half(random: &mut Random, sheet: &mut [u8], at: usize) {
    let half = random.below(2) as usize;
    let number = random.pick(&[0, 1, 2, 3, 4, 5, 6, 9, 14, 15, 16, 255]);
    if let Some(byte) = sheet.get_mut(2 * at + half) {
        *byte = number;
    }
}

fn put(sheet: &mut [u8], at: usize, entry: Entry) {
    if let Some(place) = sheet.get_mut(2 * at..2 * at + 2) {
        place.copy_from_slice(&entry);
    }
}

/// A sheet entry, seldom one that breaks rule 2.
pub fn entry(random: &mut Random) -> Entry {
    let lowest = random.byte(6);
    match random.below(16) {
        0..=2 => NEVER,
        3 => [random.pick(&[6, 7, 14, 16, 31, 128, 255]); 2],
        4 => [lowest, random.pick(&[6, 9, 14, 15, 16, 255])],
        5 => [random.pick(&[6, 14, 15, 16, 255]), lowest],
        6 => [lowest, random.byte(6)],
        7..=10 => [lowest; 2],
        _ => [lowest, lowest + random.byte(u64::from(6 - lowest))],
    }
}
