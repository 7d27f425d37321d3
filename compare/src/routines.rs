//! ROMs of a main loop and routines that are called from several depths
//! (document 02, E5), each with its narrowest sheet, which at times is widened.

use reference::Model;

use crate::random::Random;
use crate::roms::{within, Passing};
use crate::rules::{self, next};
use crate::sheets::{is_reached, levels, Entry, NEVER};
use crate::transfers;
use crate::words;

/// The words of a ROM that has room for them.
pub const LEAST: usize = 24;

/// A ROM of so many words. Those that are never reached are any.
pub fn passing(random: &mut Random, model: Model, words: usize, stray: u64) -> Passing {
    let mut rom = blocks(random, words, stray);
    let mut entries = vec![NEVER; words];
    entries[0] = [0, 0];
    close(&rom, &mut entries);
    for _ in 0..random.below(5) {
        widen(random, model, &rom, &mut entries);
    }
    for (word, &entry) in rom.iter_mut().zip(&entries) {
        if entry == NEVER {
            *word = words::any(random);
        }
    }
    Passing { model, rom, sheet: entries.into_flattened() }
}

/// The words of a block, and how many words and blocks there are.
struct Block {
    front: u16,
    size: u16,
    /// The block's number. It calls those behind it.
    number: u64,
    blocks: u64,
    words: u16,
}

/// A main loop and up to five routines.
fn blocks(random: &mut Random, words: usize, stray: u64) -> Vec<u16> {
    let blocks = 2 + random.below(5);
    let size = (words as u64 / blocks) as u16;
    let mut rom = Vec::with_capacity(words);
    for number in 0..blocks {
        let front = rom.len() as u16;
        let rest = words as u16 - front;
        let own = if number + 1 == blocks { rest } else { size };
        let block = Block { front, size: own, number, blocks, words: words as u16 };
        rom.extend((0..own).map(|place| block.word(random, place, stray)));
    }
    rom
}

impl Block {
    /// The last two words lead back.
    fn word(&self, random: &mut Random, place: u16, stray: u64) -> u16 {
        let routine = self.number > 0;
        let behind = self.blocks - 1 - self.number;
        if place + 2 >= self.size {
            return if routine && !random.once_in(4) { back(random) } else { self.branch(random) };
        }
        match random.below(32) {
            0 => self.branch(random),
            1..=5 if behind > 0 => self.call(random, behind),
            6 if routine => back(random),
            7..=10 => within(random, stray, words::skip),
            11 if random.once_in(4) => words::halt(random),
            12..=13 if self.words == 1024 && self.number < 5 => words::MOVT,
            14..=16 => within(random, stray, transfers::allowed),
            _ => within(random, stray, words::plain),
        }
    }

    fn branch(&self, random: &mut Random) -> u16 {
        words::br(self.front + random.word(u64::from(self.size)))
    }

    /// CALL of a word near the front of a block behind this one.
    fn call(&self, random: &mut Random, behind: u64) -> u16 {
        let size = (u64::from(self.words) / self.blocks) as u16;
        let number = self.number as u16 + 1 + random.word(behind);
        words::call(number * size + random.word(u64::from(size / 2)))
    }
}

fn back(random: &mut Random) -> u16 {
    random.pick(&[words::RET, words::RET, words::RETSK])
}

/// Widens entries until every reached word has what it asks for: from level 0 at
/// word 0 alone, the narrowest sheet.
fn close(rom: &[u16], entries: &mut [Entry]) {
    loop {
        let before = entries.to_vec();
        let retsks = retsks(rom, entries);
        for at in 0..rom.len() {
            if is_reached(entries[at]) {
                ask(rom, entries, at, retsks);
            }
        }
        if entries == before {
            return;
        }
    }
}

/// The levels of all reached RETSK.
fn retsks(rom: &[u16], entries: &[Entry]) -> u8 {
    let both = rom.iter().zip(entries);
    both.filter(|(&word, _)| word == words::RETSK).fold(0, |all, (_, &entry)| all | levels(entry))
}

/// What a reached word asks of the words that it names.
fn ask(rom: &[u16], entries: &mut [Entry], at: usize, retsks: u8) {
    let (word, own) = (rom[at], entries[at]);
    let (first, second) = (next(at), next(next(at)));
    let target = usize::from(word & 0x7FF);
    if words::is_return(word) {
        return;
    }
    if words::is_br(word) {
        return join(entries, target, own);
    }
    join(entries, first, own);
    let mut skips = words::is_skip(word);
    if words::is_call(word) {
        join(entries, target, own.map(|level| level + 1));
        skips = levels(own) << 1 & retsks != 0;
    }
    if skips {
        join(entries, second, own);
    }
}

fn join(entries: &mut [Entry], at: usize, [lowest, highest]: Entry) {
    if let Some(entry) = entries.get_mut(at) {
        *entry = match *entry {
            NEVER => [lowest, highest],
            [l, h] => [l.min(lowest), h.max(highest)],
        };
    }
}

/// One level more at some word, with what that asks for, if it still passes.
fn widen(random: &mut Random, model: Model, rom: &[u16], entries: &mut Vec<Entry>) {
    let at = random.below(rom.len() as u64) as usize;
    let mut wider = entries.clone();
    wider[at] = match wider[at] {
        NEVER => [random.byte(6); 2],
        [l, h] if random.once_in(2) => [l.saturating_sub(1), h],
        [l, h] => [l, h + 1],
    };
    close(rom, &mut wider);
    if rules::verdict(model, rom, wider.as_flattened()).number == 0 {
        *entries = wider;
    }
}
