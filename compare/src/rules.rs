//! The check as documents 01 and 02 tell it, over sets of levels and without
//! either emulator.

use reference::isa::Instruction::{self, *};
use reference::{decode, Model};

use crate::host::VerdictReply;
use crate::pair;
use crate::places::most_words;
use crate::sheets::{entries, holds, is_proper, levels, Entry, DEEPEST};
use crate::transfers;
use crate::words;

/// What the check answers.
pub fn verdict(model: Model, rom: &[u16], sheet: &[u8]) -> VerdictReply {
    let alone = |number| VerdictReply { number, word: 0, rule: 0 };
    if rom.is_empty() || rom.len() > most_words(model) {
        return alone(1);
    }
    if sheet.len() != 2 * rom.len() {
        return alone(9);
    }
    let rules = Rules::new(rom, sheet);
    let broken = (0..rom.len()).find_map(|at| Some((at, rules.broken(at)?)));
    match broken {
        Some((at, rule)) => VerdictReply { number: pair::FAIL, word: at as u16, rule },
        None => alone(pair::DONE),
    }
}

/// A ROM and a sheet of its length.
pub struct Rules<'a> {
    rom: &'a [u16],
    entries: &'a [Entry],
    /// The levels of each word.
    levels: Vec<u8>,
    /// The levels of all reached RETSK.
    retsks: u8,
}

impl<'a> Rules<'a> {
    pub fn new(rom: &'a [u16], sheet: &'a [u8]) -> Rules<'a> {
        let entries = entries(sheet);
        let levels: Vec<u8> = entries.iter().map(|&entry| levels(entry)).collect();
        let both = rom.iter().zip(&levels);
        let retsks =
            both.filter(|(&word, _)| word == words::RETSK).fold(0, |all, (_, set)| all | set);
        Rules { rom, entries, levels, retsks }
    }

    /// The lowest rule that a word breaks.
    fn broken(&self, at: usize) -> Option<u8> {
        let own = self.levels[at];
        if at == 0 && !holds(own, 1) {
            return Some(1);
        }
        if !is_proper(self.entries[at]) {
            return Some(2);
        }
        if own == 0 {
            return None;
        }
        let Some(instruction) = decode(self.rom[at]).filter(|_| self.is_allowed(at)) else {
            return Some(3);
        };
        if !self.named(instruction, at).iter().all(|&word| holds(self.levels(word), own)) {
            return Some(4);
        }
        match instruction {
            Call { addr } if !self.calls_well(addr.into(), at) => Some(5),
            Ret | Retsk if holds(own, 1) => Some(6),
            _ => None,
        }
    }

    /// Rule 3, for what is an instruction.
    fn is_allowed(&self, at: usize) -> bool {
        let word = self.rom[at];
        match decode(word) {
            Some(BrAr | CallAr | PushAr | PopAr | Ei | Di | Reti) => false,
            Some(Movt) => self.rom.len() == 1024 && !holds(self.levels[at], 1 << DEEPEST),
            _ => !meets_30(word),
        }
    }

    /// The words that rule 4 names.
    fn named(&self, instruction: Instruction, at: usize) -> Vec<usize> {
        match instruction {
            Br { addr } => vec![addr.into()],
            Ret | Retsk => vec![],
            Skt { .. } | Skf { .. } | Ske { .. } | Skne { .. } | Skge { .. } | Sklt { .. } => {
                vec![next(at), next(next(at))]
            }
            _ => vec![next(at)],
        }
    }

    /// Rule 5.
    fn calls_well(&self, target: usize, at: usize) -> bool {
        let own = self.levels[at];
        let bound = self.shared(at) != 0;
        !holds(own, 1 << DEEPEST)
            && holds(self.levels(target), own << 1)
            && (!bound || holds(self.levels(next(next(at))), own))
    }

    /// The depths of a CALL's raised range that a reached RETSK shares.
    pub fn shared(&self, at: usize) -> u8 {
        self.levels[at] << 1 & self.retsks
    }

    /// The levels of a word, none past the ROM.
    pub fn levels(&self, word: usize) -> u8 {
        self.levels.get(word).copied().unwrap_or_default()
    }
}

/// "Next" is PC + 1, 0 after 1,023.
pub fn next(word: usize) -> usize {
    (word + 1) % 1024
}

/// Is this PEEK, POKE, GET or PUT with what is not there?
pub fn meets_30(word: u16) -> bool {
    transfers::taken(word).is_some_and(|(kind, address)| transfers::missing(kind, address))
}
