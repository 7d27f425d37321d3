//! Random ROMs with their sheets that pass the check for a model, of any length.

use reference::Model;

use crate::random::Random;
use crate::routines;
use crate::sheets::{holds, levels as levels_of, Entry, DEEPEST, NEVER};
use crate::transfers::{self, Kind};
use crate::words;

#[derive(Clone)]
pub struct Passing {
    pub model: Model,
    pub rom: Vec<u16>,
    /// Two bytes an entry.
    pub sheet: Vec<u8>,
}

/// A ROM of so many words: stretches of random entries first, then for each
/// word an instruction that the stretches allow; or a main loop with routines.
pub fn passing(random: &mut Random, model: Model, words: usize) -> Passing {
    let stray = stray(random, model);
    if words >= routines::LEAST && random.once_in(3) {
        return routines::passing(random, model, words, stray);
    }
    let entries = stretches(random, words);
    let plan = Plan::new(random, &entries, stray);
    let rom = (0..words).map(|at| plan.word(random, at)).collect();
    Passing { model, rom, sheet: entries.into_flattened() }
}

/// One word in so many may leave the cells of the 17120; 1 where none need stay
/// there.
fn stray(random: &mut Random, model: Model) -> u64 {
    match model {
        Model::Upd17132 => 1,
        Model::Upd17120 => random.pick(&[1, 20, 200, 2_000]),
    }
}

/// The sheet: level 0 first. One in three has single levels only. Of a longest
/// ROM the last words often have level 0 too, so that the PC can go on from
/// 1,023 to 0.
fn stretches(random: &mut Random, words: usize) -> Vec<Entry> {
    let widest = if random.once_in(3) { 0 } else { DEEPEST };
    let longest = random.pick(&[4, 12, 40]);
    let mut entries = Vec::with_capacity(words);
    let mut entry = range(random, 0, widest);
    while entries.len() < words {
        let stretch = 1 + random.below(longest) as usize;
        let end = words.min(entries.len() + stretch);
        entries.resize(end, entry);
        entry = another(random, entry, widest);
    }
    if words == 1024 && !random.once_in(4) {
        entries[1018..].fill([0, 0]);
    }
    entries
}

/// A range from a lowest level on, often that level alone.
fn range(random: &mut Random, lowest: u8, widest: u8) -> Entry {
    let more = if random.once_in(2) { 0 } else { widest.min(DEEPEST - lowest) };
    [lowest, lowest + random.byte(u64::from(more) + 1)]
}

/// The entry of the next stretch: often one level higher, or one that holds the
/// entry before.
fn another(random: &mut Random, [lowest, highest]: Entry, widest: u8) -> Entry {
    let lowest_now = match random.below(9) {
        0 => return NEVER,
        1..=2 => 0,
        3..=4 => return [lowest, highest].map(|level| (level % NEVER[0] + 1).min(DEEPEST)),
        5 if lowest <= DEEPEST && widest > 0 => {
            let more = random.byte(u64::from(DEEPEST - highest) + 1);
            return [random.byte(u64::from(lowest) + 1), highest + more];
        }
        _ => random.byte(6),
    };
    range(random, lowest_now, widest)
}

/// What the words are chosen by.
struct Plan {
    /// The levels of each word.
    levels: Vec<u8>,
    stray: u64,
    /// The words that hold each range, by its set of levels.
    holders: Vec<Vec<u16>>,
    /// The levels that RETSK may have.
    skipping: u8,
}

impl Plan {
    fn new(random: &mut Random, entries: &[Entry], stray: u64) -> Plan {
        let levels: Vec<u8> = entries.iter().map(|&entry| levels_of(entry)).collect();
        let mut holders = vec![vec![]; 64];
        for lowest in 0..=DEEPEST {
            for highest in lowest..=DEEPEST {
                let set = levels_of([lowest, highest]);
                let all = (0..).zip(&levels).filter(|(_, &own)| holds(own, set));
                holders[usize::from(set)] = all.map(|(at, _)| at).collect();
            }
        }
        Plan { levels, stray, holders, skipping: random.byte(64) & random.byte(64) }
    }

    /// A word for the place `at`. Where nothing chosen fits: back, or BR.
    fn word(&self, random: &mut Random, at: usize) -> u16 {
        let own = self.levels[at];
        if own == 0 {
            return words::any(random);
        }
        for _ in 0..6 {
            if let Some(word) = self.chosen(random, at, own) {
                return word;
            }
        }
        if !holds(own, 1) && !random.once_in(3) {
            return self.back(random, own);
        }
        self.branch(random, own)
    }

    fn chosen(&self, random: &mut Random, at: usize, own: u8) -> Option<u16> {
        let next = self.follows(at, 1, own);
        let both = next && self.follows(at, 2, own);
        let table = self.levels.len() == 1024 && !holds(own, 1 << DEEPEST);
        match random.below(44) {
            0..=17 => next.then(|| within(random, self.stray, words::plain)),
            18..=25 => both.then(|| within(random, self.stray, words::skip)),
            26..=33 => self.call(random, next, both, own),
            34..=35 => (next && table).then_some(words::MOVT),
            36 => next.then(|| words::halt(random)),
            37 => Some(self.branch(random, own)),
            38..=41 => next.then(|| within(random, self.stray, transfers::allowed)),
            _ => (!holds(own, 1)).then(|| self.back(random, own)),
        }
    }

    /// Rule 5: the word after next too, where a RETSK may share a depth.
    fn call(&self, random: &mut Random, next: bool, both: bool, own: u8) -> Option<u16> {
        let called = self.holders.get(usize::from(own << 1))?;
        let bound = own << 1 & self.skipping != 0;
        let fits = next && (both || !bound) && !called.is_empty();
        fits.then(|| words::call(random.pick(called)))
    }

    fn branch(&self, random: &mut Random, own: u8) -> u16 {
        words::br(random.pick(&self.holders[usize::from(own)]))
    }

    /// RET, or RETSK where it may stand.
    fn back(&self, random: &mut Random, own: u8) -> u16 {
        if holds(self.skipping, own) && random.once_in(2) {
            words::RETSK
        } else {
            words::RET
        }
    }

    /// Holds the word so many places on these levels too?
    fn follows(&self, at: usize, on: usize, own: u8) -> bool {
        self.levels.get((at + on) & 0x3FF).is_some_and(|&levels| holds(levels, own))
    }
}

/// A word that stays in the cells of the 17120, or one that may not.
pub fn within(random: &mut Random, stray: u64, make: fn(&mut Random) -> u16) -> u16 {
    loop {
        let word = make(random);
        if stays(word) || random.once_in(stray) {
            return word;
        }
    }
}

/// Does a word work on cells of the 17120, and leave index, row pointer and PSW,
/// which move the operands of others?
fn stays(word: u16) -> bool {
    let own = |address: u8| matches!(address, 0..0x40 | 0x6F..0x7A);
    match transfers::taken(word) {
        Some((Kind::Peek | Kind::Poke, address)) => own(address),
        _ if words::is_indirect(word) => words::m_field(word) < 0x40,
        _ => !words::has_data(word) || own(words::m_field(word)),
    }
}
