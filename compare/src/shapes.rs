//! ROMs and sheets of shapes that random ones seldom have.

use reference::Model;

use crate::damages::entry;
use crate::random::Random;
use crate::roms::Passing;
use crate::sheets::{Entry, NEVER};
use crate::words;

/// A few words and entries that often go together.
pub fn small(random: &mut Random, model: Model) -> Passing {
    let words = random.below(7);
    let [often, other] = [ordered(random), ordered(random)];
    let entries = (0..words).map(|at| match random.below(16) {
        0 => entry(random),
        1 => NEVER,
        2..=5 => other,
        _ if at == 0 => [0, often[1]],
        _ => often,
    });
    let sheet = entries.collect::<Vec<Entry>>().into_flattened();
    let rom = (0..words).map(|_| match random.below(8) {
        0 if random.once_in(8) => words::call(768 + random.word(256)),
        0 => words::call(random.word(words + 1)),
        1 if random.once_in(8) => words::br(768 + random.word(256)),
        1..=2 => words::br(random.word(words)),
        3 => words::RET,
        4 => words::RETSK,
        5 => words::skip(random),
        6 => words::NOP,
        _ => words::any(random),
    });
    Passing { model, rom: rom.collect(), sheet }
}

/// A range of levels.
fn ordered(random: &mut Random) -> Entry {
    let mut entry = [random.byte(6), random.byte(6)];
    entry.sort();
    entry
}

/// A CALL with its next word, the word after next, its target and a RETSK that it
/// need not go to, each with a range of its own.
pub fn call(random: &mut Random, model: Model) -> Passing {
    let own = ordered(random);
    let raised = own.map(|level| (level + 1).min(5));
    let near = |random: &mut Random, [lowest, highest]: Entry| match random.below(4) {
        0 => [lowest.saturating_sub(1), highest],
        1 => [lowest, (highest + 1).min(5)],
        2 => ordered(random),
        _ => [lowest, highest],
    };
    let held = [own[0].saturating_sub(random.byte(2)), own[1]];
    let entries = [[0, 0], own, held, near(random, own), near(random, raised), ordered(random)];
    let [first, next, after, target] = [0, 2, 3, 4].map(words::br);
    let rom = vec![first, words::call(4), next, after, target, words::RETSK];
    Passing { model, rom, sheet: entries.as_flattened().to_vec() }
}

/// A longest ROM: word 0 alone, and behind it NOPs of a range that no word leads
/// to, one of them a MOVT.
pub fn table(random: &mut Random) -> Passing {
    let range = ordered(random);
    let mut rom = vec![words::NOP; 1024];
    let mut entries = vec![range; 1024];
    (rom[0], entries[0]) = (words::br(0), [0, 0]);
    rom[1 + random.below(1022) as usize] = words::MOVT;
    rom[1023] = words::br(1023);
    Passing { model: Model::Upd17132, rom, sheet: entries.into_flattened() }
}
