//! ROMs with routines that are called from several depths, and the narrowest
//! sheet for each: document 02, E5.

use crate::kit::*;
use crate::ranges::plain;
use crate::walks::on_timer;
use reference::sheet::NEVER;
use reference::Instruction::{self, *};
use reference::{decode, encode, Model, Verdict};

/// Words of the main loop, and of each routine.
const BLOCK: u16 = 16;
/// A main loop and five routines: one calls only those behind it.
const BLOCKS: u16 = 6;

/// A ROM with its narrowest sheet, which passes.
pub fn shared_rom(random: &mut Random) -> (Vec<u16>, Vec<u8>) {
    let rom = blocks(random);
    let sheet = narrowest(&rom);
    (rom, sheet)
}

/// Each block ends in two branches to its front or, in a routine, two returns.
fn blocks(random: &mut Random) -> Vec<u16> {
    let mut rom = Vec::new();
    for block in 0..BLOCKS {
        for place in 0..BLOCK {
            let end = Br { addr: BLOCK * block + random.below(14) as u16 };
            let instruction = match (place >= BLOCK - 2, block) {
                (false, _) => inner(random, block),
                (true, 0) => end,
                (true, _) => [Ret, Retsk, Ret, end][random.below(4) as usize],
            };
            rom.push(encode(instruction).unwrap());
        }
    }
    rom
}

/// An instruction that stays in its block or calls a routine behind it.
fn inner(random: &mut Random, block: u16) -> Instruction {
    let behind = u64::from(BLOCKS - 1 - block);
    match random.below(16) {
        0 => Br { addr: BLOCK * block + random.below(14) as u16 },
        1..=3 if behind > 0 => Call {
            addr: BLOCK * (block + 1 + random.below(behind) as u16) + random.below(8) as u16,
        },
        4 if block > 0 => [Ret, Retsk][random.below(2) as usize],
        5 => on_timer(random),
        6 | 7 => Skt { m: 0x70, n: 1 << random.below(4) },
        _ => AddMN { m: random.below(128) as u8, n: random.nibble() },
    }
}

/// The narrowest sheet: word 0 has level 0, and every reached word gives what it
/// asks for to the words that it names, until nothing changes.
fn narrowest(rom: &[u16]) -> Vec<u8> {
    let mut sheet = vec![[NEVER; 2]; rom.len()];
    sheet[0] = [0, 0];
    loop {
        let before = sheet.clone();
        for word in 0..rom.len() {
            if sheet[word] != [NEVER; 2] {
                widen(rom, &mut sheet, word);
            }
        }
        if sheet == before {
            return sheet.into_flattened();
        }
    }
}

/// Widens the words that a reached word names.
fn widen(rom: &[u16], sheet: &mut [[u8; 2]], word: usize) {
    let own = sheet[word];
    match decode(rom[word]).unwrap() {
        Br { addr } => join(sheet, addr.into(), own),
        Ret | Retsk => {}
        Skt { .. } => {
            join(sheet, word + 1, own);
            join(sheet, word + 2, own);
        }
        Call { addr } => {
            let called = own.map(|level| level + 1);
            join(sheet, word + 1, own);
            join(sheet, addr.into(), called);
            if returns_with_skip(rom, sheet, called) {
                join(sheet, word + 2, own);
            }
        }
        _ => join(sheet, word + 1, own),
    }
}

/// Has a reached RETSK a level of this range?
fn returns_with_skip(rom: &[u16], sheet: &[[u8; 2]], [lowest, highest]: [u8; 2]) -> bool {
    let retsk = encode(Retsk).unwrap();
    rom.iter().zip(sheet).any(|(&word, entry)| {
        word == retsk && entry[0] != NEVER && entry[0] <= highest && lowest <= entry[1]
    })
}

fn join(sheet: &mut [[u8; 2]], word: usize, [lowest, highest]: [u8; 2]) {
    sheet[word] = match sheet[word] {
        [NEVER, _] => [lowest, highest],
        entry => [entry[0].min(lowest), entry[1].max(highest)],
    };
}

fn check(rom: &[u16], sheet: &[u8]) -> Verdict {
    reference::verify(Model::Upd17132, rom, sheet)
}

/// The narrowest sheet passes, and no sheet that takes something from one entry.
#[test]
fn narrowest_sheets() {
    let mut random = Random::new(21);
    let mut wide = 0;
    for _ in 0..400 {
        let (rom, sheet) = shared_rom(&mut random);
        assert_eq!(check(&rom, &sheet), Verdict::Pass);
        for word in 0..rom.len() {
            let [lowest, highest] = [sheet[2 * word], sheet[2 * word + 1]];
            if lowest == NEVER {
                continue;
            }
            let mut narrow = sheet.clone();
            narrow[2 * word..][..2].fill(NEVER);
            assert_ne!(check(&rom, &narrow), Verdict::Pass);
            if lowest < highest {
                wide += 1;
                for range in [[lowest + 1, highest], [lowest, highest - 1]] {
                    narrow[2 * word..][..2].copy_from_slice(&range);
                    assert_ne!(check(&rom, &narrow), Verdict::Pass);
                }
            }
        }
    }
    assert!(wide > 1_000, "{wide} wide entries");
}

/// Changed in an entry or two, against the rules over sets of levels.
#[test]
fn changed_sheets() {
    let mut random = Random::new(22);
    let (mut passed, mut failed) = (0, 0);
    for _ in 0..300 {
        let (rom, sheet) = shared_rom(&mut random);
        for _ in 0..30 {
            let mut changed = sheet.clone();
            for _ in 0..=random.below(2) {
                let place = random.below(sheet.len() as u64) as usize;
                changed[place] = [0, 1, 2, 3, 4, 5, 6, 15][random.below(8) as usize];
            }
            let verdict = check(&rom, &changed);
            assert_eq!(verdict, plain(&rom, &changed), "{rom:04X?} {changed:?}");
            if verdict == Verdict::Pass {
                passed += 1;
            } else {
                failed += 1;
            }
        }
    }
    assert!(passed > 500 && failed > 500, "{passed} passed, {failed} failed");
}
