//! The check with a range of levels at each word: document 02, E5.

use crate::kit::*;
use reference::sheet::{entry_in_range, of_levels, NEVER};
use reference::Instruction::{self, *};
use reference::{decode, encode, Model, Verdict};

/// An entry: lowest, highest.
type Entry = [u8; 2];

const NONE: Entry = [NEVER; 2];

fn fail(word: u16, rule: u8) -> Verdict {
    Verdict::Fail { word, rule }
}

fn check(program: &[Instruction], sheet: &[Entry]) -> Verdict {
    raw(&rom(program), sheet.as_flattened())
}

fn raw(rom: &[u16], sheet: &[u8]) -> Verdict {
    reference::verify(Model::Upd17132, rom, sheet)
}

fn pass_or(good: bool, other: Verdict) -> Verdict {
    if good {
        Verdict::Pass
    } else {
        other
    }
}

fn stay(addr: u16) -> Instruction {
    Br { addr }
}

/// All ranges of levels.
fn ranges() -> Vec<Entry> {
    (0..=5).flat_map(|lowest| (lowest..=5).map(move |highest| [lowest, highest])).collect()
}

/// Ranges and what is none, halves at every edge.
fn entries() -> Vec<Entry> {
    let halves = [0, 1, 2, 3, 4, 5, 6, 14, 15, 16, 255];
    halves.into_iter().flat_map(|lowest| halves.map(|highest| [lowest, highest])).collect()
}

fn all_entries() -> impl Iterator<Item = Entry> {
    (0..=u16::MAX).map(u16::to_be_bytes)
}

fn is_range([lowest, highest]: Entry) -> bool {
    lowest <= highest && highest <= 5
}

fn is_entry(entry: Entry) -> bool {
    is_range(entry) || entry == NONE
}

/// The levels of an entry; none where its word is not reached.
fn levels(entry: Entry) -> Vec<u8> {
    (entry[0]..=entry[1]).filter(|_| is_range(entry)).collect()
}

fn holds(entry: Entry, wanted: &[u8]) -> bool {
    wanted.iter().all(|level| levels(entry).contains(level))
}

fn up(entry: Entry) -> Vec<u8> {
    levels(entry).iter().map(|level| level + 1).collect()
}

/// Document 02's rules over sets of levels, one after the other.
pub fn plain(rom: &[u16], sheet: &[u8]) -> Verdict {
    let entry = |word: u16| [sheet[2 * usize::from(word)], sheet[2 * usize::from(word) + 1]];
    let words = rom.len() as u16;
    for word in 0..words {
        let broken = |rule| match rule {
            1 => word == 0 && !levels(entry(0)).contains(&0),
            2 => !is_entry(entry(word)),
            _ => is_range(entry(word)) && breaks(rom, &entry, word, rule),
        };
        if let Some(rule) = (1..=6).find(|&rule| broken(rule)) {
            return fail(word, rule);
        }
    }
    Verdict::Pass
}

/// Does a reached word break this rule of 3 to 6?
fn breaks(rom: &[u16], entry: &impl Fn(u16) -> Entry, word: u16, rule: u8) -> bool {
    let own = levels(entry(word));
    let next = |word: u16| (word + 1) % 1024;
    let has =
        |word: u16, wanted: &[u8]| usize::from(word) < rom.len() && holds(entry(word), wanted);
    let instruction = decode(rom[usize::from(word)]);
    match (rule, instruction) {
        (3, None | Some(Ei | Di | Reti | BrAr | CallAr | PushAr | PopAr)) => true,
        (3, Some(Movt)) => rom.len() != 1024 || own.contains(&5),
        (3, Some(other)) => meets_30(other),
        (4, Some(Br { addr })) => !has(addr, &own),
        (4, Some(Ret | Retsk)) => false,
        (
            4,
            Some(Ske { .. } | Skne { .. } | Skge { .. } | Sklt { .. } | Skt { .. } | Skf { .. }),
        ) => !has(next(word), &own) || !has(next(next(word)), &own),
        (4, _) => !has(next(word), &own),
        (5, Some(Call { addr })) => {
            let retsk = encode(Retsk).unwrap();
            let deeper = up(entry(word));
            let shares = (0..rom.len() as u16).any(|other| {
                rom[usize::from(other)] == retsk
                    && levels(entry(other)).iter().any(|level| deeper.contains(level))
            });
            own.contains(&5) || !has(addr, &deeper) || shares && !has(next(next(word)), &own)
        }
        (6, Some(Ret | Retsk)) => own.contains(&0),
        _ => false,
    }
}

/// Two bytes for each word; every other length is 9, odd ones too, after 1.
#[test]
fn lengths() {
    for words in 1..5 {
        let rom = vec![encode(stay(0)).unwrap(); words];
        for bytes in 0..12 {
            let verdict = raw(&rom, &vec![0; bytes]);
            assert_eq!(verdict == Verdict::Refused(9), bytes != 2 * words, "{words} {bytes}");
        }
    }
    for bytes in [0, 1, 2, 2050] {
        assert_eq!(raw(&[], &vec![0; bytes]), Verdict::Refused(1));
        assert_eq!(raw(&[0; 1025], &vec![0; bytes]), Verdict::Refused(1));
    }
    let full = vec![encode(Nop).unwrap(); 1024];
    for bytes in [1024, 2046, 2047, 2049, 2050] {
        assert_eq!(raw(&full, &vec![0; bytes]), Verdict::Refused(9));
    }
    assert_eq!(raw(&full, &[0; 2048]), Verdict::Pass);
    for model in Model::ALL {
        let words = model.rom_words();
        let check = |words: usize| reference::verify(model, &full[..words], &vec![0; words]);
        assert_eq!(check(words), Verdict::Refused(9));
    }
}

#[test]
fn which_bytes_are_an_entry() {
    for entry in all_entries() {
        let good = ranges().contains(&entry) || entry == [15, 15];
        assert_eq!(entry_in_range(entry), good, "{entry:?}");
        assert_eq!(is_entry(entry), good, "{entry:?}");
    }
    assert_eq!(ranges().len(), 21);
}

/// A sheet of single levels, whatever its bytes are.
#[test]
fn sheets_of_levels() {
    let bytes: Vec<u8> = (0..=255).collect();
    let sheet = of_levels(&bytes);
    assert_eq!(sheet.len(), 512);
    for (entry, byte) in sheet.chunks(2).zip(bytes) {
        assert_eq!(entry, [byte, byte]);
    }
    assert!(of_levels(&[]).is_empty());
}

/// Rule 1 comes before rule 2: an entry that is none has no level.
#[test]
fn rule_1() {
    for entry in all_entries() {
        let good = entry[0] == 0 && entry[1] <= 5;
        assert_eq!(check(&[stay(0)], &[entry]), pass_or(good, fail(0, 1)), "{entry:?}");
    }
}

#[test]
fn rule_2() {
    for entry in all_entries() {
        let verdict = check(&[stay(0), stay(1)], &[[0, 0], entry]);
        assert_eq!(verdict, pass_or(is_entry(entry), fail(1, 2)), "{entry:?}");
        // Its word is not reached, and breaks no other rule.
        let verdict = check(&[stay(0), Ei], &[[0, 0], entry]);
        let reached = if is_range(entry) { fail(1, 3) } else { fail(1, 2) };
        assert_eq!(verdict, pass_or(entry == NONE, reached), "{entry:?}");
    }
}

#[test]
fn rule_3_for_movt() {
    let mut full = vec![encode(stay(0)).unwrap(); 1024];
    full[1..3].copy_from_slice(&rom(&[Movt, stay(2)]));
    for range in ranges() {
        let mut sheet = vec![[0, 0]; 1024];
        sheet[1..3].fill(range);
        let wanted = pass_or(range[1] <= 4, fail(1, 3));
        assert_eq!(raw(&full, sheet.as_flattened()), wanted, "{range:?}");
    }
}

/// The words that rule 4 names hold the word's whole range; they may hold more.
#[test]
fn rule_4() {
    let skip = Skt { m: 0x10, n: 1 };
    for range in ranges() {
        for named in entries() {
            let good = holds(named, &levels(range));
            // What is no entry breaks rule 2 too, at a higher word.
            let wanted = pass_or(good, fail(1, 4));
            let next = [stay(0), Nop, stay(2), stay(3)];
            assert_eq!(check(&next, &[[0, 0], range, named, range]), wanted);
            let branch = [stay(0), stay(2), stay(2), stay(3)];
            assert_eq!(check(&branch, &[[0, 0], range, named, range]), wanted);
            let skips = [stay(0), skip, stay(2), stay(3)];
            assert_eq!(check(&skips, &[[0, 0], range, named, range]), wanted);
            assert_eq!(check(&skips, &[[0, 0], range, range, named]), wanted);
        }
    }
}

/// CALL's target holds the range raised by one.
#[test]
fn rule_5_for_the_target() {
    for range in ranges() {
        for target in entries() {
            let good = range[1] <= 4 && holds(target, &up(range));
            let program = [stay(0), Call { addr: 3 }, stay(2), stay(3)];
            let verdict = check(&program, &[[0, 0], range, range, target]);
            assert_eq!(verdict, pass_or(good, fail(1, 5)), "{range:?} {target:?}");
        }
    }
}

/// The word after next is bound where a reached RETSK shares a level with the
/// raised range, and then to CALL's whole range.
#[test]
fn rule_5_for_the_word_after_next() {
    let program = [stay(0), Call { addr: 4 }, stay(2), stay(3), stay(4), Retsk];
    for range in ranges().into_iter().filter(|range| range[1] <= 4) {
        let target = [range[0] + 1, range[1] + 1];
        for back in entries() {
            for after in entries() {
                let shares = levels(back).iter().any(|level| up(range).contains(level));
                let verdict = check(&program, &[[0, 0], range, range, after, target, back]);
                let first = if shares && !holds(after, &levels(range)) {
                    fail(1, 5)
                } else if !is_entry(after) {
                    fail(3, 2)
                } else if !is_entry(back) {
                    fail(5, 2)
                } else {
                    pass_or(back[0] > 0, fail(5, 6))
                };
                assert_eq!(verdict, first, "{range:?} {back:?} {after:?}");
            }
        }
    }
}

/// One shared level is enough, and binds the whole range.
#[test]
fn one_shared_level() {
    let program = [stay(0), Call { addr: 4 }, stay(2), stay(3), Ret, Retsk];
    let check = |after, back| check(&program, &[[0, 0], [0, 2], [0, 2], after, [1, 3], back]);
    for back in [[1, 1], [3, 3], [3, 5], [1, 5], [2, 2]] {
        assert_eq!(check([0, 2], back), Verdict::Pass);
        assert_eq!(check([0, 5], back), Verdict::Pass);
        for after in [[0, 0], [1, 1], [2, 2], [0, 1], [1, 2], [1, 5], NONE] {
            assert_eq!(check(after, back), fail(1, 5), "{after:?} {back:?}");
        }
    }
    for back in [[4, 4], [4, 5], NONE] {
        assert_eq!(check(NONE, back), Verdict::Pass);
    }
}

#[test]
fn rule_6() {
    for back in [Ret, Retsk] {
        for range in ranges() {
            let verdict = check(&[stay(0), back], &[[0, 0], range]);
            assert_eq!(verdict, pass_or(range[0] >= 1, fail(1, 6)), "{range:?}");
        }
    }
}

/// The debounce routine at 5 is called from the main loop and from the lamp
/// routine at 3. No sheet of single levels fits it.
#[test]
fn the_debounce_routine() {
    let main = [Call { addr: 5 }, Call { addr: 3 }, stay(0)];
    let program = [main[0], main[1], main[2], Call { addr: 5 }, Ret, Nop, Ret];
    let sheet = [[0, 0], [0, 0], [0, 0], [1, 1], [1, 1], [1, 2], [1, 2]];
    assert_eq!(check(&program, &sheet), Verdict::Pass);
    let levels = [0, 1, 2, 3, 4, 5, NEVER];
    for place in 0..7_usize.pow(7) {
        let single: Vec<u8> = (0..7).map(|word| levels[place / 7_usize.pow(word) % 7]).collect();
        assert_ne!(verify(&rom(&program), &single), Verdict::Pass);
    }
    // Nor does a narrower range.
    for word in [5, 6] {
        for range in [[1, 1], [2, 2]] {
            let mut narrow = sheet;
            narrow[word] = range;
            assert_ne!(check(&program, &narrow), Verdict::Pass);
        }
    }
}

/// The lowest word is named, and its lowest rule.
#[test]
fn which_fault_is_named() {
    // A word that names what is no entry breaks its own rule.
    assert_eq!(check(&[Nop, stay(1)], &[[0, 0], [0, 9]]), fail(0, 4));
    assert_eq!(check(&[Nop, stay(1)], &[[0, 0], [0, 15]]), fail(0, 4));
    assert_eq!(check(&[stay(0), stay(1)], &[[0, 0], [0, 9]]), fail(1, 2));
    assert_eq!(check(&[stay(0), stay(1)], &[[0, 9], [0, 9]]), fail(0, 1));
    assert_eq!(check(&[stay(0), Ret], &[[0, 1], [0, 1]]), fail(1, 6));
    assert_eq!(check(&[Ret], &[[0, 1]]), fail(0, 6));
    assert_eq!(check(&[Ret], &[[1, 1]]), fail(0, 1));
}

/// A small program of words that the rules ask for, and its sheet.
fn small(random: &mut Random) -> (Vec<u16>, Vec<u8>) {
    let words = 2 + random.below(6);
    let rom = (0..words).map(|_| {
        let addr = random.below(words + 1) as u16;
        let any = [Nop, Retsk, Ret, Movt, Ske { m: 0, n: 0 }, Poke { rf: 0x11 }, Ei];
        let instruction = match random.below(3) {
            0 => Br { addr },
            1 => Call { addr },
            _ => any[random.below(7) as usize],
        };
        encode(instruction).unwrap()
    });
    let rom: Vec<u16> = rom.collect();
    let loose = random.below(4) == 0;
    let entry = |_| {
        let lowest = random.below(2) as u8;
        let highest = lowest + random.below(4) as u8;
        match random.below(8) {
            0 => NONE,
            1 if loose => [random.below(17) as u8, random.below(17) as u8],
            _ => [lowest, highest],
        }
    };
    let mut sheet: Vec<Entry> = (0..words).map(entry).collect();
    sheet[0][0] = 0;
    (rom, sheet.into_flattened())
}

/// Small ROMs with any sheet, against the rules over sets of levels.
#[test]
fn random_sheets() {
    let mut random = Random::new(11);
    let (mut passed, mut rules) = (0, [0; 7]);
    for _ in 0..500_000 {
        let (rom, sheet) = small(&mut random);
        let verdict = raw(&rom, &sheet);
        assert_eq!(verdict, plain(&rom, &sheet), "{rom:04X?} {sheet:?}");
        match verdict {
            Verdict::Fail { rule, .. } => rules[usize::from(rule)] += 1,
            _ => passed += 1,
        }
    }
    assert!(passed > 1_000, "{passed} passed");
    assert!(rules[1..].iter().all(|&count| count > 1_000), "{rules:?}");
}
