//! A sheet's entries as document 02, E5, has them: a range is the set of its
//! levels, one bit each, and one range holds another or shares a depth with it
//! as their sets do.

use crate::host::UNREACHED;

/// The lowest level, and the highest.
pub type Entry = [u8; 2];

/// A word that is never reached.
pub const NEVER: Entry = [UNREACHED; 2];

/// The level that no CALL leaves.
pub const DEEPEST: u8 = 5;

/// The entries of a sheet. An odd byte behind them is none.
pub fn entries(sheet: &[u8]) -> &[Entry] {
    sheet.as_chunks().0
}

/// The levels of an entry, one bit each: none where its word is not reached.
pub fn levels([lowest, highest]: Entry) -> u8 {
    if highest > DEEPEST {
        return 0;
    }
    (lowest..=highest).fold(0, |set, level| set | 1 << level)
}

pub fn is_reached(entry: Entry) -> bool {
    levels(entry) != 0
}

/// Is this an entry at all? One that is none breaks rule 2.
pub fn is_proper(entry: Entry) -> bool {
    entry == NEVER || is_reached(entry)
}

/// Has it more than one level?
pub fn is_wide(entry: Entry) -> bool {
    levels(entry).count_ones() > 1
}

/// Can form 1 have this sheet: has every entry equal halves?
pub fn is_single(sheet: &[u8]) -> bool {
    entries(sheet).iter().all(|[lowest, highest]| lowest == highest)
}

/// Has the first set every level of the second?
pub fn holds(levels: u8, others: u8) -> bool {
    levels & others == others
}
