//! The level sheet: for each word the lowest and the highest number of calls
//! that are open there, a byte each (document 01, "Clearance rules"; document
//! 02, E5).

/// Both bytes of an entry whose word is never reached.
pub const NEVER: u8 = 15;

/// Bytes of one entry: its lowest level, then its highest.
pub const ENTRY_BYTES: usize = 2;

/// The highest level.
const DEEPEST: u8 = 5;

/// Is this a sheet entry: a range of levels 0 to 5, or never reached?
pub fn entry_in_range(entry: [u8; ENTRY_BYTES]) -> bool {
    Range::of(entry).in_range()
}

/// A sheet of single levels, one byte an entry, as one of ranges. It is for any
/// bytes: what was no level becomes no range.
pub fn of_levels(levels: &[u8]) -> Vec<u8> {
    levels.iter().flat_map(|&level| [level; ENTRY_BYTES]).collect()
}

/// An entry's levels, from the lowest to the highest.
#[derive(Clone, Copy, PartialEq, Eq)]
pub(crate) struct Range {
    pub lowest: u8,
    pub highest: u8,
}

impl Range {
    /// The level at reset.
    pub const RESET: Range = Range { lowest: 0, highest: 0 };

    pub fn of([lowest, highest]: [u8; ENTRY_BYTES]) -> Range {
        Range { lowest, highest }
    }

    /// A word is reached if its entry is a range of levels 0 to 5.
    pub fn reached(self) -> bool {
        self.lowest <= self.highest && self.highest <= DEEPEST
    }

    pub fn in_range(self) -> bool {
        self.reached() || self == Range::of([NEVER; ENTRY_BYTES])
    }

    /// Has it every level of another range? A word that is not reached has none.
    pub fn holds(self, other: Range) -> bool {
        self.reached() && self.lowest <= other.lowest && other.highest <= self.highest
    }

    /// Its levels, one bit each.
    pub fn levels(self) -> u8 {
        (2 << self.highest) - (1 << self.lowest)
    }
}

/// What only the deliberate faults ask of a range.
impl Range {
    /// The range from the lowest to the highest of some levels, one bit each.
    pub fn around(levels: u8) -> Range {
        Range { lowest: levels.trailing_zeros() as u8, highest: levels.ilog2() as u8 }
    }

    /// Is one half 15 and the other a level?
    pub fn half_never(self) -> bool {
        let Range { lowest, highest } = self;
        lowest == NEVER && highest <= DEEPEST || lowest <= DEEPEST && highest == NEVER
    }

    /// Are both halves levels, and the lowest above the highest?
    pub fn turned(self) -> bool {
        self.highest < self.lowest && self.lowest <= DEEPEST
    }

    /// The same, but no higher than the highest level.
    pub fn cut(self) -> Range {
        Range { highest: self.highest.min(DEEPEST), ..self }
    }
}
