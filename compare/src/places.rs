//! What has a range, and the values at which `edges` tries it: those of refusal
//! 1, in the words of documents 01 and 02 and without either emulator's
//! constants.

use std::sync::OnceLock;

use reference::Model;

/// What has a range.
#[derive(Clone, Copy, Debug)]
pub enum Place {
    Cell(usize),
    Pc,
    Levels,
    /// A stack place with so many levels open.
    Stack(usize, u8),
    Skip,
    Standby,
    /// A control register by its place in the record.
    Register(usize),
    Modulo,
    Counter,
    Divider,
    Pin(usize),
    Direction(usize),
    Release,
    Pulse,
    Words,
    Budget,
}

pub use Place::*;

/// A value at a place, on a model.
#[derive(Clone, Copy, Debug)]
pub struct Edge {
    pub model: Model,
    pub place: Place,
    pub value: u32,
}

/// How many there are.
pub const COUNT: u64 = 79_802;

/// The words of the longest ROM: document 02, E1.
pub fn most_words(model: Model) -> usize {
    match model {
        Model::Upd17132 => 1_024,
        Model::Upd17120 => 768,
    }
}

/// Is a cell not installed? Document 02, E1.
pub fn lacks(model: Model, address: u8) -> bool {
    model == Model::Upd17120 && (0x40..=0x6E).contains(&address)
}

/// The bits of a cell that are not always 0: document 01, "The machine's
/// record", and 02, E1.
pub fn free_bits(model: Model, address: usize) -> u32 {
    match address {
        _ if lacks(model, address as u8) => 0,
        0x74 | 0x79 | 0x7D => 0,
        0x75 | 0x6F => 0b0011,
        0x7A => 0b1000,
        0x7B => 0b0111,
        _ => 0b1111,
    }
}

/// The bits that a control register keeps: 11H without TMRES, 12H, 24H, and
/// 32H to 35H (document 02, E4; source 000, fig. 13-2, 13-7, 12-2 and 12-3).
pub fn kept_bits(place: usize) -> u32 {
    match place {
        0 => 0b1011,
        1 | 2 => 0b0001,
        3 => 0b0011,
        _ => 0b1111,
    }
}

/// Every place with its values.
pub fn edges() -> &'static [Edge] {
    static EDGES: OnceLock<Vec<Edge>> = OnceLock::new();
    EDGES.get_or_init(|| {
        let mut places = vec![Pc, Levels, Skip, Standby, Release, Words, Budget];
        places.extend([Modulo, Counter, Divider, Pulse]);
        places.extend((0..128).map(Cell));
        places.extend((0..7).map(Register));
        for at in 0..5 {
            places.extend([Pin(at), Direction(at)]);
            places.extend((0..=5).map(|open| Stack(at, open)));
        }
        let values = |&place: &Place| place.values().into_iter();
        let of = |model| {
            places
                .iter()
                .flat_map(move |p| values(p).map(move |v| Edge { model, place: *p, value: v }))
        };
        Model::ALL.into_iter().flat_map(of).collect()
    })
}

impl Place {
    /// The values tried: all of a byte, and of a longer number those around
    /// its edges and each bit alone.
    fn values(self) -> Vec<u32> {
        let bits = |width: u32| (0..width).map(|bit| 1 << bit);
        match self {
            Pc | Stack(..) => bits(16).chain([0, 767, 768, 1_023, 1_025, 65_535]).collect(),
            Words => vec![
                0, 1, 2, 767, 768, 769, 1_023, 1_024, 1_025, 2_048, 65_535, 65_536, 65_537, 66_304,
                66_560,
            ],
            Budget => bits(32).chain([0, 65_535, 65_537, u32::MAX]).collect(),
            _ => (0..=255).collect(),
        }
    }

    /// Is a value in range? Document 01, "Refusal numbers", and document 02, E1
    /// and E4; of the marks, skip 0 and 1 are, and standby 0 to 2.
    fn takes(self, model: Model, value: u32) -> bool {
        match self {
            Cell(address) => value & !free_bits(model, address) == 0,
            Pc => value <= 1_023,
            Levels => value <= 5,
            Stack(place, open) if place < usize::from(open) => value <= 1_023,
            Stack(..) => value == 0,
            Skip | Release | Pulse => value <= 1,
            Standby => value <= 2,
            Register(place) => value & !kept_bits(place) == 0,
            Modulo | Counter => true,
            Divider => value <= 127,
            Pin(_) | Direction(_) => value <= 15,
            Words => (1..=most_words(model)).contains(&(value as usize)),
            Budget => value <= 65_535,
        }
    }
}

impl Edge {
    pub fn in_range(self) -> bool {
        self.place.takes(self.model, self.value)
    }
}
