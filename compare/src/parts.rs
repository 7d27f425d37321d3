//! The parts of the comparison.

use crate::pair::Finding;
use crate::random::Random;
use crate::tally::Tally;
use crate::{
    codes, cycles, edge_names, edges, entries, events, files, lists, missing, models, places,
    ranges, steps, timer, timer_runs, verdicts,
};

pub struct Part {
    pub name: &'static str,
    /// Cases in the gate.
    pub cases: u64,
    /// Cases with a deliberate fault switched on.
    #[cfg_attr(not(feature = "faults"), allow(dead_code))]
    pub few: u64,
    /// Numbers and things that the gate's cases must see.
    pub numbers: &'static [u8],
    pub things: &'static [&'static str],
    case: fn(&mut Random, u64, &mut Tally) -> Result<(), Finding>,
}

impl Part {
    /// So many cases; the first disagreement as text.
    pub fn go(&self, seed: u64, cases: u64, tally: &mut Tally) -> Result<(), String> {
        let number = self.name.bytes().fold(0, |sum, byte| sum * 31 + u64::from(byte));
        for index in 0..cases {
            let mut random = Random::of_case(seed, number, index);
            (self.case)(&mut random, index, tally).map_err(|found| {
                format!("{}, seed {seed}, case {index}\n{}", self.name, found.0)
            })?;
        }
        Ok(())
    }
}

pub const PARTS: &[Part] = &[
    Part {
        name: "codes",
        cases: 65_536,
        few: 65_536,
        numbers: &[0, 1, 3, 10],
        things: &["words that come back"],
        case: codes::code,
    },
    Part {
        name: "words",
        cases: 65_536,
        few: 5_120,
        numbers: &[0, 2, 3, 4, 5, 6, 7, 8, 30, 31, 255],
        things: events::ALL,
        case: steps::every_word,
    },
    Part {
        name: "steps",
        cases: 8_000_000,
        few: 260_000,
        numbers: &[0, 2, 3, 4, 5, 6, 7, 8, 30, 31, 255],
        things: events::ALL,
        case: steps::random_word,
    },
    Part {
        name: "runs",
        cases: 400_000,
        few: 13_000,
        numbers: &[0, 2, 3, 4, 5, 6, 7, 8, 30, 31, 255],
        things: &[
            "runs of no step",
            "runs of some steps",
            "runs of some steps up to a missing cell",
        ],
        case: steps::random_run,
    },
    Part {
        name: "missing",
        cases: 2_000_000,
        few: 60_000,
        numbers: &[0, 1, 2, 30, 31, 255],
        things: events::missing::ALL,
        case: missing::step,
    },
    Part {
        name: "models",
        cases: 10_240,
        few: 1_024,
        numbers: &[0, 1, 31],
        things: models::ALL,
        case: models::number,
    },
    Part {
        name: "cycles",
        cases: 130_000,
        few: 8_000,
        numbers: &[0, 2, 3, 4, 5, 6, 7, 8, 31],
        things: cycles::ALL,
        case: cycles::run,
    },
    Part {
        name: "timer",
        cases: 3_300_000,
        few: 130_000,
        numbers: &[0, 1, 2, 3, 4, 5, 6, 7, 8, 30, 31, 255],
        things: events::timer::ALL,
        case: timer::step,
    },
    Part {
        name: "timer runs",
        cases: 130_000,
        few: 8_000,
        numbers: &[0, 2, 30, 31],
        things: timer_runs::ALL,
        case: timer_runs::run,
    },
    Part {
        name: "edges",
        cases: places::COUNT,
        few: places::COUNT,
        numbers: &[0, 1, 2, 9, 254, 255],
        things: edge_names::ALL,
        case: edges::edge,
    },
    Part {
        name: "ranges",
        cases: 400_000,
        few: 4_000,
        numbers: &[1],
        things: &[
            "with a fixed bit set",
            "with a cell above 15",
            "with a missing cell not 0",
            "with PC above 1,023",
            "with a stacked address above 1,023",
            "with a closed level not 0",
            "with more than five open levels",
            "with a skip mark above 1",
            "with a standby mark above 2",
            "with TMRES set",
            "with a fixed bit of a register set",
            "with a register above 15",
            "with a divider above 127",
            "with a pin nibble above 15",
            "with a direction nibble above 15",
            "with a release above 1",
            "with a pulse above 1",
            "with a ROM of no words",
            "with a ROM of more than 1,024 words",
            "with a ROM of 769 to 1,024 words for the 17120",
            "with a budget above 65,535",
            "with a budget of 0",
        ],
        case: ranges::one_fault,
    },
    Part {
        name: "verdicts",
        cases: 30_720,
        few: 1_024,
        numbers: &[0, 1, 9, 254],
        things: verdicts::ALL,
        case: verdicts::checks,
    },
    Part {
        name: "lists",
        cases: 8_192,
        few: 120,
        numbers: &[0, 1, 31, 255],
        things: events::lists::ALL,
        case: lists::list,
    },
    Part {
        name: "entries",
        cases: 30_000,
        few: 600,
        numbers: &[],
        things: events::files::ALL,
        case: entries::entry,
    },
    Part {
        name: "files",
        cases: 300,
        few: 60,
        numbers: &[],
        things: &[
            "files refused with 20",
            "files refused with 21",
            "files refused with 22",
            "files refused with 23",
            "files refused with 24",
            "files without a sheet",
            "files whose sheet passes",
            "files whose sheet fails",
            "form 2 files refused with 21",
            "form 2 files refused with 22",
            "form 2 files refused with 23",
            "form 2 files refused with 24",
            "form 2 files whose sheet passes",
            "form 2 files whose sheet fails",
            "texts with a MOVT run",
        ],
        case: files::file,
    },
];
