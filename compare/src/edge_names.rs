//! The edges by name.

use reference::Model;

use crate::places::*;

/// The edges, each of which the part must meet.
pub const ALL: &[&str] = &[
    "cells of 15",
    "cells of 16",
    "cells with one fixed bit",
    "missing cells of 0",
    "missing cells with one bit",
    "missing cells of 15",
    "cells of 15 that the 17120 lacks",
    "PC 767 of the 17120",
    "PC 768 of the 17120",
    "PC 1,023 of the 17120",
    "PC 1,024 of the 17120",
    "open places with 768 of the 17120",
    "open places with 1,023 of the 17120",
    "ROM of 768 for the 17120",
    "ROM of 769 for the 17120",
    "ROM of 1,024 for the 17120",
    "PC 1,023",
    "PC 1,024",
    "5 levels",
    "6 levels",
    "255 levels",
    "open places with 1,023",
    "open places with 1,024",
    "closed places with 0",
    "closed places with 1",
    "skip 0",
    "skip 1",
    "skip 2",
    "skip 255",
    "standby 0",
    "standby 1",
    "standby 2",
    "standby 3",
    "standby 255",
    "11H with TMRES",
    "registers of 15",
    "registers of 16",
    "registers with one fixed bit",
    "modulo register 0",
    "modulo register 255",
    "counter 255",
    "divider 127",
    "divider 128",
    "pins 15",
    "pins 16",
    "directions 15",
    "directions 16",
    "release 1",
    "release 2",
    "pulse 1",
    "pulse 2",
    "ROM of 0",
    "ROM of 1",
    "ROM of 1,024",
    "ROM of 1,025",
    "budget 0",
    "budget 65,535",
    "budget 65,536",
    "budget 2^32 - 1",
];

impl Edge {
    pub fn name(self) -> Option<&'static str> {
        match self.model {
            Model::Upd17132 => self.name_of_17132(),
            Model::Upd17120 => self.name_of_17120(),
        }
    }

    /// Where the 17120 is another.
    fn name_of_17120(self) -> Option<&'static str> {
        let name = match (self.place, self.value) {
            (Cell(0x40..=0x6E), 0) => "missing cells of 0",
            (Cell(0x40..=0x6E), 1 | 2 | 4 | 8) => "missing cells with one bit",
            (Cell(0x40..=0x6E), 15) => "missing cells of 15",
            (Pc, 767) => "PC 767 of the 17120",
            (Pc, 768) => "PC 768 of the 17120",
            (Pc, 1_023) => "PC 1,023 of the 17120",
            (Pc, 1_024) => "PC 1,024 of the 17120",
            (Stack(at, open), 768) if at < usize::from(open) => "open places with 768 of the 17120",
            (Stack(at, open), 1_023) if at < usize::from(open) => {
                "open places with 1,023 of the 17120"
            }
            (Words, 768) => "ROM of 768 for the 17120",
            (Words, 769) => "ROM of 769 for the 17120",
            (Words, 1_024) => "ROM of 1,024 for the 17120",
            _ => return None,
        };
        Some(name)
    }

    fn name_of_17132(self) -> Option<&'static str> {
        let name = match (self.place, self.value) {
            (Cell(0x40..=0x6E), 15) => "cells of 15 that the 17120 lacks",
            (Cell(_), 15) if self.in_range() => "cells of 15",
            (Cell(_), 16) => "cells of 16",
            (Cell(_), 1 | 2 | 4 | 8) if !self.in_range() => "cells with one fixed bit",
            (Pc, 1_023) => "PC 1,023",
            (Pc, 1_024) => "PC 1,024",
            (Levels, 5) => "5 levels",
            (Levels, 6) => "6 levels",
            (Levels, 255) => "255 levels",
            (Stack(at, open), 1_023) if at < usize::from(open) => "open places with 1,023",
            (Stack(at, open), 1_024) if at < usize::from(open) => "open places with 1,024",
            (Stack(at, open), 0) if at >= usize::from(open) => "closed places with 0",
            (Stack(at, open), 1) if at >= usize::from(open) => "closed places with 1",
            (Skip, 0) => "skip 0",
            (Skip, 1) => "skip 1",
            (Skip, 2) => "skip 2",
            (Skip, 255) => "skip 255",
            (Standby, 0) => "standby 0",
            (Standby, 1) => "standby 1",
            (Standby, 2) => "standby 2",
            (Standby, 3) => "standby 3",
            (Standby, 255) => "standby 255",
            (Register(0), 4) => "11H with TMRES",
            (Register(_), 15) if self.in_range() => "registers of 15",
            (Register(_), 16) => "registers of 16",
            (Register(_), 1 | 2 | 8) if !self.in_range() => "registers with one fixed bit",
            (Modulo, 0) => "modulo register 0",
            (Modulo, 255) => "modulo register 255",
            (Counter, 255) => "counter 255",
            (Divider, 127) => "divider 127",
            (Divider, 128) => "divider 128",
            (Pin(_), 15) => "pins 15",
            (Pin(_), 16) => "pins 16",
            (Direction(_), 15) => "directions 15",
            (Direction(_), 16) => "directions 16",
            (Release, 1) => "release 1",
            (Release, 2) => "release 2",
            (Pulse, 1) => "pulse 1",
            (Pulse, 2) => "pulse 2",
            (Words, 0) => "ROM of 0",
            (Words, 1) => "ROM of 1",
            (Words, 1_024) => "ROM of 1,024",
            (Words, 1_025) => "ROM of 1,025",
            (Budget, 0) => "budget 0",
            (Budget, 65_535) => "budget 65,535",
            (Budget, 65_536) => "budget 65,536",
            (Budget, u32::MAX) => "budget 2^32 - 1",
            _ => return None,
        };
        Some(name)
    }
}
