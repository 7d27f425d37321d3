//! What a host gives to a call: the model of the board, the input record, and the
//! pulse bit beside it (document 02, E1 and E4).

use reference::{Input, Model};

#[derive(Clone, Copy, Debug)]
pub struct Board {
    pub model: Model,
    pub input: Input,
    pub pulse: u8,
}

impl Board {
    pub fn in_range(&self) -> bool {
        self.input.in_range() && self.pulse <= 1
    }

    /// Does a machine with this standby mark stay in standby?
    pub fn keeps_standing(&self, standby: u8) -> bool {
        standby != 0 && self.input.release == 0
    }
}
