//! Addresses, cell reads and writes, AR, IX and the address stack (document
//! 01, "Addresses" and "The machine's record"; source 000, 7.5 and 12.1 to
//! 12.6).

use crate::fault::{self, fault};
use crate::machine::{Input, Machine, LAST_ADDRESS};
use crate::model::{Model, WRITABLE};

impl Machine {
    /// A cell as it is stored.
    #[inline(always)]
    pub(crate) fn cell(&self, address: u8) -> u8 {
        self.cells[place(address)]
    }

    /// Reads an operand: a port bit gives the pin where its direction is 0
    /// and the stored bit where it is 1.
    #[inline(always)]
    pub(crate) fn load(&self, input: &Input, address: u8) -> u8 {
        if (Self::P0E..=Self::P0D).contains(&address) {
            self.load_port(input, address)
        } else {
            self.cell(address)
        }
    }

    fn load_port(&self, input: &Input, address: u8) -> u8 {
        let port = usize::from(if address == Self::P0E { 4 } else { address - Self::P0A });
        let mut latch = self.peripherals.directions(port);
        if fault(fault::DIRECTIONS_OF_INPUT) {
            latch = input.directions[port];
        }
        if fault(fault::DIRECTION_INVERTED) {
            latch = !latch & 0xF;
        }
        let value = input.pins[port] & !latch | self.cell(address) & latch;
        if address == Self::P0E && !fault(fault::P0E_HIGH_PINS) {
            // P0E's two high bits read 0.
            value & 0x3
        } else {
            value
        }
    }

    /// Writes a cell; its fixed bits stay 0. They are the same in every model: a
    /// missing cell meets refusal 31 before its write.
    #[inline(always)]
    pub(crate) fn store(&mut self, address: u8, value: u8) {
        let at = place(address);
        self.cells[at] = value & WRITABLE[at];
    }

    /// IX: row from 7BH, column from 7CH.
    #[inline(always)]
    fn index(&self) -> u8 {
        (self.cell(Self::IXM) & 7) << 4 | self.cell(Self::IXL)
    }

    #[inline(always)]
    fn indexed(&self) -> bool {
        self.cell(Self::PSW) & Self::IXE != 0
    }

    /// m is ORed with IX where IXE is set.
    #[inline(always)]
    pub(crate) fn data_address(&self, m: u8) -> u8 {
        if self.indexed() {
            m | self.index()
        } else {
            m
        }
    }

    /// r lies in the row of 7EH's bits 3 to 1, and is never ORed.
    #[inline(always)]
    pub(crate) fn register_address(&self, r: u8) -> u8 {
        let address = (self.cell(Self::RPL) & 0xE) << 3 | r;
        if fault(fault::IX_IN_R) && self.indexed() {
            return address | self.index();
        }
        address
    }

    /// @r: the column is the content of r; the row is m's (ORed with IX's
    /// where IXE is set), but 7BH's low three bits wherever MPE is set.
    #[inline(always)]
    fn indirect_address(&self, m: u8, mut column: u8) -> u8 {
        if fault(fault::IX_IN_COLUMN) && self.indexed() {
            column |= self.cell(Self::IXL);
        }
        let pointed = self.cell(Self::IXH) & Self::MPE != 0
            && !(fault(fault::MPE_ONLY_WITHOUT_IXE) && self.indexed());
        let row = if pointed { self.cell(Self::IXM) & 7 } else { self.data_address(m) >> 4 };
        row << 4 | column
    }

    /// The cell of m, or refusal 31.
    #[inline(always)]
    pub(crate) fn data_cell(&self, model: Model, m: u8) -> Result<u8, u8> {
        let address = self.data_address(m);
        installed(model, if fault(fault::TESTED_BEFORE_IX) { m } else { address })?;
        Ok(address)
    }

    /// The cell of r, or refusal 31.
    #[inline(always)]
    pub(crate) fn register_cell(&self, model: Model, r: u8) -> Result<u8, u8> {
        installed(model, self.register_address(r))
    }

    /// The cell of @r, or refusal 31 where it is missing or r is, which is read
    /// for the column.
    #[inline(always)]
    pub(crate) fn indirect_cell(
        &self,
        model: Model,
        input: &Input,
        m: u8,
        r: u8,
    ) -> Result<u8, u8> {
        let pointer = self.register_address(r);
        if !fault(fault::POINTER_NOT_TESTED) {
            installed(model, pointer)?;
        }
        let column = self.load_register(input, pointer);
        let address = self.indirect_address(m, column);
        let row_of_m = self.data_address(m) & 0x70 | column;
        installed(model, if fault(fault::TESTED_IN_ROW_OF_M) { row_of_m } else { address })?;
        Ok(address)
    }

    /// The content of m, or refusal 31.
    #[inline(always)]
    pub(crate) fn data(&self, model: Model, input: &Input, m: u8) -> Result<u8, u8> {
        Ok(self.load(input, self.data_cell(model, m)?))
    }

    /// The content of r, or refusal 31.
    #[inline(always)]
    pub(crate) fn register(&self, model: Model, input: &Input, r: u8) -> Result<u8, u8> {
        Ok(self.load_register(input, self.register_cell(model, r)?))
    }

    /// The content of r's cell.
    #[inline(always)]
    pub(crate) fn load_register(&self, input: &Input, address: u8) -> u8 {
        if fault(fault::R_PAST_PORT) {
            return self.cell(address);
        }
        self.load(input, address)
    }

    /// The address register, 10 bits.
    #[inline(always)]
    pub(crate) fn ar(&self) -> u16 {
        u16::from(self.cell(Self::AR2)) << 8
            | u16::from(self.cell(Self::AR1)) << 4
            | u16::from(self.cell(Self::AR0))
    }

    pub(crate) fn set_ar(&mut self, value: u16) {
        self.store(Self::AR2, (value >> 8) as u8);
        self.store(Self::AR1, (value >> 4 & 0xF) as u8);
        self.store(Self::AR0, (value & 0xF) as u8);
    }

    /// INC AR goes from 3FFH to 000H.
    pub(crate) fn increment_ar(&mut self) {
        self.set_ar((self.ar() + 1) & LAST_ADDRESS);
    }

    /// INC IX goes from 7FH to 00H and leaves MPE.
    pub(crate) fn increment_ix(&mut self) {
        let index = (self.index() + 1) & 0x7F;
        self.store(Self::IXM, index >> 4);
        self.store(Self::IXL, index & 0xF);
        if fault(fault::INC_IX_CLEARS_MPE) {
            self.store(Self::IXH, 0);
        }
    }

    /// Puts a ROM word into the data buffer, highest nibble first.
    pub(crate) fn fill_buffer(&mut self, word: u16) {
        for nibble in 0..4 {
            self.store(Self::DBF3 + nibble, (word >> (12 - 4 * nibble) & 0xF) as u8);
        }
    }

    /// Opens a stack level, or gives refusal 6.
    #[inline(always)]
    pub(crate) fn push(&mut self, address: u16) -> Result<(), u8> {
        let Some(place) = self.stack.get_mut(usize::from(self.levels)) else {
            return Err(6);
        };
        *place = address;
        self.levels += 1;
        Ok(())
    }

    /// Closes a stack level, its place then 0, or gives refusal 7.
    #[inline(always)]
    pub(crate) fn pop(&mut self) -> Result<u16, u8> {
        // With no level open there is no such place.
        let top = self.levels.wrapping_sub(1);
        let Some(place) = self.stack.get_mut(usize::from(top)) else {
            return Err(7);
        };
        let address = *place;
        if !fault(fault::STACK_NOT_CLEARED) {
            *place = 0;
        }
        self.levels = top;
        Ok(address)
    }
}

/// A cell that the model has, or refusal 31.
#[inline(always)]
pub(crate) fn installed(model: Model, address: u8) -> Result<u8, u8> {
    if model.lacks(address) {
        return Err(31);
    }
    Ok(address)
}

/// An address as an index. An address has seven bits; the mask says so to the
/// compiler, which then leaves its own test out.
#[inline(always)]
fn place(address: u8) -> usize {
    usize::from(address & 0x7F)
}
