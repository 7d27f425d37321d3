//! PEEK, POKE, GET and PUT (document 02, E1 and E4; source 000, 9.2, 10.2 and
//! 18.5.7).

use crate::fault::{self, fault};
use crate::isa::Instruction;
use crate::machine::{Input, Machine};
use crate::memory::installed;
use crate::model::Model;
use crate::peripherals::{place, Peripherals};

/// What stands at an address of the register file.
enum Item {
    /// One of the seven control registers, by its place.
    Register(usize),
    /// A cell of data memory.
    Cell(u8),
}

/// 40H to 7FH is data memory (000, 9.1.2). Below, refusal 30 where there is no
/// such control register.
#[inline(always)]
fn item(rf: u8) -> Result<Item, u8> {
    if rf >= 0x40 {
        return Ok(Item::Cell(rf));
    }
    match Peripherals::ADDRESSES.iter().position(|&address| address == rf) {
        Some(at) => Ok(Item::Register(at)),
        None => Err(30),
    }
}

/// A cell that PEEK or POKE names: where it is missing, 31 and not 30.
#[inline(always)]
fn file_cell(model: Model, address: u8) -> Result<u8, u8> {
    installed(model, address).map_err(|r| if fault(fault::FILE_CELL_MEETS_30) { 30 } else { r })
}

/// The peripheral that GET reads, the counter, and the one that PUT writes, the
/// modulo register (000, table 10-1).
const COUNTER: u8 = 0x02;
const MODULO: u8 = 0x03;

/// Refusal 30 where GET has no such peripheral.
fn gettable(p: u8) -> Result<(), u8> {
    let allowed = p == COUNTER || fault(fault::GET_MODULO) && p == MODULO;
    allowed.then_some(()).ok_or(30)
}

/// Refusal 30 where PUT has no such peripheral.
fn puttable(p: u8) -> Result<(), u8> {
    let allowed = p == MODULO || fault(fault::PUT_COUNTER) && p == COUNTER;
    allowed.then_some(()).ok_or(30)
}

/// The instructions of refusal 30. The word alone decides.
pub(crate) fn missing(instruction: Instruction) -> bool {
    match instruction {
        Instruction::Peek { rf } | Instruction::Poke { rf } => item(rf).is_err(),
        Instruction::Get { p } => gettable(p).is_err(),
        Instruction::Put { p } => puttable(p).is_err(),
        _ => false,
    }
}

impl Machine {
    /// PEEK WR,rf
    pub(crate) fn peek(&mut self, model: Model, input: &Input, rf: u8) -> Result<(), u8> {
        let value = match item(self.file_address(rf))? {
            Item::Register(at) => self.peripherals.registers[at],
            Item::Cell(address) if fault(fault::PEEK_READS_0) && model.lacks(address) => 0,
            Item::Cell(address) => {
                let address = file_cell(model, address)?;
                if fault(fault::PEEK_PAST_PORT) {
                    self.cell(address)
                } else {
                    self.load(input, address)
                }
            }
        };
        self.store(Self::WR, value);
        Ok(())
    }

    /// POKE rf,WR. Fixed bits stay 0.
    pub(crate) fn poke(&mut self, model: Model, rf: u8) -> Result<(), u8> {
        let value = self.cell(Self::WR);
        match item(self.file_address(rf))? {
            Item::Register(place::TIMER_MODE) => self.peripherals.set_mode(value),
            Item::Register(at) => self.peripherals.registers[at] = value & Peripherals::KEPT[at],
            Item::Cell(address) if fault(fault::POKE_LOST) && model.lacks(address) => {}
            Item::Cell(address) => self.store(file_cell(model, address)?, value),
        }
        Ok(())
    }

    /// IX never changes rf (000, table 7-1).
    fn file_address(&self, rf: u8) -> u8 {
        if fault(fault::IX_IN_RF) {
            return self.data_address(rf);
        }
        rf
    }

    /// GET DBF,p: eight bits, so DBF3 and DBF2 stay (000, 10.2.2).
    pub(crate) fn get(&mut self, p: u8) -> Result<(), u8> {
        gettable(p)?;
        // Only a deliberate fault comes here with the modulo register.
        let value = if p == COUNTER { self.peripherals.counter } else { self.peripherals.modulo };
        if fault(fault::GET_WHOLE_BUFFER) {
            self.fill_buffer(value.into());
        }
        self.store(Self::DBF1, value >> 4);
        self.store(Self::DBF0, value & 0xF);
        Ok(())
    }

    /// PUT p,DBF: DBF1 and DBF0 alone. The count goes on (000, 13.1.5).
    pub(crate) fn put(&mut self, p: u8) -> Result<(), u8> {
        puttable(p)?;
        let value = self.cell(Self::DBF1) << 4 | self.cell(Self::DBF0);
        if p == COUNTER {
            // Only a deliberate fault comes here.
            self.peripherals.counter = value;
            return Ok(());
        }
        self.peripherals.modulo = value;
        if fault(fault::PUT_RESTARTS) {
            self.peripherals.counter = 0;
        }
        Ok(())
    }
}
