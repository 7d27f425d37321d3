//! The instructions' work (document 01, "Results"; document 02, E1, for missing
//! cells; source 000, chapters 3, 6 and 18).

use crate::alu::Operands;
use crate::fault::{self, fault};
use crate::isa::{addr_field, decode_group, low_field, m_field, opcode, taken_for, Instruction};
use crate::machine::{Input, Machine, LAST_ADDRESS};
use crate::model::Model;

/// The next PC: 0 after 1,023, in every model (000, 3.3).
#[inline(always)]
pub(crate) fn following(model: Model, rom: &[u16], pc: u16) -> u16 {
    let next = pc + 1;
    if fault(fault::WRAP_AT_ROM_END) && usize::from(next) >= rom.len()
        || fault(fault::WRAP_AT_768) && usize::from(next) == model.rom_words()
    {
        return 0;
    }
    next & LAST_ADDRESS
}

impl Machine {
    /// Executes one word and answers the PC after it. Every refusal comes
    /// before the first write: 31 where an operand's address is found.
    ///
    /// It takes the word by its opcode, as `decode` does, and does not build
    /// the instruction first: one jump for a step and not two.
    #[inline(always)]
    pub(crate) fn execute(
        &mut self,
        model: Model,
        rom: &[u16],
        input: &Input,
        word: u16,
    ) -> Result<u16, u8> {
        let next = following(model, rom, self.pc);
        let (m, r, n) = (m_field(word), low_field(word), low_field(word));
        match taken_for(word >> 11) {
            opcode::ADD_RM => self.add(self.on_register(model, input, r, m)?, 0),
            opcode::ADD_MN => self.add(self.on_data(model, input, m, n)?, 0),
            opcode::ADDC_RM => self.add(self.on_register(model, input, r, m)?, self.carry()),
            opcode::ADDC_MN => self.add(self.on_data(model, input, m, n)?, self.carry()),
            opcode::SUB_RM => self.subtract(self.on_register(model, input, r, m)?, 0),
            opcode::SUB_MN => self.subtract(self.on_data(model, input, m, n)?, 0),
            opcode::SUBC_RM => self.subtract(self.on_register(model, input, r, m)?, self.carry()),
            opcode::SUBC_MN => self.subtract(self.on_data(model, input, m, n)?, self.carry()),
            opcode::AND_RM => self.combine(self.on_register(model, input, r, m)?, |a, b| a & b),
            opcode::AND_MN => self.combine(self.on_data(model, input, m, n)?, |a, b| a & b),
            opcode::XOR_RM => self.combine(self.on_register(model, input, r, m)?, |a, b| a ^ b),
            opcode::XOR_MN => self.combine(self.on_data(model, input, m, n)?, |a, b| a ^ b),
            opcode::OR_RM => self.combine(self.on_register(model, input, r, m)?, |a, b| a | b),
            opcode::OR_MN => self.combine(self.on_data(model, input, m, n)?, |a, b| a | b),
            opcode::LD => {
                let target = self.register_cell(model, r)?;
                self.store(target, self.data(model, input, m)?);
            }
            opcode::ST => {
                let value = self.register(model, input, r)?;
                self.put_data(model, m, value)?;
            }
            opcode::MOV_MN => self.put_data(model, m, n)?,
            opcode::MOV_TO => {
                let target = self.indirect_cell(model, input, m, r)?;
                self.store(target, self.data(model, input, m)?);
            }
            opcode::MOV_FROM => {
                let source = self.indirect_cell(model, input, m, r)?;
                self.put_data(model, m, self.load(input, source))?;
            }
            opcode::SKE => self.skip_if(self.data(model, input, m)? == n),
            opcode::SKNE => self.skip_if(self.data(model, input, m)? != n),
            opcode::SKGE => self.skip_if(self.data(model, input, m)? >= n),
            opcode::SKLT => self.skip_if(self.data(model, input, m)? < n),
            opcode::SKT => {
                let value = self.tested(model, input, m, n)?;
                self.skip_after_test(value & n == n);
            }
            opcode::SKF => {
                let value = self.tested(model, input, m, n)?;
                self.skip_after_test(value & n == 0);
            }
            opcode::BR => return branch_address(model, addr_field(word)),
            opcode::CALL => return self.call(model, addr_field(word), next),
            opcode::GROUP => return self.execute_group(model, rom, input, word, next),
            _ => return Err(3),
        }
        Ok(next)
    }

    /// The words of code 7 with bit 15 equal to 0.
    #[inline(always)]
    fn execute_group(
        &mut self,
        model: Model,
        rom: &[u16],
        input: &Input,
        word: u16,
        next: u16,
    ) -> Result<u16, u8> {
        use Instruction::*;
        let Some(instruction) = decode_group(word) else {
            return Err(3);
        };
        match instruction {
            Rorc { r } => self.rotate(model, input, r)?,
            IncAr => self.increment_ar(),
            IncIx => self.increment_ix(),
            Movt => self.table_reference(rom)?,
            PushAr => self.push(self.ar())?,
            PopAr => {
                let address = self.pop()?;
                self.set_ar(address);
            }
            BrAr => return Ok(self.ar()),
            CallAr => {
                self.push(next)?;
                return Ok(self.ar());
            }
            Ret => return self.pop(),
            Retsk => {
                let address = self.pop()?;
                self.skip_if(!fault(fault::RETSK_NO_SKIP));
                return Ok(address);
            }
            Peek { rf } => self.peek(model, input, rf)?,
            Poke { rf } => self.poke(model, rf)?,
            Get { p } => self.get(p)?,
            Put { p } => self.put(p)?,
            Halt { .. } => self.standby = Self::HALT,
            Stop { .. } => self.stop(),
            Nop => {}
            // EI, DI, RETI.
            _ => return Err(4),
        }
        Ok(next)
    }

    /// STOP leaves the counter, which the chip resets (000, table 15-1):
    /// document 01 says that it moves PC on and sets the mark.
    fn stop(&mut self) {
        self.standby = Self::STOP;
        if fault(fault::STOP_CLEARS_COUNTER) {
            self.peripherals.counter = 0;
        }
    }

    /// The operands of an instruction on r,m.
    #[inline(always)]
    fn on_register(&self, model: Model, input: &Input, r: u8, m: u8) -> Result<Operands, u8> {
        let target = self.target(self.register_cell(model, r), self.register_address(r))?;
        let b = self.data(model, input, m)?;
        Ok(Operands { target, a: self.load_register(input, target), b })
    }

    /// The operands of an instruction on m,#n.
    #[inline(always)]
    fn on_data(&self, model: Model, input: &Input, m: u8, n: u8) -> Result<Operands, u8> {
        let target = self.target(self.data_cell(model, m), self.data_address(m))?;
        Ok(Operands { target, a: self.load(input, target), b: n })
    }

    /// Where a result goes. It is read too, so that CMP changes nothing here.
    #[inline(always)]
    fn target(&self, cell: Result<u8, u8>, address: u8) -> Result<u8, u8> {
        if fault(fault::COMPARE_NOT_TESTED) && self.cell(Self::PSW) & Self::CMP != 0 {
            return Ok(address);
        }
        cell
    }

    /// Stores what MOV and ST have for m.
    #[inline(always)]
    fn put_data(&mut self, model: Model, m: u8, value: u8) -> Result<(), u8> {
        match self.data_cell(model, m) {
            Err(_) if fault(fault::WRITE_LOST) => {}
            cell => self.store(cell?, value),
        }
        Ok(())
    }

    /// What SKT and SKF test; with n = 0 it is read all the same.
    #[inline(always)]
    fn tested(&mut self, model: Model, input: &Input, m: u8, n: u8) -> Result<u8, u8> {
        if fault(fault::EMPTY_TEST_NOT_TESTED) && n == 0 {
            return Ok(0);
        }
        let value = self.data(model, input, m);
        if fault(fault::REFUSED_TEST_CLEARS_CMP) && value.is_err() {
            self.skip_after_test(false);
        }
        value
    }

    #[inline(always)]
    fn skip_if(&mut self, hit: bool) {
        self.skip = u8::from(hit);
    }

    /// SKT and SKF clear CMP, skip or not.
    #[inline(always)]
    fn skip_after_test(&mut self, hit: bool) {
        self.skip_if(hit);
        if hit || !fault(fault::TEST_KEEPS_CMP) {
            self.store(Self::PSW, self.cell(Self::PSW) & !Self::CMP);
        }
    }

    /// CALL stacks the next PC. Refusal 5 comes before 6.
    #[inline(always)]
    fn call(&mut self, model: Model, addr: u16, next: u16) -> Result<u16, u8> {
        if fault(fault::LEVEL_BEFORE_ADDRESS) && self.levels == 5 {
            return Err(6);
        }
        let target = rom_address(model, addr)?;
        self.push(next)?;
        Ok(target)
    }

    /// MOVT: the ROM word at AR into the data buffer. It needs a free level,
    /// given back at once, so the stack stays as it is.
    fn table_reference(&mut self, rom: &[u16]) -> Result<(), u8> {
        if self.levels == 5 && !fault(fault::MOVT_WITHOUT_LEVEL) {
            return Err(6);
        }
        let Some(&word) = rom.get(usize::from(self.ar())) else {
            return Err(8);
        };
        self.fill_buffer(word);
        Ok(())
    }
}

/// An address of 1,024 or more is refused with 5, never masked; in a model with
/// a smaller ROM too, where one past it meets 2 in the next step.
#[inline(always)]
fn rom_address(model: Model, addr: u16) -> Result<u16, u8> {
    let past_rom = fault(fault::ADDRESS_OF_ROM) && usize::from(addr) >= model.rom_words();
    if addr > LAST_ADDRESS || past_rom {
        return Err(5);
    }
    Ok(addr)
}

/// BR's address.
#[inline(always)]
fn branch_address(model: Model, addr: u16) -> Result<u16, u8> {
    if fault(fault::BRANCH_MASKED) {
        return Ok(addr & LAST_ADDRESS);
    }
    rom_address(model, addr)
}
