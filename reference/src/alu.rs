//! Arithmetic, logic and rotation (document 01, "Results"; source 000, 11.2 to
//! 11.7).

use crate::fault::{self, fault};
use crate::machine::{Input, Machine};
use crate::model::Model;

/// What an operation works on.
#[derive(Clone, Copy)]
pub(crate) struct Operands {
    /// Where the result goes.
    pub target: u8,
    /// The content of the target.
    pub a: u8,
    /// The other operand.
    pub b: u8,
}

impl Machine {
    /// CY as a number, for ADDC and SUBC.
    #[inline(always)]
    pub(crate) fn carry(&self) -> u8 {
        (self.cell(Self::PSW) & Self::CY) >> 2
    }

    #[inline(always)]
    fn decimal(&self) -> bool {
        self.cell(Self::RPL) & Self::BCD != 0
    }

    /// ADD and ADDC: a + b + carry.
    #[inline(always)]
    pub(crate) fn add(&mut self, on: Operands, carry: u8) {
        let sum = on.a + on.b + carry;
        let (result, carry) = if self.decimal() { decimal_sum(sum) } else { (sum & 0xF, sum > 15) };
        self.settle(on.target, result, carry);
    }

    /// SUB and SUBC: a - b - borrow.
    #[inline(always)]
    pub(crate) fn subtract(&mut self, on: Operands, borrow: u8) {
        let difference = on.a as i8 - on.b as i8 - borrow as i8;
        let (result, carry) = if self.decimal() {
            decimal_difference(difference)
        } else {
            ((difference & 0xF) as u8, difference < 0)
        };
        self.settle(on.target, result, carry);
    }

    /// AND, OR and XOR.
    #[inline(always)]
    pub(crate) fn combine(&mut self, on: Operands, operation: impl Fn(u8, u8) -> u8) {
        self.store(on.target, operation(on.a, on.b));
    }

    /// Stores an arithmetic result with CMP 0 and sets CY and Z. With CMP 0
    /// and 7FH as the target, CY and Z get nothing beyond the result.
    #[inline(always)]
    fn settle(&mut self, target: u8, result: u8, carry: bool) {
        let compare = self.cell(Self::PSW) & Self::CMP != 0;
        if !compare || fault(fault::COMPARE_STORES) {
            self.store(target, result);
            if target == Self::PSW && !fault(fault::PSW_FLAGS_AFTER_STORE) {
                return;
            }
        }
        // Z goes by the result before the target's fixed bits are cut.
        let judged =
            if fault(fault::ZERO_OF_STORED) && !compare { self.cell(target) } else { result };
        let mut flags = self.cell(Self::PSW) & !Self::CY;
        if carry {
            flags |= Self::CY;
        }
        if judged != 0 {
            flags &= !Self::Z;
        } else if !compare || fault(fault::COMPARE_SETS_Z) {
            flags |= Self::Z;
        }
        self.store(Self::PSW, flags);
    }

    /// RORC: CY to bit 3, bit 0 to CY, Z stays. On 7FH the rotated nibble is
    /// stored and CY gets nothing more (house).
    pub(crate) fn rotate(&mut self, model: Model, input: &Input, r: u8) -> Result<(), u8> {
        let target = match self.register_cell(model, r) {
            Err(_) if fault(fault::RORC_NOT_TESTED) => self.register_address(r),
            cell => cell?,
        };
        let value = self.load_register(input, target);
        self.store(target, self.carry() << 3 | value >> 1);
        if target == Self::PSW && !fault(fault::RORC_PSW_CARRY) {
            return Ok(());
        }
        let flags = self.cell(Self::PSW) & !Self::CY;
        self.store(Self::PSW, flags | (value & 1) << 2);
        Ok(())
    }
}

/// The decimal result and CY of a sum 0 to 31 (document 01, "Results").
#[inline(always)]
pub(crate) fn decimal_sum(sum: u8) -> (u8, bool) {
    const FROM_20: [u8; 12] = [0xE, 0xF, 0xC, 0xD, 0xE, 0xF, 0xC, 0xD, 0xA, 0xB, 0xC, 0xD];
    match sum {
        0..=9 => (sum, false),
        10..=19 => (sum - 10, true),
        _ => (FROM_20[usize::from(sum - 20)], true),
    }
}

/// The decimal result and CY of a difference -16 to 15.
#[inline(always)]
pub(crate) fn decimal_difference(difference: i8) -> (u8, bool) {
    const FROM_10: [u8; 6] = [0xC, 0xD, 0xE, 0xF, 0xC, 0xD];
    const FROM_MINUS_16: [u8; 6] = [0xE, 0xF, 0xC, 0xD, 0xE, 0xF];
    match difference {
        0..=9 => (difference as u8, false),
        10.. => (FROM_10[(difference - 10) as usize], true),
        -10..=-1 => {
            let borrow = !(fault(fault::DECIMAL_NO_BORROW) && difference == -10);
            ((difference + 10) as u8, borrow)
        }
        _ => (FROM_MINUS_16[(difference + 16) as usize], true),
    }
}
