//! A machine with its inputs, and the items in which a case gives them and
//! tells what they become:
//!
//!     0D 2A7                  the cells from an address on, a digit each
//!     cell 00 10              one cell, a byte
//!     PC 3FF
//!     levels 2 001 011        the open levels, and the stack from its first place
//!     skip 1, standing 1      the marks; of standby 1 is HALT's and 2 STOP's
//!     HALT 004, STOP 004      in standby behind a HALT or STOP at that address
//!     rf 11 9                 a control register, by its address
//!     modulo 64, counter F0, divider 7F
//!     CY 1, Z 0               a flag of PSW
//!     pins 1 2 4 8 3          P0A to P0E
//!     directions F F F F F    the input record's, which are not read
//!     release 1, pulse 1

use reference::{Machine, Model, Peripherals};

use crate::emulators::Board;
use crate::scan::{byte, hex, word};

/// PSW, and two of its flags.
const PSW: usize = 0x7F;
const CY: u8 = 0b0100;
const Z: u8 = 0b0010;

/// The addresses of the control registers, in the record's order.
const ADDRESSES: [u8; 7] = [0x11, 0x12, 0x24, 0x32, 0x33, 0x34, 0x35];

#[derive(Clone, PartialEq, Eq)]
pub struct Setup {
    pub machine: Machine,
    pub board: Board,
}

impl Setup {
    /// A reset machine, which is the same for every model, and inputs of zeros.
    pub fn new() -> Setup {
        Setup { machine: Machine::reset(Model::Upd17132), board: Board::default() }
    }

    /// Sets what an item names.
    pub fn set(&mut self, item: &str) -> Result<(), String> {
        let Setup { machine, board: Board { input, pulse } } = self;
        let timer = &mut machine.peripherals;
        match item.split_whitespace().collect::<Vec<_>>()[..] {
            ["PC", address] => machine.pc = word(address)?,
            ["levels", open, ref stack @ ..] if stack.len() <= 5 => {
                machine.levels = byte(open)?;
                machine.stack = [0; 5];
                for (place, address) in machine.stack.iter_mut().zip(stack) {
                    *place = word(address)?;
                }
            }
            ["skip", mark] => machine.skip = byte(mark)?,
            ["standing", mark] => machine.standby = byte(mark)?,
            [name @ ("HALT" | "STOP"), address] => {
                machine.standby = if name == "HALT" { 1 } else { 2 };
                machine.pc = (word(address)? + 1) % 1024;
            }
            ["rf", address, nibble] => *register(timer, byte(address)?)? = byte(nibble)?,
            ["modulo", value] => timer.modulo = byte(value)?,
            ["counter", value] => timer.counter = byte(value)?,
            ["divider", value] => timer.divider = byte(value)?,
            ["pulse", bit] => *pulse = byte(bit)?,
            ["CY", bit] => self.set_flag(CY, bit)?,
            ["Z", bit] => self.set_flag(Z, bit)?,
            ["pins", ref pins @ ..] => input.pins = nibbles(pins)?,
            ["directions", ref directions @ ..] => input.directions = nibbles(directions)?,
            ["release", bit] => input.release = byte(bit)?,
            ["cell", at, value] => *self.cell(hex(at)?)? = byte(value)?,
            [first, digits] => {
                for (at, digit) in (hex(first)?..).zip(digits.split("").filter(|d| !d.is_empty())) {
                    *self.cell(at)? = byte(digit)?;
                }
            }
            _ => return Err(format!("{item} is no item")),
        }
        Ok(())
    }

    fn cell(&mut self, at: usize) -> Result<&mut u8, String> {
        self.machine.cells.get_mut(at).ok_or(format!("{at:02X} is past the cells"))
    }

    fn set_flag(&mut self, flag: u8, bit: &str) -> Result<(), String> {
        let psw = self.cell(PSW)?;
        match bit {
            "0" => *psw &= !flag,
            "1" => *psw |= flag,
            _ => return Err(format!("{bit} is no bit")),
        }
        Ok(())
    }

    /// The first place where this is not as wanted.
    pub fn difference(&self, wanted: &Setup) -> Option<String> {
        let cells = wanted.machine.cells.iter().zip(&self.machine.cells);
        if let Some((at, (a, b))) = (0..).zip(cells).find(|(_, (a, b))| a != b) {
            return Some(format!("{at:02X} {b:X} and not {a:X}"));
        }
        let rest = |m: &Machine| {
            let Machine { pc, stack, levels, skip, standby, .. } = m;
            let Peripherals { registers, modulo, counter, divider } = m.peripherals;
            format!(
                "PC {pc:03X}, levels {levels} {stack:03X?}, skip {skip}, standing {standby}, \
                 registers {registers:X?}, modulo {modulo:02X}, counter {counter:02X}, \
                 divider {divider:02X}"
            )
        };
        let (a, b) = (rest(&wanted.machine), rest(&self.machine));
        (self != wanted).then(|| format!("{b} and not {a}"))
    }
}

/// A control register by its address.
fn register(timer: &mut Peripherals, address: u8) -> Result<&mut u8, String> {
    let place = ADDRESSES.iter().position(|&register| register == address);
    let place = place.ok_or(format!("{address:02X} is no control register"))?;
    Ok(&mut timer.registers[place])
}

/// A nibble for each port.
fn nibbles(texts: &[&str]) -> Result<[u8; 5], String> {
    let nibbles: Result<Vec<u8>, String> = texts.iter().map(|text| byte(text)).collect();
    nibbles?.try_into().map_err(|_| "not five ports".to_string())
}
