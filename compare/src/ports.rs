//! A port's nibble as document 01 has it, with the directions of document 02,
//! E4, and source 000, 12.1 to 12.7, told without either emulator.

use reference::Machine;

use crate::board::Board;

pub fn is_port(address: u8) -> bool {
    (0x6F..=0x73).contains(&address)
}

/// What a read of a cell gives: of a port bit the pin where its direction is 0
/// and the stored bit where it is 1.
pub fn read(machine: &Machine, board: &Board, address: u8) -> u8 {
    let stored = machine.cells[usize::from(address)];
    let [_, timer_output, p0b, p0e, p0d, p0c, p0a] = machine.peripherals.registers;
    let (pins, outputs) = match address {
        0x6F => (board.input.pins[4] & 0b0011, p0e),
        0x70 => (board.input.pins[0], p0a),
        0x71 => (board.input.pins[1], if p0b == 1 { 0b1111 } else { 0 }),
        0x72 => (board.input.pins[2], p0c),
        0x73 => (board.input.pins[3], p0d | timer_output << 3),
        _ => return stored,
    };
    pins & !outputs | stored & outputs
}
