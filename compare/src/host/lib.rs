//! The proved emulator through its C entries (include/pollwezen.h). The only
//! unsafe code of this package. A model goes by its number, as in C.

mod convert;
mod layout;
mod structs;

use reference::{Input, Machine};
use structs::LentInput;

pub use layout::layout;
pub use structs::{
    DecodedRow, EncodedRow, LentMachine, OutputReply, ReadReply, RunReply, VerdictReply,
};

/// Both bytes of a sheet entry whose word is never reached.
pub const UNREACHED: u8 = 15;
/// The most that a station file has; buffers of these sizes are never too short.
pub const WORDS: usize = 1024;
pub const SHEET_BYTES: usize = 2048;
pub const INPUT_BYTES: usize = 45_045;
pub const FILE_BYTES: usize = 49_149;
pub const TEXT_BYTES: usize = 100_000;

extern "C" {
    fn pollwezen_reset(model: u8, machine: *mut LentMachine) -> u8;
    fn pollwezen_step(
        model: u8,
        rom: *const u16,
        words: usize,
        machine: *mut LentMachine,
        input: LentInput,
        pulse: u8,
    ) -> u8;
    fn pollwezen_run(
        model: u8,
        rom: *const u16,
        words: usize,
        machine: *mut LentMachine,
        input: LentInput,
        pulse: u8,
        budget: u32,
    ) -> RunReply;
    fn pollwezen_verify(
        model: u8,
        rom: *const u16,
        words: usize,
        sheet: *const u8,
        sheet_bytes: usize,
    ) -> VerdictReply;
    fn pollwezen_decode(word: u16) -> DecodedRow;
    fn pollwezen_encode(row: u8, first: u8, second: u8, addr: u16) -> EncodedRow;
    fn pollwezen_read(
        file: *const u8,
        bytes: usize,
        rom: *mut u16,
        rom_room: usize,
        sheet: *mut u8,
        sheet_room: usize,
        inputs: *mut u8,
        inputs_room: usize,
    ) -> ReadReply;
    fn pollwezen_write(
        rom: *const u16,
        words: usize,
        sheet: *const u8,
        sheet_bytes: usize,
        inputs: *const u8,
        input_bytes: usize,
        out: *mut u8,
        room: usize,
    ) -> OutputReply;
    fn pollwezen_widen(levels: *const u8, entries: usize, out: *mut u8, room: usize)
        -> OutputReply;
    fn pollwezen_transcript(
        file: *const u8,
        bytes: usize,
        out: *mut u8,
        room: usize,
    ) -> OutputReply;
}

/// The proved reset.
pub fn reset(model: u8, lent: &mut Machine) -> u8 {
    let mut held = LentMachine::from(&*lent);
    let number = reset_lent(model, &mut held);
    *lent = Machine::from(&held);
    number
}

/// The proved reset of a record in C's layout, as a host keeps it.
pub fn reset_lent(model: u8, lent: &mut LentMachine) -> u8 {
    // SAFETY: `lent` is nobody else's.
    unsafe { pollwezen_reset(model, lent) }
}

/// The proved step.
pub fn step(model: u8, rom: &[u16], lent: &mut Machine, input: &Input, pulse: u8) -> u8 {
    let mut held = LentMachine::from(&*lent);
    let number = step_lent(model, rom, &mut held, input, pulse);
    *lent = Machine::from(&held);
    number
}

/// The proved step on a record in C's layout.
pub fn step_lent(model: u8, rom: &[u16], lent: &mut LentMachine, input: &Input, pulse: u8) -> u8 {
    let input = LentInput::from(input);
    // SAFETY: the slice gives its own length, and `lent` is nobody else's.
    unsafe { pollwezen_step(model, rom.as_ptr(), rom.len(), lent, input, pulse) }
}

/// The proved run.
pub fn run(
    model: u8,
    rom: &[u16],
    lent: &mut Machine,
    input: &Input,
    pulse: u8,
    budget: u32,
) -> RunReply {
    let mut held = LentMachine::from(&*lent);
    let (words, input) = (rom.len(), LentInput::from(input));
    // SAFETY: as in `step_lent`.
    let report =
        unsafe { pollwezen_run(model, rom.as_ptr(), words, &mut held, input, pulse, budget) };
    *lent = Machine::from(&held);
    report
}

/// The proved check. The sheet has two bytes an entry, its lowest level and its
/// highest; one of single levels goes through `widen` first.
pub fn verify(model: u8, rom: &[u16], sheet: &[u8]) -> VerdictReply {
    // SAFETY: both slices give their own length.
    unsafe { pollwezen_verify(model, rom.as_ptr(), rom.len(), sheet.as_ptr(), sheet.len()) }
}

/// The proved decoder.
pub fn decode(word: u16) -> DecodedRow {
    // SAFETY: no pointer.
    unsafe { pollwezen_decode(word) }
}

/// The proved encoder.
pub fn encode(row: u8, first: u8, second: u8, addr: u16) -> EncodedRow {
    // SAFETY: no pointer.
    unsafe { pollwezen_encode(row, first, second, addr) }
}

/// The proved reader, of both forms. The sheet takes two bytes an entry from either.
pub fn read(file: &[u8], rom: &mut [u16], sheet: &mut [u8], inputs: &mut [u8]) -> ReadReply {
    // SAFETY: each slice gives its own length, and no two overlap.
    unsafe {
        pollwezen_read(
            file.as_ptr(),
            file.len(),
            rom.as_mut_ptr(),
            rom.len(),
            sheet.as_mut_ptr(),
            sheet.len(),
            inputs.as_mut_ptr(),
            inputs.len(),
        )
    }
}

/// The proved writer, which chooses the form.
pub fn write(rom: &[u16], sheet: &[u8], inputs: &[u8], out: &mut [u8]) -> OutputReply {
    // SAFETY: as in `read`.
    unsafe {
        pollwezen_write(
            rom.as_ptr(),
            rom.len(),
            sheet.as_ptr(),
            sheet.len(),
            inputs.as_ptr(),
            inputs.len(),
            out.as_mut_ptr(),
            out.len(),
        )
    }
}

/// A sheet of single levels, a byte an entry, as one of ranges.
pub fn widen(levels: &[u8], out: &mut [u8]) -> OutputReply {
    // SAFETY: as in `read`.
    unsafe { pollwezen_widen(levels.as_ptr(), levels.len(), out.as_mut_ptr(), out.len()) }
}

/// The proved transcript.
pub fn transcript(file: &[u8], out: &mut [u8]) -> OutputReply {
    // SAFETY: as in `read`.
    unsafe { pollwezen_transcript(file.as_ptr(), file.len(), out.as_mut_ptr(), out.len()) }
}
