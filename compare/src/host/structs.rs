//! The structs of include/pollwezen.h. `layout` holds them to the library.

/// `pollwezen_machine`.
#[repr(C)]
#[derive(Clone, Copy)]
pub struct LentMachine {
    pub cells: [u8; 128],
    /// 11H, 12H, 24H, 32H, 33H, 34H, 35H.
    pub registers: [u8; 7],
    pub modulo: u8,
    pub counter: u8,
    pub divider: u8,
    pub pc: u16,
    pub stack: [u16; 5],
    pub levels: u8,
    pub skip: u8,
    pub standby: u8,
}

/// `pollwezen_input`.
#[repr(C)]
#[derive(Clone, Copy)]
pub struct LentInput {
    pub pins: [u8; 5],
    pub directions: [u8; 5],
    pub release: u8,
}

/// `pollwezen_run_reply`: the steps that a run completed, the cycles that these
/// took, its refusal or 0.
#[repr(C)]
#[derive(Clone, Copy, Debug, PartialEq, Eq)]
pub struct RunReply {
    pub steps: u32,
    pub cycles: u32,
    pub number: u8,
}

/// `pollwezen_verdict_reply`: 0, a refusal, or 254 with the word and the rule.
#[repr(C)]
#[derive(Clone, Copy, Debug, PartialEq, Eq)]
pub struct VerdictReply {
    pub number: u8,
    pub word: u16,
    pub rule: u8,
}

/// `pollwezen_read_reply`: 0 with how many words, entries of two bytes and records
/// the reader wrote, or a refusal.
#[repr(C)]
#[derive(Clone, Copy, Debug, PartialEq, Eq)]
pub struct ReadReply {
    pub number: u8,
    pub words: usize,
    pub entries: usize,
    pub records: usize,
}

/// `pollwezen_output_reply`: 0 with how many bytes were written, or a refusal.
#[repr(C)]
#[derive(Clone, Copy, Debug, PartialEq, Eq)]
pub struct OutputReply {
    pub number: u8,
    pub length: usize,
}

/// `pollwezen_decoded_row`: 0 with a row of the manual's list and its operands, or
/// refusal 3.
#[repr(C)]
#[derive(Clone, Copy, Debug, PartialEq, Eq)]
pub struct DecodedRow {
    pub number: u8,
    pub row: u8,
    pub first: u8,
    pub second: u8,
    pub addr: u16,
}

/// `pollwezen_encoded_row`: 0 with a word, or a refusal.
#[repr(C)]
#[derive(Clone, Copy, Debug, PartialEq, Eq)]
pub struct EncodedRow {
    pub number: u8,
    pub word: u16,
}
