//! The ROMs that are timed. Each goes on for ever and is never refused.

use reference::sheet::of_levels;
use reference::Instruction::{self, *};
use reference::{encode, verify, Input, Model, Station, Verdict};

/// The input of every step. Its directions are not read.
pub const INPUT: Input =
    Input { pins: [5, 9, 3, 12, 1], directions: [15, 0, 15, 3, 2], release: 0 };

/// The pulse bit of every step.
pub const PULSE: u8 = 0;

fn rom(program: &[Instruction]) -> Vec<u16> {
    program.iter().map(|&i| encode(i).expect("operands fit")).collect()
}

/// A lamp that changes each time a counter of two nibbles has gone round. Its
/// port is made an output first.
pub fn blink() -> Vec<u16> {
    rom(&[
        MovMN { m: 0x78, n: 15 },
        Poke { rf: 0x35 },
        XorMN { m: 0x70, n: 1 },
        MovMN { m: 0x10, n: 15 },
        MovMN { m: 0x11, n: 15 },
        SubMN { m: 0x10, n: 1 },
        SubcMN { m: 0x11, n: 0 },
        Skt { m: 0x7F, n: 4 },
        Br { addr: 5 },
        Br { addr: 2 },
    ])
}

/// A lamp that changes each time the timer has come to 30H, its modulo register,
/// with the quickest clock.
pub fn poll() -> Vec<u16> {
    rom(&[
        MovMN { m: 0x78, n: 15 },
        Poke { rf: 0x35 },
        MovMN { m: 0x0E, n: 3 },
        MovMN { m: 0x0F, n: 0 },
        Put { p: 0x03 },
        MovMN { m: 0x78, n: 0b1101 },
        Poke { rf: 0x11 },
        Get { p: 0x02 },
        Ske { m: 0x0E, n: 3 },
        Br { addr: 7 },
        XorMN { m: 0x70, n: 1 },
        Br { addr: 7 },
    ])
}

/// HALT, and nothing releases.
pub fn halt() -> Vec<u16> {
    rom(&[Halt { cond: 0 }])
}

/// Sums and differences in decimal, with the index register, in cells that every
/// model has.
pub fn arithmetic() -> Vec<u16> {
    rom(&[
        OrMN { m: 0x7E, n: 1 },
        MovMN { m: 0x7C, n: 3 },
        OrMN { m: 0x7F, n: 1 },
        AddMN { m: 0x11, n: 7 },
        AddcMN { m: 0x12, n: 0 },
        SubMN { m: 0x13, n: 3 },
        SubcMN { m: 0x14, n: 0 },
        AddRM { r: 3, m: 0x11 },
        SubcRM { r: 4, m: 0x12 },
        Br { addr: 3 },
    ])
}

/// Calls, three levels deep.
pub fn calls() -> Vec<u16> {
    rom(&[
        Call { addr: 3 },
        Call { addr: 5 },
        Br { addr: 0 },
        Call { addr: 5 },
        Ret,
        Call { addr: 7 },
        Ret,
        Nop,
        Ret,
    ])
}

/// One branch to itself.
pub fn branch() -> Vec<u16> {
    rom(&[Br { addr: 0 }])
}

/// Words of a block.
const BLOCK: u16 = 8;
/// The first block of each level above 0, and how many blocks there are.
const CALLING: u16 = 80;
const CALLED: u16 = 112;
const BLOCKS: u16 = 128;

/// Words of most kinds in blocks of eight: 80 blocks at level 0, which call 32 at
/// level 1, which call 16 at level 2. Shared, half of the main blocks call one of
/// the last 16 themselves.
fn mixed(shared: bool) -> Vec<u16> {
    let blocks = (0..BLOCKS).flat_map(|block| match block {
        0..CALLING if shared && block % 2 == 1 => rom(&main_block(block, CALLED + block % 16)),
        0..CALLING => rom(&main_block(block, CALLING + block % 32)),
        CALLING..CALLED => rom(&calling_block(block)),
        _ => rom(&called_block()),
    });
    blocks.collect()
}

/// The level of each word of `mixed`.
pub fn levels() -> Vec<u8> {
    let level = |block| u8::from(block >= CALLING) + u8::from(block >= CALLED);
    (0..BLOCKS * BLOCK).map(|word| level(word / BLOCK)).collect()
}

fn main_block(block: u16, called: u16) -> [Instruction; 8] {
    [
        AddMN { m: 0x10, n: 3 },
        Ske { m: 0x10, n: 5 },
        Br { addr: BLOCK * block + 3 },
        SubcRM { r: 2, m: 0x21 },
        Call { addr: BLOCK * called },
        Ld { r: 4, m: 0x10 },
        MovMN { m: 0x70, n: 9 },
        Br { addr: BLOCK * ((block + 1) % CALLING) },
    ]
}

fn calling_block(block: u16) -> [Instruction; 8] {
    [
        St { m: 0x31, r: 4 },
        Sklt { m: 0x31, n: 8 },
        Ret,
        Movt,
        Call { addr: BLOCK * (CALLED + block % 16) },
        OrRM { r: 5, m: 0x32 },
        AndMN { m: 0x33, n: 7 },
        Retsk,
    ]
}

fn called_block() -> [Instruction; 8] {
    [
        AddcMN { m: 0x40, n: 6 },
        Skt { m: 0x40, n: 1 },
        Retsk,
        IncIx,
        Rorc { r: 6 },
        MovTo { r: 7, m: 0x41 },
        XorRM { r: 1, m: 0x42 },
        Ret,
    ]
}

/// A station of the largest size, whose sheet passes, with 4,095 input records.
fn station(rom: Vec<u16>, sheet: Vec<u8>) -> Station {
    assert_eq!(verify(Model::Upd17132, &rom, &sheet), Verdict::Pass);
    Station { rom, sheet, inputs: vec![INPUT; 4095] }
}

/// The largest station with one level at each word.
pub fn largest() -> Station {
    station(mixed(false), of_levels(&levels()))
}

/// The largest station with a range of two levels at the shared words.
pub fn largest_with_ranges() -> Station {
    let lowests = levels().into_iter().map(|level| level.min(1));
    let entries = lowests.zip(levels()).flat_map(|(lowest, highest)| [lowest, highest]);
    station(mixed(true), entries.collect())
}
