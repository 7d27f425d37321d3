//! Where the library puts each field, against the structs of this package: the
//! number that `layout_fill` of crates/layout wrote there is looked for in raw
//! bytes, as in tests/layout.c.

use std::mem::{offset_of, size_of};

use crate::structs::{
    DecodedRow, EncodedRow, LentInput, LentMachine, OutputReply, ReadReply, RunReply, VerdictReply,
};

/// Two of each struct, as in crates/layout/src/lib.rt.
#[repr(C)]
struct Laid {
    machines: [LentMachine; 2],
    inputs: [LentInput; 2],
    runs: [RunReply; 2],
    verdicts: [VerdictReply; 2],
    reads: [ReadReply; 2],
    outputs: [OutputReply; 2],
    decoded: [DecodedRow; 2],
    encoded: [EncodedRow; 2],
}

extern "C" {
    fn layout_fill(lent: *mut Laid);
}

/// Bytes after the structs, which must stay.
const AFTER: usize = 4096;
const GUARD: u64 = 0xA5A5_A5A5_A5A5_A5A5;

/// What was found, and the first field that is not there.
struct Search {
    bytes: Vec<u8>,
    missing: Option<String>,
}

impl Search {
    /// Fields count down from the largest number of their width, and in the
    /// second struct from half of it.
    fn field(&mut self, name: &str, index: usize, at: usize, width: usize, down: u64) {
        let most = u64::MAX >> (64 - 8 * width) >> index;
        let bytes = self.bytes[at..at + width].iter().rev();
        let found = bytes.fold(0, |sum, &byte| sum << 8 | u64::from(byte));
        if found != most - down && self.missing.is_none() {
            self.missing = Some(format!("{name} of struct {index} is {found:X} at {at}"));
        }
    }
}

fn width<S, T>(_: fn(&S) -> &T) -> usize {
    size_of::<T>()
}

fn places<S, T, const N: usize>(_: fn(&S) -> &[T; N]) -> (usize, usize) {
    (N, size_of::<T>())
}

/// A field, or each place of an array, with what it counts down.
macro_rules! look {
    ($search:ident, $array:ident: $type:ident, $($name:ident $down:expr),+) => {$(
        for index in 0..2 {
            let at = offset_of!(Laid, $array) + index * size_of::<$type>() + offset_of!($type, $name);
            let name = concat!(stringify!($type), ".", stringify!($name));
            $search.field(name, index, at, width(|s: &$type| &s.$name), $down);
        }
    )+};
    ($search:ident, $array:ident: $type:ident, [$name:ident] $down:expr) => {
        for index in 0..2 {
            let at = offset_of!(Laid, $array) + index * size_of::<$type>() + offset_of!($type, $name);
            let (count, width) = places(|s: &$type| &s.$name);
            let name = concat!(stringify!($type), ".", stringify!($name));
            for place in 0..count {
                $search.field(name, index, at + place * width, width, $down(place, count) as u64);
            }
        }
    };
}

/// Every field lies where the library puts it, and nothing is written after
/// the last struct.
pub fn layout() -> Result<(), String> {
    let mut room = vec![GUARD; (size_of::<Laid>() + AFTER) / 8];
    // SAFETY: the room is longer than the structs and aligned as they are.
    unsafe { layout_fill(room.as_mut_ptr().cast()) };
    let bytes: Vec<u8> = room.iter().flat_map(|word| word.to_le_bytes()).collect();
    let after = &bytes[size_of::<Laid>()..];
    if after.iter().any(|&byte| byte != GUARD as u8) {
        return Err("a byte after the last struct was written".to_string());
    }
    let mut search = Search { bytes, missing: None };
    look!(search, machines: LentMachine, [cells] |n, of| match n {
        0 => 2,
        n if n + 1 == of => 3,
        _ => 1,
    });
    look!(search, machines: LentMachine, [stack] |n, _| 5 + n);
    look!(search, machines: LentMachine, pc 4, levels 10, skip 11, standby 12);
    look!(search, machines: LentMachine, [registers] |n, _| 13 + n);
    look!(search, machines: LentMachine, modulo 20, counter 21, divider 22);
    look!(search, inputs: LentInput, [pins] |n, _| 1 + n);
    look!(search, inputs: LentInput, [directions] |n, _| 6 + n);
    look!(search, inputs: LentInput, release 11);
    look!(search, runs: RunReply, steps 1, cycles 2, number 3);
    look!(search, verdicts: VerdictReply, number 1, word 2, rule 3);
    look!(search, reads: ReadReply, number 1, words 2, entries 3, records 4);
    look!(search, outputs: OutputReply, number 1, length 2);
    look!(search, decoded: DecodedRow, number 1, row 2, first 3, second 4, addr 5);
    look!(search, encoded: EncodedRow, number 1, word 2);
    search.missing.map_or(Ok(()), Err)
}
