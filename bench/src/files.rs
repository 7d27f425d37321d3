//! Rows of the largest files, one of each form, and of a sheet widened.

use std::hint::black_box;

use pollwezen_host::{self as proved, FILE_BYTES, SHEET_BYTES, TEXT_BYTES, WORDS};
use reference::sheet::of_levels;
use reference::station::{read_into, write, write_into};
use reference::{transcript, Input, Station};

use crate::roms;
use crate::row::{Row, Side};

/// What stands in a lent buffer before a call.
const OLD: u8 = 0x5A;

/// The largest file of a form, read and written.
pub fn both_ways(form: u8, station: &Station, pairs: usize) {
    let file = write(station).expect("a good station");
    assert_eq!((file[1], file.len()), (form, FILE_BYTES - if form == 1 { WORDS } else { 0 }));
    let inputs = &file[file.len() - 11 * station.inputs.len()..];
    let name = |what| format!("{what} the largest file of form {form}, per byte");
    read_file(&name("read"), station, &file, inputs, pairs);
    write_file(&name("write"), station, &file, inputs, pairs);
}

/// Lent buffers of the largest sizes, for a reader.
struct Buffers<T> {
    rom: Vec<u16>,
    sheet: Vec<u8>,
    inputs: Vec<T>,
}

impl<T: Copy> Buffers<T> {
    fn new(old: T, inputs: usize) -> Buffers<T> {
        Buffers { rom: vec![0; WORDS], sheet: vec![0; SHEET_BYTES], inputs: vec![old; inputs] }
    }

    fn refill(&mut self, old: T) {
        self.rom.fill(u16::from(OLD));
        self.sheet.fill(OLD);
        self.inputs.fill(old);
    }
}

fn read_file(name: &str, station: &Station, file: &[u8], inputs: &[u8], pairs: usize) {
    const OLD_INPUT: Input = Input { pins: [OLD; 5], directions: [OLD; 5], release: OLD };
    let row = Row { name, units: file.len() as f64, pairs };
    let native = Side {
        lent: Buffers::new(OLD_INPUT, station.inputs.len()),
        refill: |lent: &mut Buffers<Input>| lent.refill(OLD_INPUT),
        call: |lent: &mut Buffers<Input>| {
            let file = black_box(file);
            match read_into(file, &mut lent.rom, &mut lent.sheet, &mut lent.inputs) {
                Ok(counts) => (0, counts.words, counts.entries, counts.inputs),
                Err(number) => (number, 0, 0, 0),
            }
        },
    };
    let proved = Side {
        lent: Buffers::new(OLD, inputs.len()),
        refill: |lent: &mut Buffers<u8>| lent.refill(OLD),
        call: |lent: &mut Buffers<u8>| {
            let file = black_box(file);
            let c = proved::read(file, &mut lent.rom, &mut lent.sheet, &mut lent.inputs);
            (c.number, c.words, c.entries, c.records)
        },
    };
    row.print(native, proved, |a, b| {
        let words = a.rom == station.rom && b.rom == station.rom;
        let entries = a.sheet == station.sheet && b.sheet == station.sheet;
        words && entries && a.inputs == station.inputs && b.inputs == inputs
    });
}

fn write_file(name: &str, station: &Station, file: &[u8], inputs: &[u8], pairs: usize) {
    let row = Row { name, units: file.len() as f64, pairs };
    let native = Side {
        lent: vec![OLD; file.len()],
        refill: |out: &mut Vec<u8>| out.fill(OLD),
        call: |out: &mut Vec<u8>| match write_into(black_box(station), out) {
            Ok(length) => (0, length),
            Err(number) => (number, 0),
        },
    };
    let proved = Side {
        lent: vec![OLD; file.len()],
        refill: |out: &mut Vec<u8>| out.fill(OLD),
        call: |out: &mut Vec<u8>| {
            let Station { rom, sheet, .. } = black_box(station);
            let output = proved::write(rom, sheet, black_box(inputs), out);
            (output.number, output.length)
        },
    };
    row.print(native, proved, |a, b| a == file && b == file);
}

/// The second emulator makes its text itself; the proved one has a lent buffer.
pub fn print(station: &Station, pairs: usize) {
    let file = &write(station).expect("a good station");
    let name = "transcript of 4,095 records, per record";
    let row = Row { name, units: station.inputs.len() as f64, pairs };
    let native = Side {
        lent: String::new(),
        refill: |text: &mut String| *text = String::new(),
        call: |text: &mut String| {
            *text = transcript(black_box(file));
            (0, text.len())
        },
    };
    let proved = Side {
        lent: vec![OLD; TEXT_BYTES],
        refill: |out: &mut Vec<u8>| out.fill(OLD),
        call: |out: &mut Vec<u8>| {
            let output = proved::transcript(black_box(file), out);
            (output.number, output.length)
        },
    };
    row.print(native, proved, |text, out| {
        let (front, rest) = out.split_at(text.len());
        front == text.as_bytes() && rest.iter().all(|&byte| byte == OLD)
    });
}

/// A sheet of single levels made into ranges. The second emulator makes its sheet
/// itself.
pub fn widen(pairs: usize) {
    let levels = &roms::levels();
    let row = Row { name: "widen, per word of 1,024", units: levels.len() as f64, pairs };
    let native = Side {
        lent: vec![],
        refill: |sheet: &mut Vec<u8>| *sheet = vec![],
        call: |sheet: &mut Vec<u8>| {
            *sheet = of_levels(black_box(levels));
            (0, sheet.len())
        },
    };
    let proved = Side {
        lent: vec![OLD; SHEET_BYTES],
        refill: |out: &mut Vec<u8>| out.fill(OLD),
        call: |out: &mut Vec<u8>| {
            let output = proved::widen(black_box(levels), out);
            (output.number, output.length)
        },
    };
    row.print(native, proved, |a, b| a == b);
}
