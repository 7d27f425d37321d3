//! The station file, read and written (document 01, "Station file" and the
//! file refusals 20 to 25). It stays one of the 17132 (document 02, E1), and has
//! two forms (E5): a sheet of single levels, or one of ranges.

use crate::fault::{self, fault};
use crate::machine::Input;
use crate::model::Model;
use crate::sheet::{entry_in_range, Range, ENTRY_BYTES};

/// The content of a station file.
#[derive(Clone, Debug, Default, PartialEq, Eq)]
pub struct Station {
    pub rom: Vec<u16>,
    /// The level sheet, two bytes an entry whatever the form; empty for none.
    pub sheet: Vec<u8>,
    pub inputs: Vec<Input>,
}

/// How many entries each section of a file has.
#[derive(Clone, Copy, Debug, PartialEq, Eq)]
pub struct Counts {
    pub words: usize,
    /// Entries of the sheet, not its bytes.
    pub entries: usize,
    pub inputs: usize,
}

/// The model of every file.
pub(crate) const MODEL: Model = Model::Upd17132;
/// The most input records a file can have.
const MAX_INPUTS: usize = 4095;
/// Bytes of one input record: pins, directions, release.
const INPUT_BYTES: usize = 11;

/// The form number that a file begins with.
#[derive(Clone, Copy, PartialEq, Eq)]
enum Form {
    /// A byte an entry: its lowest and its highest level are equal.
    One = 1,
    /// Two bytes an entry.
    Two = 2,
}

impl Form {
    /// The form of a number; refusal 20 where it is neither.
    fn of_number(number: u16) -> Result<Form, u8> {
        match number {
            1 => Ok(Form::One),
            2 => Ok(Form::Two),
            3 if fault(fault::FORM_OF_THREE) => Ok(Form::Two),
            _ => Err(20),
        }
    }

    /// The form that a sheet is written in: 1 where every entry has equal
    /// halves, no entry too.
    fn of_sheet(sheet: &[u8]) -> Form {
        let (entries, _) = sheet.as_chunks::<ENTRY_BYTES>();
        let tested = if fault(fault::FORM_BY_FIRST) { entries.len().min(1) } else { entries.len() };
        let equal = all(&entries[..tested], |[lowest, highest]| lowest == highest);
        if !equal || fault(fault::FORM_2_ALWAYS) || fault(fault::NONE_IN_FORM_2) && tested == 0 {
            return Form::Two;
        }
        Form::One
    }

    fn entry_bytes(self) -> usize {
        match self {
            Form::One => 1,
            Form::Two => ENTRY_BYTES,
        }
    }

    /// What an entry adds to the file's count: one, in either form.
    fn counted(self) -> usize {
        if fault(fault::COUNT_OF_BYTES) {
            return self.entry_bytes();
        }
        1
    }

    /// Are these bytes entries? The last of them may be cut off: its half is
    /// then tested alone.
    fn entries_allowed(self, bytes: &[u8]) -> bool {
        let (entries, cut) = bytes.as_chunks();
        match self {
            Form::One => all(bytes, |level| entry_in_range([level; ENTRY_BYTES])),
            Form::Two => all(entries, entry_read) && half_allowed(cut),
        }
    }
}

/// Are all entries so? With no early end, which is the quick way.
fn all<T: Copy>(entries: &[T], allowed: impl Fn(T) -> bool) -> bool {
    entries.iter().fold(true, |so_far, &entry| so_far & allowed(entry))
}

/// An entry that the reader takes.
fn entry_read(entry: [u8; ENTRY_BYTES]) -> bool {
    entry_in_range(entry)
        || fault(fault::READ_HALF_NEVER) && Range::of(entry).half_never()
        || fault(fault::READ_TURNED_RANGE) && Range::of(entry).turned()
}

/// The half of an entry before the file's end, if there is one.
fn half_allowed(cut: &[u8]) -> bool {
    if fault(fault::CUT_ENTRY_MEETS_23) {
        return cut.is_empty();
    }
    fault(fault::CUT_NOT_TESTED) || all(cut, |half| entry_in_range([half; ENTRY_BYTES]))
}

/// Where the parts of a file lie.
#[derive(Clone, Copy)]
struct Layout {
    form: Form,
    counts: Counts,
}

impl Layout {
    /// Where the sheet's entries begin: after form, count, words and count.
    fn sheet_at(self) -> usize {
        2 + 2 + 2 * self.counts.words + 2
    }

    fn sheet_bytes(self) -> usize {
        self.form.entry_bytes() * self.counts.entries
    }

    fn inputs_at(self) -> usize {
        self.sheet_at() + self.sheet_bytes() + 2
    }

    fn file_bytes(self) -> usize {
        self.inputs_at() + INPUT_BYTES * self.counts.inputs
    }
}

/// Reads a station file, or gives the first fault from the front.
pub fn read(file: &[u8]) -> Result<Station, u8> {
    let layout = scan(file)?;
    let counts = layout.counts;
    let mut station = Station {
        rom: vec![0; counts.words],
        sheet: vec![0; ENTRY_BYTES * counts.entries],
        inputs: vec![Input::default(); counts.inputs],
    };
    unpack(file, layout, &mut station.rom, &mut station.sheet, &mut station.inputs);
    Ok(station)
}

/// Reads a station file into lent buffers; 25, tried last, if one of them is
/// too short. The sheet takes two bytes an entry from either form. Refused, it
/// writes nothing; places past the end stay.
pub fn read_into(
    file: &[u8],
    rom: &mut [u16],
    sheet: &mut [u8],
    inputs: &mut [Input],
) -> Result<Counts, u8> {
    let layout = scan(file)?;
    let counts = layout.counts;
    let sheet_room = if fault(fault::ROOM_OF_FILE) {
        layout.sheet_bytes()
    } else {
        ENTRY_BYTES * counts.entries
    };
    if rom.len() < counts.words || sheet.len() < sheet_room || inputs.len() < counts.inputs {
        return Err(25);
    }
    unpack(file, layout, rom, sheet, inputs);
    Ok(counts)
}

/// Writes a station as a file.
pub fn write(station: &Station) -> Result<Vec<u8>, u8> {
    let layout = test(station)?;
    let mut file = vec![0; layout.file_bytes()];
    pack(station, layout, &mut file);
    Ok(file)
}

/// Writes a station into a lent buffer and answers the file's length; 25,
/// tried last, if the buffer is too short. Refused, it writes nothing.
pub fn write_into(station: &Station, out: &mut [u8]) -> Result<usize, u8> {
    let layout = test(station)?;
    let Some(file) = out.get_mut(..layout.file_bytes()) else {
        return Err(25);
    };
    pack(station, layout, file);
    Ok(layout.file_bytes())
}

/// Goes through a file from the front, section by section.
fn scan(file: &[u8]) -> Result<Layout, u8> {
    let mut rest = Rest { bytes: file };
    let form = Form::of_number(rest.pair()?)?;
    let words = usize::from(rest.pair()?);
    if !word_count_allowed(words) {
        return Err(22);
    }
    rest.section(2 * words, |_| true)?;
    let entries = usize::from(rest.pair()?);
    if entries != 0 && entries != form.counted() * words {
        return Err(22);
    }
    let entries = entries / form.counted();
    rest.section(form.entry_bytes() * entries, |bytes| form.entries_allowed(bytes))?;
    let inputs = usize::from(rest.pair()?);
    if inputs > MAX_INPUTS {
        return Err(22);
    }
    if fault(fault::EXCESS_BEFORE_RANGE) && rest.bytes.len() > INPUT_BYTES * inputs {
        return Err(24);
    }
    rest.section(INPUT_BYTES * inputs, inputs_allowed)?;
    if !rest.bytes.is_empty() {
        return Err(24);
    }
    Ok(Layout { form, counts: Counts { words, entries, inputs } })
}

fn word_count_allowed(words: usize) -> bool {
    (1..=MODEL.rom_words()).contains(&words)
}

/// No sheet, or two bytes for each word.
fn sheet_length_allowed(bytes: usize, words: usize) -> bool {
    let bytes = if fault(fault::WRITE_ODD_LENGTH) { bytes & !1 } else { bytes };
    bytes == 0 || bytes == ENTRY_BYTES * words
}

/// Input records, the last of them perhaps cut off.
fn inputs_allowed(bytes: &[u8]) -> bool {
    let mut records = bytes.chunks_exact(INPUT_BYTES);
    let nibbles = |bytes: &[u8]| bytes.iter().fold(0, |all, nibble| all | nibble) <= 15;
    records.all(|record| nibbles(&record[..10]) && record[10] <= 1) && nibbles(records.remainder())
}

/// The bytes not yet read.
struct Rest<'a> {
    bytes: &'a [u8],
}

impl Rest<'_> {
    /// The entries of a section. Those that are there come before the file's
    /// end: 23 where one of them is not allowed, else 21 where some are lacking.
    fn section(&mut self, length: usize, allowed: impl Fn(&[u8]) -> bool) -> Result<(), u8> {
        let (here, rest) = self.bytes.split_at(length.min(self.bytes.len()));
        let cut = here.len() < length;
        if cut && fault(fault::SHORT_BEFORE_RANGE) {
            return Err(21);
        }
        if !allowed(here) {
            return Err(23);
        }
        if cut {
            return Err(21);
        }
        self.bytes = rest;
        Ok(())
    }

    /// Two bytes, high byte first; an unfinished pair is 21.
    fn pair(&mut self) -> Result<u16, u8> {
        let [high, low, rest @ ..] = self.bytes else {
            return Err(21);
        };
        self.bytes = rest;
        Ok(u16::from_be_bytes([*high, *low]))
    }
}

/// Fills buffers that are long enough from a file that was scanned.
fn unpack(file: &[u8], layout: Layout, rom: &mut [u16], sheet: &mut [u8], inputs: &mut [Input]) {
    for (word, pair) in rom.iter_mut().zip(file[4..].chunks_exact(2)).take(layout.counts.words) {
        *word = u16::from_be_bytes([pair[0], pair[1]]);
    }
    unpack_sheet(&file[layout.sheet_at()..][..layout.sheet_bytes()], layout.form, sheet);
    let records = file[layout.inputs_at()..].chunks_exact(INPUT_BYTES);
    for (input, bytes) in inputs.iter_mut().zip(records) {
        input.pins.copy_from_slice(&bytes[..5]);
        input.directions.copy_from_slice(&bytes[5..10]);
        input.release = bytes[10];
    }
}

/// A level of form 1 is read as lowest and highest.
fn unpack_sheet(bytes: &[u8], form: Form, sheet: &mut [u8]) {
    let (entries, _) = sheet.as_chunks_mut();
    match form {
        Form::One => {
            for (entry, &level) in entries.iter_mut().zip(bytes) {
                *entry = [level; ENTRY_BYTES];
            }
        }
        Form::Two => sheet[..bytes.len()].copy_from_slice(bytes),
    }
}

/// Tests a station in file order.
fn test(station: &Station) -> Result<Layout, u8> {
    let (entries, _) = station.sheet.as_chunks();
    let counts =
        Counts { words: station.rom.len(), entries: entries.len(), inputs: station.inputs.len() };
    if !word_count_allowed(counts.words) || !sheet_length_allowed(station.sheet.len(), counts.words)
    {
        return Err(22);
    }
    if fault(fault::COUNTS_BEFORE_ENTRIES) && counts.inputs > MAX_INPUTS {
        return Err(22);
    }
    if !all(entries, entry_in_range) {
        return Err(23);
    }
    if counts.inputs > MAX_INPUTS {
        return Err(22);
    }
    if !station.inputs.iter().all(Input::in_range) {
        return Err(23);
    }
    Ok(Layout { form: Form::of_sheet(&station.sheet), counts })
}

/// Writes a tested station into a buffer of the file's length.
fn pack(station: &Station, layout: Layout, file: &mut [u8]) {
    let Layout { form, counts } = layout;
    put_pair(file, 0, form as u16);
    put_pair(file, 2, counts.words as u16);
    for (word, pair) in station.rom.iter().zip(file[4..].chunks_exact_mut(2)) {
        pair.copy_from_slice(&word.to_be_bytes());
    }
    let at = layout.sheet_at();
    put_pair(file, at - 2, (form.counted() * counts.entries) as u16);
    pack_sheet(&station.sheet, form, &mut file[at..][..layout.sheet_bytes()]);
    let at = layout.inputs_at();
    put_pair(file, at - 2, counts.inputs as u16);
    for (input, bytes) in station.inputs.iter().zip(file[at..].chunks_exact_mut(INPUT_BYTES)) {
        bytes[..5].copy_from_slice(&input.pins);
        bytes[5..10].copy_from_slice(&input.directions);
        bytes[10] = input.release;
    }
}

/// In form 1 one half stands for both.
fn pack_sheet(sheet: &[u8], form: Form, bytes: &mut [u8]) {
    let (entries, _) = sheet.as_chunks::<ENTRY_BYTES>();
    match form {
        Form::One => {
            for (byte, &[level, _]) in bytes.iter_mut().zip(entries) {
                *byte = level;
            }
        }
        Form::Two => bytes.copy_from_slice(entries.as_flattened()),
    }
}

/// Two bytes, high byte first.
fn put_pair(file: &mut [u8], at: usize, value: u16) {
    file[at..at + 2].copy_from_slice(&value.to_be_bytes());
}
