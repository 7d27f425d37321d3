//! Events of station files in both forms (document 02, E5).

use crate::sheets::is_single;
use crate::tally::Tally;

/// The events, each of which the part must see.
pub const ALL: &[&str] = &[
    "files read",
    "files refused with 20",
    "files refused with 21",
    "files refused with 22",
    "files refused with 23",
    "files refused with 24",
    "files refused with 25",
    "form 2 files read",
    "form 2 files refused with 21",
    "form 2 files refused with 22",
    "form 2 files refused with 23",
    "form 2 files refused with 24",
    "form 2 files refused with 25",
    "files of form 0",
    "files of form 3",
    "files of form 256",
    "files of form 258",
    "form 2 files without a sheet read",
    "form 2 files of single levels read",
    "form 2 files refused with 21 within an entry",
    "form 2 files refused with 23 within an entry",
    "form 1 files refused with 25 for a byte an entry",
    "form 1 files refused with 25 for the sheet's last byte",
    "form 2 files refused with 25 for the sheet's last byte",
    "form 1 files written back as they were",
    "form 2 files written back as they were",
    "form 2 files written back in form 1",
    "form 2 files without a sheet written back in form 1",
    "stations written",
    "stations written in form 2",
    "stations refused with 22",
    "stations refused with 22 for an odd byte",
    "stations refused with 23",
    "stations refused with 23 for an entry that is no range",
    "stations refused with 25",
    "stations of form 2 refused with 25",
    "files and stations with two faults",
    "sheets of no level widened",
    "sheets widened into just enough",
    "sheets widened into more",
    "sheets without room to widen",
    "texts",
    "texts without room",
    "texts of form 2",
    "texts of form 2 whose sheet passes",
    "texts of form 2 whose sheet fails",
    "texts with a MOVT run",
    "texts with a MOVT skipped",
    "texts refused after a MOVT",
    "texts with a MOVT run and in standby",
    "texts in HALT",
    "texts with a pulse",
    "texts refused with 30",
    "texts with upper RAM written",
];

/// A file's form number, where it has one.
pub fn form(file: &[u8]) -> Option<u16> {
    pair(file, 0)
}

fn pair(file: &[u8], at: usize) -> Option<u16> {
    file.get(at..at + 2).map(|two| u16::from_be_bytes([two[0], two[1]]))
}

/// How many entries a file tells, and how many bytes it has from their first on.
struct Sheet {
    entries: usize,
    bytes: usize,
}

impl Sheet {
    fn of(file: &[u8]) -> Option<Sheet> {
        let words = usize::from(pair(file, 2)?);
        let entries = usize::from(pair(file, 4 + 2 * words)?);
        Some(Sheet { entries, bytes: file.len() - (6 + 2 * words) })
    }
}

/// A file read into so many words, bytes of a sheet and bytes of inputs.
pub fn count_read(file: &[u8], number: u8, rooms: [usize; 3], tally: &mut Tally) {
    tally.see(read_with(number));
    let Some(form) = form(file) else {
        return;
    };
    if form == 2 {
        tally.see(form_2_read_with(number));
    }
    if number == 20 {
        tally.see(of_form(form));
    }
    let Some(Sheet { entries, bytes }) = Sheet::of(file) else {
        return;
    };
    let within = form == 2 && bytes < 2 * entries && bytes % 2 == 1;
    let lacks_sheet = number == 25 && entries > 0 && rooms[0] >= entries;
    let a_byte = lacks_sheet && rooms[1] + 1 == 2 * entries;
    tally.see_those(&[
        (form == 2 && number == 0 && entries == 0, "form 2 files without a sheet read"),
        (within && number == 21, "form 2 files refused with 21 within an entry"),
        (within && number == 23, "form 2 files refused with 23 within an entry"),
        (
            form == 1 && lacks_sheet && rooms[1] == entries,
            "form 1 files refused with 25 for a byte an entry",
        ),
        (form == 1 && a_byte, "form 1 files refused with 25 for the sheet's last byte"),
        (form == 2 && a_byte, "form 2 files refused with 25 for the sheet's last byte"),
    ]);
}

/// A file that was read with this sheet, and written again.
pub fn count_back(file: &[u8], sheet: &[u8], tally: &mut Tally) {
    let (single, none) = (is_single(sheet), sheet.is_empty());
    tally.see(match (form(file), single, none) {
        (Some(2), true, true) => "form 2 files without a sheet written back in form 1",
        (Some(2), true, false) => "form 2 files written back in form 1",
        (Some(2), false, _) => "form 2 files written back as they were",
        _ => "form 1 files written back as they were",
    });
    if form(file) == Some(2) && single && !none {
        tally.see("form 2 files of single levels read");
    }
}

/// A station whose sheet this is, written.
pub fn count_written(words: usize, sheet: &[u8], number: u8, tally: &mut Tally) {
    tally.see(written_with(number));
    let (wide, odd) = (!is_single(sheet), sheet.len() % 2 == 1);
    tally.see_those(&[
        (number == 0 && wide, "stations written in form 2"),
        (number == 25 && wide, "stations of form 2 refused with 25"),
        (
            number == 22 && odd && sheet.len() == 2 * words + 1,
            "stations refused with 22 for an odd byte",
        ),
        (
            number == 23 && sheet.iter().all(|&half| half <= 5 || half == 15) && wide,
            "stations refused with 23 for an entry that is no range",
        ),
    ]);
}

/// A file's text.
pub fn count_text(file: &[u8], text: &str, number: u8, tally: &mut Tally) {
    tally.see(if number == 0 { "texts" } else { "texts without room" });
    let two = form(file) == Some(2) && number == 0;
    tally.see_those(&[
        (two, "texts of form 2"),
        (two && text.starts_with("SHEET PASS"), "texts of form 2 whose sheet passes"),
        (two && text.starts_with("SHEET FAIL"), "texts of form 2 whose sheet fails"),
    ]);
}

fn read_with(number: u8) -> &'static str {
    match number {
        0 => "files read",
        20 => "files refused with 20",
        21 => "files refused with 21",
        22 => "files refused with 22",
        23 => "files refused with 23",
        24 => "files refused with 24",
        25 => "files refused with 25",
        _ => "files refused with another number",
    }
}

fn form_2_read_with(number: u8) -> &'static str {
    match number {
        0 => "form 2 files read",
        21 => "form 2 files refused with 21",
        22 => "form 2 files refused with 22",
        23 => "form 2 files refused with 23",
        24 => "form 2 files refused with 24",
        25 => "form 2 files refused with 25",
        _ => "form 2 files refused with another number",
    }
}

fn of_form(form: u16) -> &'static str {
    match form {
        0 => "files of form 0",
        3 => "files of form 3",
        256 => "files of form 256",
        258 => "files of form 258",
        _ => "files of another form",
    }
}

fn written_with(number: u8) -> &'static str {
    match number {
        0 => "stations written",
        22 => "stations refused with 22",
        23 => "stations refused with 23",
        25 => "stations refused with 25",
        _ => "stations refused with another number",
    }
}
