//! Station files, good and damaged, through the program `station`, whose text
//! is compared byte for byte with the second emulator's.

use std::io::Write;
use std::path::{Path, PathBuf};
use std::process::{Command, Stdio};
use std::sync::OnceLock;

use reference::station::{read, write};
use reference::transcript;

use crate::counts;
use crate::events::files::form;
use crate::pair::Finding;
use crate::random::Random;
use crate::stations::{faults, file_of, form_of, Filed};
use crate::tally::Tally;

/// Where the program `station` stands.
pub static PROGRAM: OnceLock<PathBuf> = OnceLock::new();

/// One file: good, or damaged once or twice. One that is read is written in the
/// lowest form that has its station.
pub fn file(random: &mut Random, _: u64, tally: &mut Tally) -> Result<(), Finding> {
    let filed = Filed::any(random);
    let mut file = filed.file();
    if read(&file).as_ref() != Ok(&filed.station) {
        return Err(Finding(format!("a good file reads as another station\n{file:02X?}\n")));
    }
    (0..faults(random)).for_each(|_| filed.damage(random, &mut file));
    if let Ok(again) = read(&file) {
        let written = write(&again);
        let lowest = form_of(&again);
        let as_it_was = usize::from(file[1]) == lowest;
        if written != Ok(file_of(&again, lowest)) || as_it_was && written.as_ref() != Ok(&file) {
            return Err(Finding(format!(
                "a station that was read writes another file\n{file:02X?}\n{written:02X?}\n"
            )));
        }
    }
    compare(&file, tally)
}

/// The program's text against the second emulator's.
fn compare(file: &[u8], tally: &mut Tally) -> Result<(), Finding> {
    let program = PROGRAM.get().expect("main sets the path");
    let printed = match print(program, file) {
        Ok(printed) => printed,
        Err(error) => return Err(Finding(format!("{}: {error}\n", program.display()))),
    };
    let expected = transcript(file);
    if printed == expected.as_bytes() {
        tally.compared += 1;
        tally.see(kind(&expected));
        if form(file) == Some(2) {
            tally.see(kind_of_form_2(&expected));
        }
        return counts::end(file, &expected, tally);
    }
    let printed = String::from_utf8_lossy(&printed).into_owned();
    Err(Finding(format!(
        "file of {} bytes: {file:02X?}\nproved:\n{printed}second:\n{expected}\
         first difference: {}\n",
        file.len(),
        first_line(&printed, &expected)
    )))
}

/// The first line in which two texts differ.
pub fn first_line(proved: &str, second: &str) -> String {
    let line = proved.lines().zip(second.lines()).take_while(|(a, b)| a == b).count();
    let at = |text: &str| text.lines().nth(line).unwrap_or("its end").to_string();
    format!("line {}: proved {}, second {}", line + 1, at(proved), at(second))
}

/// Runs the program on a file.
fn print(program: &Path, file: &[u8]) -> std::io::Result<Vec<u8>> {
    let mut child = Command::new(program).stdin(Stdio::piped()).stdout(Stdio::piped()).spawn()?;
    if let Some(mut input) = child.stdin.take() {
        // Of a file that is too long the program does not read the rest.
        match input.write_all(file) {
            Err(error) if error.kind() != std::io::ErrorKind::BrokenPipe => return Err(error),
            _ => {}
        }
    }
    let output = child.wait_with_output()?;
    if !output.status.success() {
        return Err(std::io::Error::other(format!("it ends with {}", output.status)));
    }
    Ok(output.stdout)
}

fn kind(text: &str) -> &'static str {
    match text.split_whitespace().collect::<Vec<_>>()[..] {
        ["FILE", "20"] => "files refused with 20",
        ["FILE", "21"] => "files refused with 21",
        ["FILE", "22"] => "files refused with 22",
        ["FILE", "23"] => "files refused with 23",
        ["FILE", "24"] => "files refused with 24",
        ["SHEET", "NONE", ..] => "files without a sheet",
        ["SHEET", "PASS", ..] => "files whose sheet passes",
        ["SHEET", "FAIL", ..] => "files whose sheet fails",
        _ => "other texts",
    }
}

fn kind_of_form_2(text: &str) -> &'static str {
    match kind(text) {
        "files refused with 21" => "form 2 files refused with 21",
        "files refused with 22" => "form 2 files refused with 22",
        "files refused with 23" => "form 2 files refused with 23",
        "files refused with 24" => "form 2 files refused with 24",
        "files whose sheet passes" => "form 2 files whose sheet passes",
        "files whose sheet fails" => "form 2 files whose sheet fails",
        _ => "other texts of form 2",
    }
}
