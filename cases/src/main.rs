//! Runs cases with their answers in the shipped library and in the second
//! emulator.
//!
//!     cases [FOLDER]
//!
//! Each file of the folder, `data` where none is given, is of one kind and
//! tells its lines itself. A case that is answered otherwise is printed with its
//! file, line and name, and makes the exit status 1; so does a file that has
//! not as many cases as its last line tells.
//!
//!     cases --second
//!
//! runs them in the second emulator alone.
//!
//!     cases --faults
//!
//! runs them with each deliberate fault in the second emulator (planted.rs).

mod checks;
mod emulators;
mod files;
mod lent;
#[cfg(feature = "faults")]
mod planted;
mod programs;
mod scan;
mod setup;
mod words;

use std::path::Path;
use std::process::ExitCode;
use std::{env, fs};

use emulators::{Emulator, Library, Second};
use scan::{Head, Script};

/// What the cases of a file are made on.
pub trait Bench {
    /// Begins a block.
    fn begin(&mut self, head: Head);

    /// A line that sets something up; an error where it is not understood.
    fn given(&mut self, line: &str) -> Result<(), String>;

    /// What an emulator gives for a case, in the form of its answer.
    fn got(&mut self, line: &str, answer: &str, emulator: &dyn Emulator) -> Result<String, String>;
}

/// A kind of case: the name of its file, and an empty bench.
struct Kind {
    name: &'static str,
    bench: fn() -> Box<dyn Bench>,
}

fn programs() -> Box<dyn Bench> {
    Box::new(programs::Programs::new())
}

fn checks() -> Box<dyn Bench> {
    Box::<checks::Checks>::default()
}

fn files() -> Box<dyn Bench> {
    Box::<files::Files>::default()
}

const KINDS: [Kind; 14] = [
    Kind { name: "printed", bench: || Box::new(words::Words) },
    Kind { name: "words", bench: || Box::new(words::Words) },
    Kind { name: "data", bench: programs },
    Kind { name: "programs", bench: programs },
    Kind { name: "cycles", bench: programs },
    Kind { name: "registers", bench: programs },
    Kind { name: "timer", bench: programs },
    Kind { name: "host", bench: programs },
    Kind { name: "models", bench: programs },
    Kind { name: "checks", bench: checks },
    Kind { name: "ranges", bench: checks },
    Kind { name: "files", bench: files },
    Kind { name: "forms", bench: files },
    Kind { name: "texts", bench: files },
];

const BOTH: [&dyn Emulator; 2] = [&Library, &Second];

impl Kind {
    /// Its file, taken apart.
    fn script(&self, folder: &Path) -> Result<Script, String> {
        let path = folder.join(self.name).with_extension("cases");
        let text = fs::read_to_string(&path).map_err(|error| error.to_string());
        let script = text.and_then(|text| scan::scan(&text));
        script.map_err(|error| format!("{}: {error}", path.display()))
    }

    /// Every case in one emulator: those that it answers otherwise.
    fn wrong(&self, script: &Script, emulator: &dyn Emulator) -> Vec<String> {
        let mut bench = (self.bench)();
        let mut wrong = vec![];
        for block in &script.blocks {
            bench.begin(block.head);
            for line in &block.lines {
                let answer = line.answer.as_deref().unwrap_or_default();
                let got = match line.answer {
                    Some(_) => bench.got(&line.left, answer, emulator),
                    None => bench.given(&line.left).map(|_| String::new()),
                };
                let got = got.unwrap_or_else(|error| format!("not understood: {error}"));
                if got != answer {
                    wrong.push(format!(
                        "{}.cases:{}: {}: {}: {}\n  expected {answer}\n  got      {got}",
                        self.name,
                        line.number,
                        block.name,
                        line.left,
                        emulator.name()
                    ));
                }
            }
        }
        wrong
    }
}

fn all_right(folder: &Path, emulators: &[&dyn Emulator]) -> Result<bool, String> {
    let (mut total, mut wrong) = (0, vec![]);
    for kind in &KINDS {
        let script = kind.script(folder)?;
        emulators.iter().for_each(|emulator| wrong.extend(kind.wrong(&script, *emulator)));
        println!("cases: {}: {}", kind.name, script.cases);
        total += script.cases;
    }
    wrong.iter().for_each(|text| println!("{text}"));
    let names: Vec<_> = emulators.iter().map(|emulator| emulator.name()).collect();
    println!("cases: {total} in {}, {} wrong", names.join(" and in "), wrong.len());
    Ok(wrong.is_empty())
}

#[cfg(feature = "faults")]
use planted::all_noticed;

#[cfg(not(feature = "faults"))]
fn all_noticed(_: &Path) -> Result<bool, String> {
    Err("--faults needs the feature faults".to_string())
}

fn main() -> ExitCode {
    let data = Path::new(env!("CARGO_MANIFEST_DIR")).join("data");
    let right = match env::args().nth(1) {
        None => all_right(&data, &BOTH),
        Some(option) if option == "--faults" => all_noticed(&data),
        Some(option) if option == "--second" => all_right(&data, &[&Second]),
        Some(folder) => all_right(Path::new(&folder), &BOTH),
    };
    match right {
        Ok(true) => ExitCode::SUCCESS,
        Ok(false) => ExitCode::FAILURE,
        Err(error) => {
            println!("cases: {error}");
            ExitCode::FAILURE
        }
    }
}
