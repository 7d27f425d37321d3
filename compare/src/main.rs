//! Compares the proved emulator with the second one, at scale.
//!
//!     compare [--seed N] [--times K] [--station PATH] [--faults | --fault F]
//!
//! Without arguments the seed is fixed. K makes every part K times as long;
//! --faults has its own lengths.
//! The exit status is 0 where the two agree everywhere.
//!
//! Built with the feature `faults`, --faults switches each deliberate fault of
//! the second emulator on and expects a disagreement, and --fault F compares
//! with fault F on and prints the disagreement whole.

#![deny(unsafe_code)]

mod board;
mod clock;
mod codes;
mod counts;
mod cycles;
mod damages;
mod edge_names;
mod edges;
mod entries;
mod events;
mod files;
mod findings;
mod lists;
mod missing;
mod models;
mod nops;
mod operands;
mod pair;
mod parts;
mod places;
#[cfg_attr(not(feature = "faults"), path = "no_faults.rs")]
mod planted;
mod ports;
mod random;
mod ranges;
mod records;
mod roms;
mod routines;
mod rules;
mod shapes;
mod sheets;
mod stations;
mod steps;
mod tally;
mod timer;
mod timer_runs;
mod timers;
mod told;
mod transfers;
mod verdicts;
mod walk;
mod widening;
mod words;

// The library of this package, src/host/.
use pollwezen_host as host;

use std::path::PathBuf;
use std::process::ExitCode;
use std::time::Instant;

use parts::PARTS;
use tally::Tally;

/// The gate's seed.
const SEED: u64 = 17_132;

struct Arguments {
    seed: u64,
    times: u64,
    station: PathBuf,
    plant: Plant,
}

/// Deliberate faults in the second emulator.
enum Plant {
    None,
    One(u64),
    All,
}

fn main() -> ExitCode {
    let arguments = match arguments() {
        Ok(arguments) => arguments,
        Err(what) => return failed(&format!("compare: {what}")),
    };
    if !arguments.station.is_file() {
        return failed(&format!("compare: {} is missing", arguments.station.display()));
    }
    if let Err(what) = host::layout() {
        return failed(&format!("compare: layout: {what}"));
    }
    files::PROGRAM.get_or_init(|| arguments.station.clone());
    let good = match arguments.plant {
        Plant::None => agree(&arguments),
        Plant::One(fault) => planted::switch(fault) && agree(&arguments),
        Plant::All => planted::all_found(arguments.seed),
    };
    if good {
        ExitCode::SUCCESS
    } else {
        ExitCode::FAILURE
    }
}

fn failed(what: &str) -> ExitCode {
    eprintln!("{what}");
    ExitCode::FAILURE
}

/// Every part; false at the first disagreement.
fn agree(arguments: &Arguments) -> bool {
    for part in PARTS {
        let start = Instant::now();
        let mut tally = Tally::new();
        let cases = part.cases * arguments.times;
        if let Err(found) = part.go(arguments.seed, cases, &mut tally) {
            println!("compare: DISAGREEMENT in {found}");
            return false;
        }
        if let Some(what) = tally.lacks(part.numbers, part.things) {
            println!("compare: {}, seed {}: never seen: {what}", part.name, arguments.seed);
            return false;
        }
        let seconds = start.elapsed().as_secs_f32();
        let (name, compared, seen) = (part.name, tally.compared, tally.text());
        println!("compare: {name}: {cases} cases, {compared} compared, {seconds:.1} s: {seen}");
    }
    println!("compare: seed {}: no disagreement", arguments.seed);
    true
}

fn arguments() -> Result<Arguments, String> {
    let beside = concat!(env!("CARGO_MANIFEST_DIR"), "/../crates/station/out/station");
    let mut found =
        Arguments { seed: SEED, times: 1, station: PathBuf::from(beside), plant: Plant::None };
    let mut given = std::env::args().skip(1);
    while let Some(name) = given.next() {
        match name.as_str() {
            "--faults" => found.plant = Plant::All,
            "--fault" => found.plant = Plant::One(number(&name, given.next())?),
            "--seed" => found.seed = number(&name, given.next())?,
            "--times" => found.times = number(&name, given.next())?.max(1),
            "--station" => found.station = given.next().ok_or("--station needs a path")?.into(),
            other => return Err(format!("unknown argument {other}")),
        }
    }
    if matches!(found.plant, Plant::All) && found.times != 1 {
        return Err("--times does not go with --faults".to_string());
    }
    Ok(found)
}

fn number(name: &str, value: Option<String>) -> Result<u64, String> {
    value.and_then(|text| text.parse().ok()).ok_or(format!("{name} needs a number"))
}
