//! Times the proved emulator beside the second one.
//!
//!     bench [PAIRS]
//!
//! Each row is the median of so many pairs of calls, taken in turn on records
//! and buffers that are refilled alike before every call, and the spread from
//! the 10th to the 90th percentile. A pair whose answers, records or buffers
//! differ stops it.

mod files;
mod roms;
mod row;

use std::hint::black_box;
use std::{env, fs};

use pollwezen_host::{self as proved, LentMachine};
use reference::Model::{self, Upd17120, Upd17132};
use reference::{Machine, Station, Verdict};

use roms::{INPUT, PULSE};
use row::{Row, Side};

fn main() {
    let pairs: usize = env::args().nth(1).map_or(301, |n| n.parse().expect("a number of pairs"));
    assert!(pairs > 0, "at least one pair");
    println!(
        "ns per step, word, byte or record: median of {pairs} pairs of calls (10th to 90th \
         percentile), the two emulators first in turn; records and buffers are refilled alike \
         before every call, outside the timed part; {}; {}\n",
        env!("COMPILER"),
        cpu()
    );
    println!("| what | second emulator, ns | proved, ns | ratio |");
    println!("|---|---|---|---|");
    let blink = roms::blink();
    run("run of 1,000 steps, blinking", Upd17132, &blink, pairs, 1_000);
    run("run of 10,000 steps, blinking", Upd17132, &blink, pairs, 10_000);
    run("run of 65,535 steps, blinking", Upd17132, &blink, pairs, 65_535);
    let arithmetic = roms::arithmetic();
    let name = "run of 65,535 steps, arithmetic with index and decimal";
    run(name, Upd17132, &arithmetic, pairs, 65_535);
    run(&format!("{name}, 17120"), Upd17120, &arithmetic, pairs, 65_535);
    run("run of 65,535 steps, calls", Upd17132, &roms::calls(), pairs, 65_535);
    run("run of 65,535 steps, one branch", Upd17132, &roms::branch(), pairs, 65_535);
    run("run of 65,535 steps, polling the timer", Upd17132, &roms::poll(), pairs, 65_535);
    for boxes in [1, 10, 100, 1_000] {
        runs_in_turn(&blink, pairs, boxes);
    }
    single_steps("single steps, blinking", Upd17132, &blink, pairs);
    single_steps("single steps, blinking, 17120", Upd17120, &blink, pairs);
    single_steps("single steps, standing in HALT", Upd17132, &roms::halt(), pairs);
    let (levels, ranges) = (roms::largest(), roms::largest_with_ranges());
    check("verify, per word of 1,024", &levels, pairs);
    check("verify with ranges, per word of 1,024", &ranges, pairs);
    files::both_ways(1, &levels, pairs);
    files::both_ways(2, &ranges, pairs);
    files::print(&levels, pairs);
    files::widen(pairs);
}

/// The model of the CPU.
fn cpu() -> String {
    let text = fs::read_to_string("/proc/cpuinfo").unwrap_or_default();
    let model = text.lines().find_map(|line| line.strip_prefix("model name")?.split_once(": "));
    model.map_or("unknown CPU".to_string(), |(_, name)| name.to_string())
}

/// The proved reset of a record.
fn refill(model: Model, machine: &mut Machine) {
    assert_eq!(proved::reset(model.number(), machine), 0);
}

fn run(name: &str, model: Model, rom: &[u16], pairs: usize, budget: u32) {
    let row = Row { name, units: budget.into(), pairs };
    let native = Side {
        lent: Machine::reset(model),
        refill: |machine: &mut Machine| *machine = Machine::reset(model),
        call: |machine: &mut Machine| {
            let (model, rom, input) = (black_box(model), black_box(rom), black_box(&INPUT));
            let (pulse, budget) = (black_box(PULSE), black_box(budget));
            let report = reference::run(model, rom, machine, input, pulse, budget);
            (report.count.steps, report.count.cycles, report.refusal)
        },
    };
    let proved = Side {
        lent: Machine::reset(model),
        refill: |machine: &mut Machine| refill(model, machine),
        call: |machine: &mut Machine| {
            let (model, rom, input) = (black_box(model), black_box(rom), black_box(&INPUT));
            let (pulse, budget) = (black_box(PULSE), black_box(budget));
            let report = proved::run(model.number(), rom, machine, input, pulse, budget);
            (report.steps, report.cycles, report.number)
        },
    };
    row.print(native, proved, |a, b| a == b);
}

/// A run of 100 steps on each of so many records of the 17132 in turn.
fn runs_in_turn(rom: &[u16], pairs: usize, boxes: usize) {
    const STEPS: u32 = 100;
    const MODEL: Model = Upd17132;
    let name = format!("runs of {STEPS} steps on {boxes} records in turn");
    let row = Row { name: &name, units: f64::from(STEPS) * boxes as f64, pairs };
    let native = Side {
        lent: vec![Machine::reset(MODEL); boxes],
        refill: |machines: &mut Vec<Machine>| machines.fill(Machine::reset(MODEL)),
        call: |machines: &mut Vec<Machine>| {
            let (model, rom, input) = (black_box(MODEL), black_box(rom), black_box(&INPUT));
            machines
                .iter_mut()
                .map(|m| reference::run(model, rom, m, input, black_box(PULSE), STEPS).count.cycles)
                .sum::<u32>()
        },
    };
    let proved = Side {
        lent: vec![Machine::reset(MODEL); boxes],
        refill: |machines: &mut Vec<Machine>| {
            machines.iter_mut().for_each(|machine| refill(MODEL, machine));
        },
        call: |machines: &mut Vec<Machine>| {
            let (model, rom, input) = (black_box(MODEL), black_box(rom), black_box(&INPUT));
            machines
                .iter_mut()
                .map(|m| proved::run(model.number(), rom, m, input, black_box(PULSE), STEPS).cycles)
                .sum::<u32>()
        },
    };
    row.print(native, proved, |a, b| a == b);
}

/// Single steps, each with its range test. The proved step is called on a
/// record in C's layout, as a host keeps it.
fn single_steps(name: &str, model: Model, rom: &[u16], pairs: usize) {
    const STEPS: u32 = 10_000;
    let row = Row { name, units: STEPS.into(), pairs };
    let native = Side {
        lent: Machine::reset(model),
        refill: |machine: &mut Machine| *machine = Machine::reset(model),
        call: |machine: &mut Machine| {
            for _ in 0..STEPS {
                let (rom, input, pulse) = (black_box(rom), black_box(&INPUT), black_box(PULSE));
                black_box(reference::step(black_box(model), rom, machine, input, pulse));
            }
        },
    };
    let proved = Side {
        lent: LentMachine::from(&Machine::reset(model)),
        refill: |lent: &mut LentMachine| {
            assert_eq!(proved::reset_lent(model.number(), lent), 0);
        },
        call: |lent: &mut LentMachine| {
            for _ in 0..STEPS {
                let (rom, input, pulse) = (black_box(rom), black_box(&INPUT), black_box(PULSE));
                black_box(proved::step_lent(black_box(model).number(), rom, lent, input, pulse));
            }
        },
    };
    row.print(native, proved, |a, b| *a == Machine::from(b));
}

/// The check of a ROM that passes for the 17132. It is lent nothing that it
/// writes.
fn check(name: &str, station: &Station, pairs: usize) {
    const MODEL: Model = Upd17132;
    let Station { rom, sheet, .. } = station;
    let row = Row { name, units: rom.len() as f64, pairs };
    let native = Side {
        lent: (),
        refill: |_: &mut ()| (),
        call: |_: &mut ()| {
            let (rom, sheet) = (black_box(rom), black_box(sheet));
            match reference::verify(black_box(MODEL), rom, sheet) {
                Verdict::Pass => (0, 0, 0),
                Verdict::Fail { word, rule } => (254, word, rule),
                Verdict::Refused(number) => (number, 0, 0),
            }
        },
    };
    let proved = Side {
        lent: (),
        refill: |_: &mut ()| (),
        call: |_: &mut ()| {
            let (rom, sheet) = (black_box(rom), black_box(sheet));
            let checked = proved::verify(black_box(MODEL).number(), rom, sheet);
            (checked.number, checked.word, checked.rule)
        },
    };
    row.print(native, proved, |_, _| true);
}
