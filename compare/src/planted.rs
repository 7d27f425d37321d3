//! The comparison tested: with each deliberate fault switched on in the second
//! emulator, the part that is for it must find it, and each part must find some
//! fault.

use reference::fault::LAST;
use reference::set_fault;

use crate::parts::PARTS;
use crate::tally::Tally;

/// Switches one fault on.
pub fn switch(fault: u64) -> bool {
    let known = (1..=u64::from(LAST)).contains(&fault);
    set_fault(if known { fault as u32 } else { 0 });
    println!("compare: the second emulator has fault {fault}{}", if known { "" } else { "? none" });
    known
}

/// The part that is for a fault.
fn part_for(fault: u32) -> &'static str {
    match fault {
        12 | 99 => "runs",
        14 | 24 | 83 | 84 | 111..=114 | 116..=133 => "verdicts",
        25 | 30 | 31 | 49 | 134..=144 => "entries",
        27 | 28 | 32 => "codes",
        29 | 33..=39 | 103..=108 | 110 => "edges",
        40..=48 => "cycles",
        63 => "lists",
        76 | 77 => "timer runs",
        50..=82 => "timer",
        85..=95 | 97 | 98 | 100..=102 => "missing",
        115 => "models",
        _ => "steps",
    }
}

/// Every fault in turn. False where one is not found by its part, where a part
/// finds none, or where something is found with none switched on.
pub fn all_found(seed: u64) -> bool {
    set_fault(0);
    if let Some((_, text)) = finders(seed).first() {
        println!("compare: without a fault: DISAGREEMENT in {text}");
        return false;
    }
    println!("compare: without a fault: nothing found");
    let mut lost = 0;
    let mut idle: Vec<&str> = PARTS.iter().map(|part| part.name).collect();
    for fault in 1..=LAST {
        set_fault(fault);
        let found = finders(seed);
        let part = part_for(fault);
        let right = found.iter().any(|(name, _)| *name == part);
        lost += u32::from(!right);
        let lacks = if right { String::new() } else { format!("NOT FOUND by {part}; ") };
        println!("compare: fault {fault}: {lacks}{}", told(&found));
        idle.retain(|part| found.iter().all(|(name, _)| name != part));
    }
    set_fault(0);
    for part in &idle {
        println!("compare: part {part} finds NONE of the faults");
    }
    println!(
        "compare: {LAST} faults, {lost} not found by their parts; {} parts that find none",
        idle.len()
    );
    lost == 0 && idle.is_empty()
}

/// The parts that found a fault, and the first difference.
fn told(found: &[(&str, String)]) -> String {
    let Some((_, text)) = found.first() else {
        return "found by none".to_string();
    };
    let names: Vec<_> = found.iter().map(|(name, _)| *name).collect();
    let first = text.lines().find(|line| line.starts_with("first difference"));
    let first = first.or(text.lines().nth(1)).unwrap_or_default();
    format!("found by {}: {first}", names.join(", "))
}

/// The parts that find something within their few cases, and what it is.
fn finders(seed: u64) -> Vec<(&'static str, String)> {
    let all = PARTS.iter();
    all.filter_map(|part| {
        let found = part.go(seed, part.few, &mut Tally::new()).err()?;
        Some((part.name, found))
    })
    .collect()
}
