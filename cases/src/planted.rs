//! The cases tested: with each deliberate fault switched on in the second
//! emulator some case must be answered otherwise, and each kind must notice
//! some fault.

use std::path::Path;

use reference::fault::LAST;
use reference::set_fault;

use crate::emulators::Second;
use crate::KINDS;

/// Every fault in turn. False where no kind notices one, where a kind notices
/// none, or where something is noticed with none switched on.
pub fn all_noticed(folder: &Path) -> Result<bool, String> {
    let mut idle: Vec<&str> = KINDS.iter().map(|kind| kind.name).collect();
    let mut lost = 0;
    for fault in 0..=LAST {
        set_fault(fault);
        let mut noticed = vec![];
        for kind in &KINDS {
            let wrong = kind.wrong(&kind.script(folder)?, &Second).len();
            if wrong > 0 {
                noticed.push(format!("{} ({wrong})", kind.name));
                idle.retain(|name| *name != kind.name);
            }
        }
        lost += u32::from(noticed.is_empty() != (fault == 0));
        println!("cases: fault {fault}: noticed by {}", noticed.join(", "));
    }
    set_fault(0);
    println!("cases: {LAST} faults, {lost} not noticed; kinds that notice none: {}", idle.len());
    Ok(lost == 0 && idle.is_empty())
}
