//! In place of `planted` without the feature `faults`.

/// Says that there are no faults to switch on.
pub fn switch(_: u64) -> bool {
    println!("compare: deliberate faults need a build with --features faults");
    false
}

pub fn all_found(_: u64) -> bool {
    switch(0)
}
