//! The timer in a run. Between two pulses of the counter nothing but the divider
//! moves, so a run looks at the timer only in a step that can have a pulse or
//! that has changed 11H, and moves the divider by all the cycles since then.

use crate::fault;
use crate::peripherals::{place, Peripherals};

/// How long the timer need not be looked at.
pub(crate) struct Pace {
    /// 11H, by which this was found.
    mode: u8,
    /// The cycles from the last look to the end of the step that can have a
    /// pulse, and those that are left of them.
    whole: i32,
    left: i32,
}

impl Pace {
    /// With a look at a timer whose divider has been moved. A deliberate fault
    /// wants a look in every step.
    #[inline(always)]
    pub(crate) fn new(timer: &Peripherals, pulse: u8) -> Pace {
        let whole = if fault::any() { 0 } else { timer.quiet_cycles(pulse) };
        Pace { mode: timer.registers[place::TIMER_MODE], whole, left: whole }
    }

    /// What a step of so many cycles does to the timer, at once or later.
    #[inline(always)]
    pub(crate) fn step(&mut self, timer: &mut Peripherals, cycles: u8, pulse: u8) {
        let left = self.left - i32::from(cycles);
        if left > 0 && timer.registers[place::TIMER_MODE] == self.mode {
            self.left = left;
            return;
        }
        self.settle(timer);
        timer.tick_after_writes(cycles, pulse);
        *self = Pace::new(timer, pulse);
    }

    /// Moves the divider by the cycles in which the timer was not looked at.
    #[inline(always)]
    pub(crate) fn settle(&self, timer: &mut Peripherals) {
        let moved = i32::from(timer.divider) + (self.whole - self.left);
        timer.divider = moved as u8 & Peripherals::LAST_DIVIDER;
    }
}
