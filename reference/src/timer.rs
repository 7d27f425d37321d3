//! The 8-bit timer counter (document 02, E4; source 000, 13.1).

use crate::fault::{self, fault};
use crate::peripherals::{place, Peripherals};

/// The clock that TMCK chooses for the counter (000, fig. 13-2).
#[derive(Clone, Copy)]
enum Clock {
    /// A pulse each time the divider comes to a multiple of so many cycles, a
    /// power of two.
    Period(u8),
    /// The INT pin: the pulse bit, one pulse in a step.
    Pin,
}

/// One cycle is 16 clocks of fx, so these are fx/256, fx/32 and fx/2048.
const CLOCKS: [Clock; 4] = [Clock::Period(16), Clock::Period(2), Clock::Period(128), Clock::Pin];

impl Peripherals {
    /// What a step of so many cycles does to the timer: its pulses come after its
    /// writes (document 02, E4).
    #[inline(always)]
    pub(crate) fn tick_after_writes(&mut self, cycles: u8, pulse: u8) {
        if !fault(fault::PULSE_BEFORE_WRITES) {
            self.tick(cycles, pulse);
        }
    }

    /// Before its writes, nothing.
    #[inline(always)]
    pub(crate) fn tick_before_writes(&mut self, cycles: u8, pulse: u8) {
        if fault(fault::PULSE_BEFORE_WRITES) {
            self.tick(cycles, pulse);
        }
    }

    /// So many cycles, and a pulse if there is one. The divider runs on whatever
    /// 11H says.
    #[inline(always)]
    pub(crate) fn tick(&mut self, cycles: u8, pulse: u8) {
        let running = self.registers[place::TIMER_MODE] & Self::TMEN != 0;
        if running || !fault(fault::DIVIDER_STOPPED) {
            self.divide(cycles);
        }
        if running && self.clocked(cycles, pulse) {
            self.count();
            if fault(fault::MOVT_TWO_PULSES) && cycles == 2 {
                self.count();
            }
        }
    }

    #[inline(always)]
    fn divide(&mut self, cycles: u8) {
        let passed = if fault(fault::MOVT_DIVIDES_ONE) { cycles.min(1) } else { cycles };
        self.divider = (self.divider + passed) & Self::LAST_DIVIDER;
    }

    /// Does the chosen clock give a pulse in the cycles that the divider has
    /// just gone? They are no more than its shortest period, so there is one
    /// pulse at most; and there is one where fewer cycles than these have gone
    /// since the last multiple of the period.
    #[inline(always)]
    fn clocked(&self, cycles: u8, pulse: u8) -> bool {
        match self.clock() {
            Clock::Period(period) => {
                let since = self.divider & (period - 1);
                since < cycles || fault(fault::PULSE_WITH_ANY_CLOCK) && pulse == 1
            }
            Clock::Pin => pulse == 1,
        }
    }

    /// The cycles from now to the end of a step that can have a pulse, if 11H
    /// stays as it is.
    #[inline(always)]
    pub(crate) fn quiet_cycles(&self, pulse: u8) -> i32 {
        let running = self.registers[place::TIMER_MODE] & Self::TMEN != 0;
        match self.clock() {
            Clock::Period(period) if running => i32::from(period - (self.divider & (period - 1))),
            Clock::Pin if running && pulse == 1 => 1,
            _ => i32::MAX,
        }
    }

    #[inline(always)]
    fn clock(&self) -> Clock {
        let choice = self.registers[place::TIMER_MODE] & Self::TMCK;
        if fault(fault::CLOCKS_EXCHANGED) && choice < 2 {
            return CLOCKS[usize::from(choice ^ 1)];
        }
        CLOCKS[usize::from(choice)]
    }

    /// One pulse at the counter. A match resets it at the pulse after equality
    /// (000, 13.1.3 (3)).
    fn count(&mut self) {
        if fault(fault::MATCH_AT_EQUALITY) {
            self.counter = self.counter.wrapping_add(1);
            if self.counter == self.modulo {
                self.counter = 0;
            }
            return;
        }
        let above = fault(fault::MATCH_ABOVE) && self.counter > self.modulo;
        if self.counter == self.modulo || above {
            self.counter = if fault(fault::COUNTER_STUCK) { self.modulo } else { 0 };
        } else {
            self.counter = self.counter.wrapping_add(1);
        }
    }

    /// A write of 11H. TMRES resets the counter, not the divider, and is not
    /// kept (000, fig. 13-2 and 13.1.6).
    pub(crate) fn set_mode(&mut self, value: u8) {
        let old = self.registers[place::TIMER_MODE];
        if fault(fault::CLOCK_CHANGE_DIVIDES) && (old ^ value) & Self::TMCK != 0 {
            self.divider = 0;
        }
        let lost = fault(fault::TMRES_ONLY_RUNNING) && value & Self::TMEN == 0;
        if value & Self::TMRES != 0 && !lost {
            self.counter = 0;
            if fault(fault::TMRES_CLEARS_DIVIDER) {
                self.divider = 0;
            }
        }
        let kept = Self::KEPT[place::TIMER_MODE];
        let stored = if fault(fault::TMRES_STORED) { value } else { value & kept };
        self.registers[place::TIMER_MODE] = stored;
    }
}
