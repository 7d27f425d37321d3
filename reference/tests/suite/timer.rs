//! The timer: document 02, E4; source 000, 13.1.

use crate::kit::*;
use reference::Instruction::{self, *};
use reference::{Answer, Machine, Peripherals};

/// Modes of 11H that run: fx/256, fx/32, fx/2048 and the INT pin.
const BY_256: u8 = 0b1000;
const BY_32: u8 = 0b1001;
const BY_2048: u8 = 0b1010;
const BY_PIN: u8 = 0b1011;

/// A machine with this mode, modulo register, counter and divider.
fn machine(mode: u8, modulo: u8, counter: u8, divider: u8) -> Machine {
    let registers = [mode, 0, 0, 0, 0, 0, 0];
    let peripherals = Peripherals { registers, modulo, counter, divider };
    Machine { peripherals, ..reset() }
}

/// Counter and divider after one step of an instruction.
fn one(mut machine: Machine, instruction: Instruction, pulse: u8) -> (u8, u8) {
    assert_eq!(step(&rom(&[instruction]), &mut machine, &quiet(), pulse), Answer::Done);
    (machine.peripherals.counter, machine.peripherals.divider)
}

/// The counter after so many steps of a ROM.
fn counter_after(rom: &[u16], steps: u32) -> u8 {
    let mut machine = reset();
    assert_eq!(run(rom, &mut machine, &quiet(), 0, steps).count.steps, steps);
    machine.peripherals.counter
}

/// From reset, with fx/256 and the modulo register FFH.
#[test]
fn from_reset() {
    let program = rom(&[Br { addr: 0 }]);
    for (steps, counter) in [(0, 0), (15, 0), (16, 1), (31, 1), (32, 2), (4_079, 254)] {
        assert_eq!(counter_after(&program, steps), counter, "{steps}");
    }
    for (steps, counter) in [(4_080, 255), (4_095, 255), (4_096, 0), (4_112, 1)] {
        assert_eq!(counter_after(&program, steps), counter, "{steps}");
    }
}

/// Modulo 1 and fx/32 with TMRES, then GET in a loop: what GET finds.
fn found(program: &[u16], steps: [usize; 4]) -> [u8; 4] {
    let mut machine = reset();
    let mut done = 0;
    steps.map(|step| {
        go(program, &mut machine, step - done);
        done = step;
        at(&machine, 0x0E) << 4 | at(&machine, 0x0F)
    })
}

#[test]
fn a_loop_of_gets() {
    let program = [0xE8F1, 0xE8E0, 0x38A3, 0xEF8D, 0x3921, 0x38B2, 0x6005];
    assert_eq!(found(&program, [6, 8, 10, 12]), [0, 1, 0, 1]);
    // The match comes with the pulse of step 8.
    let mut machine = reset();
    let counters: [u8; 8] = std::array::from_fn(|_| {
        go(&program, &mut machine, 1);
        machine.peripherals.counter
    });
    assert_eq!(counters, [0, 0, 0, 0, 0, 1, 1, 0]);
}

/// One step later, POKE's own step has a pulse, after its write.
#[test]
fn a_pulse_with_the_poke() {
    let program = [0xE8F1, 0xE8E0, 0x38A3, 0xEF8D, 0x3CF0, 0x3921, 0x38B2, 0x6006];
    let mut machine = reset();
    go(&program, &mut machine, 6);
    assert_eq!(machine.peripherals.counter, 1);
    assert_eq!(found(&program, [7, 9, 11, 13]), [1, 0, 1, 0]);
}

/// Source 000, fig. 13-3 and 13-6.
#[test]
fn figures_13_3_and_13_6() {
    let m = after(&[mov(0x0F, 4), mov(0x0E, 6), Put { p: 3 }]);
    assert_eq!((m.peripherals.modulo, m.peripherals.counter), (0x64, 0));
    let mut m = machine(BY_256, 0xFF, 0xF0, 0);
    m.cells[0x0C..0x10].copy_from_slice(&[3, 5, 7, 9]);
    assert_eq!(pass(m, &[Get { p: 2 }]).cells[0x0C..0x10], [3, 5, 0xF, 0]);
}

/// Source 000, 13.1.5 (3): DAH with fx/256 is 219 pulses, 3,504 cycles of 2
/// microseconds at 8 MHz, 7.008 ms.
#[test]
fn section_13_1_5() {
    // The POKE is at the last cycle of a period, so its own pulse is the first.
    let start = [mov(0x0F, 0xA), mov(0x0E, 0xD), Put { p: 3 }, mov(0x78, 0b1100)];
    let mut program = rom(&start);
    program.resize(15, 0x3CF0);
    program.extend(rom(&[Poke { rf: 0x11 }, Br { addr: 16 }]));
    assert_eq!(counter_after(&program, 16), 1);
    assert_eq!(counter_after(&program, 16 + 217 * 16), 218);
    assert_eq!(counter_after(&program, 16 + 218 * 16 - 1), 218);
    assert_eq!(counter_after(&program, 16 + 218 * 16), 0);
    assert_eq!(counter_after(&program, 16 + 218 * 16 + 3_504 - 1), 218);
    assert_eq!(counter_after(&program, 16 + 218 * 16 + 3_504), 0);
}

/// The divider goes by cycles, from 127 on to 0, whatever 11H says and is given,
/// and whatever the counter does.
#[test]
fn the_divider_runs() {
    for mode in [0, 1, 2, 3, BY_256, BY_32, BY_2048, BY_PIN] {
        for written in 0..16 {
            for divider in 0..128 {
                let mut start = machine(mode, 5, 5, divider);
                start.cells[0x78] = written;
                for instruction in [Nop, Poke { rf: 0x11 }, Put { p: 3 }, Get { p: 2 }] {
                    assert_eq!(one(start.clone(), instruction, 1).1, (divider + 1) % 128);
                }
                assert_eq!(one(start, Movt, 1).1, (divider + 2) % 128);
            }
        }
    }
}

/// Pulses of a step: how many multiples of the period it comes to or passes.
#[test]
fn pulses_of_a_step() {
    for (mode, period) in [(BY_256, 16), (BY_32, 2), (BY_2048, 128)] {
        for divider in 0..128_u8 {
            for (instruction, cycles) in [(Nop, 1), (Movt, 2)] {
                let start = machine(mode, 0xFF, 10, divider);
                let (from, to) = (u32::from(divider), u32::from(divider) + cycles);
                let pulses = (to / period - from / period) as u8;
                for pulse in [0, 1] {
                    assert_eq!(one(start.clone(), instruction, pulse).0, 10 + pulses);
                }
            }
        }
    }
    // MOVT with fx/32: always one.
    for divider in 0..128 {
        assert_eq!(one(machine(BY_32, 0xFF, 10, divider), Movt, 0).0, 11);
    }
}

/// The INT clock: the pulse bit, one pulse in a step, MOVT and a skipped word too.
#[test]
fn pulses_of_the_pin() {
    for divider in 0..128 {
        for pulse in [0, 1] {
            let start = machine(BY_PIN, 0xFF, 10, divider);
            assert_eq!(one(start.clone(), Nop, pulse).0, 10 + pulse);
            assert_eq!(one(start.clone(), Movt, pulse).0, 10 + pulse);
            let skipping = Machine { skip: 1, ..start };
            assert_eq!(one(skipping, Movt, pulse), (10 + pulse, (divider + 1) % 128));
        }
    }
    // Each step of a run has it.
    let mut machine = machine(BY_PIN, 0xFF, 0, 0);
    run(&rom(&[Movt, Br { addr: 0 }]), &mut machine, &quiet(), 1, 100);
    assert_eq!(machine.peripherals.counter, 100);
}

/// A pulse: 0 after equality, else one more, 0 after 255. Without TMEN none.
#[test]
fn every_count() {
    for counter in 0..=255_u8 {
        for modulo in 0..=255_u8 {
            let next = if counter == modulo { 0 } else { counter.wrapping_add(1) };
            assert_eq!(one(machine(BY_256, modulo, counter, 15), Nop, 0).0, next);
            assert_eq!(one(machine(BY_PIN, modulo, counter, 3), Nop, 1).0, next);
            for stopped in 0..4 {
                assert_eq!(one(machine(stopped, modulo, counter, 127), Nop, 1).0, counter);
            }
        }
    }
}

/// N + 1 pulses from match to match (000, 13.1.5 (2)); modulo 0 keeps it at 0.
#[test]
fn pulses_of_a_match() {
    let program = rom(&[Br { addr: 0 }]);
    for modulo in 0..=255 {
        let mut m = machine(BY_32, modulo, 0, 0);
        for pulse in 1..600 {
            run(&program, &mut m, &quiet(), 0, 2);
            assert_eq!(u32::from(m.peripherals.counter), pulse % (u32::from(modulo) + 1));
        }
    }
}

/// A modulo register below the count: on through 255 to 0, then equality.
#[test]
fn modulo_below_the_count() {
    let program = rom(&[Br { addr: 0 }]);
    let mut m = machine(BY_32, 2, 5, 0);
    for pulse in 0..260_u32 {
        let wanted = if pulse <= 250 { 5 + pulse } else { (pulse - 251) % 3 };
        assert_eq!(u32::from(m.peripherals.counter), wanted, "{pulse}");
        run(&program, &mut m, &quiet(), 0, 2);
    }
}

/// TMEN 0 keeps the counter; TMEN back to 1 goes on with it, and gives no pulse
/// of its own. The pulses come where they would have come.
#[test]
fn stop_and_start() {
    let program =
        rom(&[mov(0x78, 0b0001), Poke { rf: 0x11 }, mov(0x78, 0b1001), Poke { rf: 0x11 }]);
    for divider in 0..128_u8 {
        let mut m = machine(BY_32, 0xFF, 10, divider);
        let odd = divider % 2;
        let wanted = [10 + odd, 10 + odd, 10 + odd, 11];
        for counter in wanted {
            go(&program, &mut m, 1);
            assert_eq!(m.peripherals.counter, counter, "{divider}");
        }
    }
}

/// POKE 11H with TMRES: counter 0, and then the step's own pulse if TMEN is 1;
/// without, the counter stays. TMRES reads 0.
#[test]
fn every_poke_of_the_mode() {
    for old in [0, 3, BY_256, BY_32, BY_2048, BY_PIN] {
        for written in 0..16_u8 {
            for divider in 0..128_u8 {
                for pulse in [0, 1] {
                    let mut m = machine(old, 0x90, 0x55, divider);
                    m.cells[0x78] = written;
                    let answer = step(&rom(&[Poke { rf: 0x11 }]), &mut m, &quiet(), pulse);
                    assert_eq!(answer, Answer::Done);
                    let left = if written & 4 != 0 { 0 } else { 0x55 };
                    let next = divider + 1;
                    let pulsed = match written & 3 {
                        0 => next % 16 == 0,
                        1 => next % 2 == 0,
                        2 => next == 128,
                        _ => pulse == 1,
                    };
                    let counter = left + u8::from(pulsed && written & 8 != 0);
                    assert_eq!(m.peripherals.counter, counter);
                    assert_eq!(m.peripherals.registers, [written & 0b1011, 0, 0, 0, 0, 0, 0]);
                    assert_eq!(m.peripherals.divider, next % 128);
                }
            }
        }
    }
}

/// PUT leaves the count; its step's pulse is judged by the new modulo register.
#[test]
fn put_and_pulse() {
    let put = |modulo: u8, divider: u8| {
        let mut m = machine(BY_256, 0x20, 0x20, divider);
        (m.cells[0x0E], m.cells[0x0F]) = (modulo >> 4, modulo & 0xF);
        one(m, Put { p: 3 }, 0).0
    };
    assert_eq!(put(0x30, 14), 0x20);
    assert_eq!(put(0x30, 15), 0x21);
    assert_eq!(put(0x20, 15), 0);
    assert_eq!(put(0x00, 15), 0x21);
}

/// GET reads the counter before its step's pulse, which is not lost.
#[test]
fn get_and_pulse() {
    for (modulo, after) in [(0xFF, 0x40), (0x3F, 0)] {
        let mut m = machine(BY_256, modulo, 0x3F, 15);
        go(&rom(&[Get { p: 2 }]), &mut m, 1);
        assert_eq!((at(&m, 0x0E), at(&m, 0x0F), m.peripherals.counter), (3, 0xF, after));
    }
}

/// A refused step does not move the timer, not even at a pulse.
#[test]
fn refused() {
    for instruction in [Ei, Ret, Br { addr: 1024 }, Peek { rf: 0 }, Put { p: 2 }] {
        for mode in [BY_256, BY_32, BY_2048, BY_PIN] {
            let start = machine(mode, 7, 7, 127);
            let mut m = start.clone();
            assert!(matches!(
                step(&rom(&[instruction]), &mut m, &quiet(), 1),
                Answer::Refused(4 | 5 | 7 | 30)
            ));
            assert_eq!(m, start);
        }
    }
}

/// A timer beside the machine, by the cycles since reset.
struct Watch {
    cycles: u64,
    counter: u64,
}

impl Watch {
    /// One step, with 11H and the modulo register as it left them.
    fn step(&mut self, after: &Peripherals, cycles: u64, reset: bool, pulse: u64) {
        if reset {
            self.counter = 0;
        }
        let before = self.cycles;
        self.cycles += cycles;
        let of_period = |period| self.cycles / period - before / period;
        let mode = after.registers[0];
        let pulses = match mode & 3 {
            0 => of_period(16),
            1 => of_period(2),
            2 => of_period(128),
            _ => pulse,
        };
        if mode & 8 != 0 {
            for _ in 0..pulses {
                let equal = self.counter == u64::from(after.modulo);
                self.counter = if equal { 0 } else { (self.counter + 1) % 256 };
            }
        }
    }
}

/// Long walks with the two side by side.
#[test]
fn beside_a_watch() {
    let mut random = Random::new(7);
    let words = [Nop, Movt, Get { p: 2 }, Put { p: 3 }, Poke { rf: 0x11 }, Peek { rf: 0x11 }];
    let skip = Skt { m: 0x10, n: 0 };
    for _ in 0..200 {
        let mut machine = reset();
        let mut watch = Watch { cycles: 0, counter: 0 };
        for _ in 0..2_000 {
            let instruction = match random.below(24) {
                0 => mov(0x78, random.nibble()),
                1 => mov(0x0E, random.nibble() & random.nibble()),
                2 => mov(0x0F, random.nibble()),
                3 => skip,
                4..=8 => words[random.below(6) as usize],
                _ => words[random.below(2) as usize],
            };
            let skipped = machine.skip == 1;
            let resets = instruction == Poke { rf: 0x11 } && at(&machine, 0x78) & 4 != 0;
            let pulse = random.pulse();
            machine.pc = 0;
            let answer = step(&rom(&[instruction]), &mut machine, &quiet(), pulse);
            assert_eq!(answer, Answer::Done);
            let cycles = if instruction == Movt && !skipped { 2 } else { 1 };
            watch.step(&machine.peripherals, cycles, resets && !skipped, pulse.into());
            assert_eq!(u64::from(machine.peripherals.counter), watch.counter);
            assert_eq!(u64::from(machine.peripherals.divider), watch.cycles % 128);
        }
    }
}

/// A run moves the timer as its steps do, with every clock, when 11H changes on
/// the way, and when the run is refused or ends in standby.
#[test]
fn runs_and_steps() {
    let mut random = Random::new(8);
    for case in 0..3_000 {
        let length = 3 + random.below(30);
        let mut program: Vec<Instruction> = (0..length)
            .map(|_| match random.below(24) {
                0 => mov(0x78, random.nibble()),
                1 => Poke { rf: 0x11 },
                2 => mov(0x0F, random.nibble()),
                3 => Put { p: 3 },
                4 => Get { p: 2 },
                5 => Skt { m: 0x10, n: 0 },
                6..=9 => Movt,
                _ => Nop,
            })
            .collect();
        program.push([Br { addr: 0 }, Ei, Halt { cond: 0 }, Stop { cond: 0 }][case % 4]);
        program.push(Br { addr: 0 });
        let program = rom(&program);
        let mode = random.nibble() & 0b1011;
        let [modulo, counter, divider] = [256, 256, 128].map(|n| random.below(n) as u8);
        let mut whole = machine(mode, modulo, counter, divider);
        let mut single = whole.clone();
        let (budget, pulse) = (random.below(2_000) as u32, random.pulse());
        let report = run(&program, &mut whole, &quiet(), pulse, budget);
        for _ in 0..report.count.steps {
            assert_eq!(step(&program, &mut single, &quiet(), pulse), Answer::Done);
        }
        assert_eq!(whole, single);
    }
}
