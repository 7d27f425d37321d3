//! A row of the table: the same call on both emulators, in pairs.

use std::fmt::Debug;
use std::hint::black_box;
use std::time::Instant;

/// One emulator in a row.
pub struct Side<S, R, C> {
    /// The records or buffers that it is lent.
    pub lent: S,
    /// Makes them as they are before every call. Not timed.
    pub refill: R,
    /// The timed call.
    pub call: C,
}

impl<S, R: FnMut(&mut S), C> Side<S, R, C> {
    /// One call: what it answers, and its nanoseconds.
    fn time<A>(&mut self) -> (A, f64)
    where
        C: FnMut(&mut S) -> A,
    {
        (self.refill)(&mut self.lent);
        let start = Instant::now();
        let answer = black_box((self.call)(black_box(&mut self.lent)));
        (answer, start.elapsed().as_nanos() as f64)
    }
}

/// What a row is called, how many units of work a call has, and how many pairs
/// of calls are taken.
pub struct Row<'a> {
    pub name: &'a str,
    pub units: f64,
    pub pairs: usize,
}

impl Row<'_> {
    /// Times both and prints the row. In every other pair the proved emulator
    /// goes first. Answers that differ, or lent things that `same` does not
    /// accept, stop the program.
    pub fn print<S, T, A: PartialEq + Debug>(
        &self,
        mut native: Side<S, impl FnMut(&mut S), impl FnMut(&mut S) -> A>,
        mut proved: Side<T, impl FnMut(&mut T), impl FnMut(&mut T) -> A>,
        same: impl Fn(&S, &T) -> bool,
    ) {
        let (mut natives, mut proveds) = (Times(vec![]), Times(vec![]));
        for pair in 0..self.pairs {
            let (first, second);
            if pair % 2 == 0 {
                first = native.time();
                second = proved.time();
            } else {
                second = proved.time();
                first = native.time();
            }
            assert_eq!(first.0, second.0, "{}", self.name);
            assert!(same(&native.lent, &proved.lent), "{}: what was left differs", self.name);
            natives.0.push(first.1 / self.units);
            proveds.0.push(second.1 / self.units);
        }
        let (a, b) = (natives.spread(), proveds.spread());
        println!("| {} | {} | {} | {:.2} |", self.name, cell(a), cell(b), b[1] / a[1]);
    }
}

/// Times of one emulator, in nanoseconds per unit of work.
struct Times(Vec<f64>);

impl Times {
    /// The 10th percentile, the median and the 90th percentile.
    fn spread(&mut self) -> [f64; 3] {
        self.0.sort_by(f64::total_cmp);
        [10, 50, 90].map(|percent| self.0[(self.0.len() - 1) * percent / 100])
    }
}

fn cell([low, median, high]: [f64; 3]) -> String {
    format!("{median:.1} ({low:.1} to {high:.1})")
}
