//! What a part has seen, for its line and for what it must see.

use std::collections::BTreeMap;

pub struct Tally {
    /// Answers compared.
    pub compared: u64,
    /// How often each number was answered.
    numbers: [u64; 256],
    /// How often each named thing happened.
    seen: BTreeMap<&'static str, u64>,
}

impl Tally {
    pub fn new() -> Tally {
        Tally { compared: 0, numbers: [0; 256], seen: BTreeMap::new() }
    }

    /// Both answered this number.
    pub fn answer(&mut self, number: u8) {
        self.compared += 1;
        self.numbers[usize::from(number)] += 1;
    }

    pub fn see(&mut self, what: &'static str) {
        *self.seen.entry(what).or_default() += 1;
    }

    /// Those of the things that are so.
    pub fn see_those(&mut self, things: &[(bool, &'static str)]) {
        things.iter().filter(|(is_so, _)| *is_so).for_each(|(_, what)| self.see(what));
    }

    /// The first thing of those named that was not seen.
    pub fn lacks(&self, numbers: &[u8], names: &[&'static str]) -> Option<String> {
        let number = numbers.iter().find(|&&number| self.numbers[usize::from(number)] == 0);
        let name = names.iter().find(|&&name| !self.seen.contains_key(name));
        match (number, name) {
            (Some(number), _) => Some(format!("the number {number}")),
            (None, Some(name)) => Some(name.to_string()),
            (None, None) => None,
        }
    }

    /// The numbers and things seen, with their counts.
    pub fn text(&self) -> String {
        let numbers = self.numbers.iter().enumerate().filter(|(_, &count)| count > 0);
        let numbers = numbers.map(|(number, count)| format!("{count} of {number}"));
        let names = self.seen.iter().map(|(name, count)| format!("{count} {name}"));
        numbers.chain(names).collect::<Vec<_>>().join(", ")
    }
}
