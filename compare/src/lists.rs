//! Random lists of steps and runs from reset on ROMs that pass for a model, with
//! the words of demand 3 tested at every moment. On the 17120 a call that has all
//! in range may be refused with 31 (document 02, E1), and the moments go on.

use reference::Model;

use crate::pair::Finding;
use crate::places::most_words;
use crate::random::Random;
use crate::records;
use crate::roms::passing;
use crate::tally::Tally;
use crate::verdicts::passes;
use crate::walk::Walk;

/// Calls in a list.
const CALLS: u64 = 40;

/// One ROM and its list, for each model in turn. Every other ROM of a model takes
/// the next length in turn.
pub fn list(random: &mut Random, index: u64, tally: &mut Tally) -> Result<(), Finding> {
    let model = Model::ALL[(index % 2) as usize];
    let (turn, most) = (index / 2, most_words(model));
    let words = match turn % 2 {
        0 => (turn / 2) as usize % most + 1,
        _ => random.pick(&[most - 1, most, most]),
    };
    let case = passing(random, model, words);
    passes(&case)?;
    let mut walk = Walk::new(&case)?;
    walk.moment(&walk.machine)?;
    for _ in 0..random.below(CALLS) {
        call(random, &mut walk, tally)?;
    }
    Ok(())
}

/// One call, with its own inputs and budget, some of them out of range.
fn call(random: &mut Random, walk: &mut Walk, tally: &mut Tally) -> Result<(), Finding> {
    let mut board = records::board(random, walk.case.model);
    if random.once_in(16) {
        records::spoil_board(random, &mut board);
    }
    if random.once_in(2) {
        return walk.step(&board, tally).map(|_| ());
    }
    let budget = match random.below(32) {
        0 => 65_535,
        1 => 65_536 + random.below(1 << 20) as u32,
        2 => 0,
        _ => random.below(60) as u32,
    };
    walk.run(&board, budget, tally)
}
