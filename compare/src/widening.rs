//! Sheets of single levels made into ranges (`pollwezen_widen`), into buffers that
//! are just long enough, longer or too short, compared whole.

use reference::sheet::of_levels;

use crate::entries::{answers, room, OLD};
use crate::findings::shown;
use crate::host::{self, OutputReply};
use crate::pair::{place, Finding};
use crate::random::Random;
use crate::tally::Tally;

/// One sheet of any bytes.
pub fn widens(random: &mut Random, tally: &mut Tally) -> Result<(), Finding> {
    let length = match random.below(8) {
        0 => 0,
        1 => 1024,
        2 => 32_768 + random.below(3),
        _ => 1 + random.below(40),
    };
    let levels: Vec<u8> = (0..length).map(|_| level(random)).collect();
    let wide = of_levels(&levels);
    let mut out = vec![OLD; room(random, wide.len())];
    let mut expected = out.clone();
    let answer = match expected.get_mut(..wide.len()) {
        Some(front) => {
            front.copy_from_slice(&wide);
            OutputReply { number: 0, length: wide.len() }
        }
        None => OutputReply { number: 25, length: 0 },
    };
    let output = host::widen(&levels, &mut out);
    let first = answers(&output, &answer).or_else(|| place("byte", &out, &expected));
    if let Some(first) = first {
        return Err(Finding(format!(
            "widen into {} bytes, {length} levels: {:?}\nfirst difference: {first}\n",
            out.len(),
            shown(&levels)
        )));
    }
    tally.compared += 1;
    tally.see(match (output.number, length, out.len() - output.length) {
        (0, 0, _) => "sheets of no level widened",
        (0, _, 0) => "sheets widened into just enough",
        (0, ..) => "sheets widened into more",
        _ => "sheets without room to widen",
    });
    Ok(())
}

/// Mostly a level. Any byte is widened.
fn level(random: &mut Random) -> u8 {
    match random.below(8) {
        0 => random.bits() as u8,
        1 => 15,
        _ => random.byte(6),
    }
}
