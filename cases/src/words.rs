//! Words: the decoder and the encoder. The lines are told in data/words.cases
//! and data/printed.cases.

use reference::Instruction::{self, *};
use reference::{Machine, Model};

use crate::emulators::{Board, Emulator};
use crate::scan::{is_word, word, Head};
use crate::Bench;

/// A row of the manual's list with its operands, those that it lacks 0.
#[derive(Clone, Copy, Debug, Default, PartialEq, Eq)]
pub struct Row {
    pub row: u8,
    pub first: u8,
    pub second: u8,
    pub addr: u16,
}

/// The instruction of a row with operands.
type Made = fn(u8, u8, u16) -> Instruction;

/// The list of source 000, 18.3, in its order.
const LIST: [(&str, Made); 47] = [
    ("ADD r,m", |r, m, _| AddRM { r, m }),
    ("ADD m,#n4", |m, n, _| AddMN { m, n }),
    ("ADDC r,m", |r, m, _| AddcRM { r, m }),
    ("ADDC m,#n4", |m, n, _| AddcMN { m, n }),
    ("INC AR", |_, _, _| IncAr),
    ("INC IX", |_, _, _| IncIx),
    ("SUB r,m", |r, m, _| SubRM { r, m }),
    ("SUB m,#n4", |m, n, _| SubMN { m, n }),
    ("SUBC r,m", |r, m, _| SubcRM { r, m }),
    ("SUBC m,#n4", |m, n, _| SubcMN { m, n }),
    ("OR r,m", |r, m, _| OrRM { r, m }),
    ("OR m,#n4", |m, n, _| OrMN { m, n }),
    ("AND r,m", |r, m, _| AndRM { r, m }),
    ("AND m,#n4", |m, n, _| AndMN { m, n }),
    ("XOR r,m", |r, m, _| XorRM { r, m }),
    ("XOR m,#n4", |m, n, _| XorMN { m, n }),
    ("SKT m,#n", |m, n, _| Skt { m, n }),
    ("SKF m,#n", |m, n, _| Skf { m, n }),
    ("SKE m,#n4", |m, n, _| Ske { m, n }),
    ("SKNE m,#n4", |m, n, _| Skne { m, n }),
    ("SKGE m,#n4", |m, n, _| Skge { m, n }),
    ("SKLT m,#n4", |m, n, _| Sklt { m, n }),
    ("RORC r", |r, _, _| Rorc { r }),
    ("LD r,m", |r, m, _| Ld { r, m }),
    ("ST m,r", |m, r, _| St { m, r }),
    ("MOV @r,m", |r, m, _| MovTo { r, m }),
    ("MOV m,@r", |m, r, _| MovFrom { m, r }),
    ("MOV m,#n4", |m, n, _| MovMN { m, n }),
    ("MOVT DBF,@AR", |_, _, _| Movt),
    ("PUSH AR", |_, _, _| PushAr),
    ("POP AR", |_, _, _| PopAr),
    ("PEEK WR,rf", |rf, _, _| Peek { rf }),
    ("POKE rf,WR", |rf, _, _| Poke { rf }),
    ("GET DBF,p", |p, _, _| Get { p }),
    ("PUT p,DBF", |p, _, _| Put { p }),
    ("BR addr", |_, _, addr| Br { addr }),
    ("BR @AR", |_, _, _| BrAr),
    ("CALL addr", |_, _, addr| Call { addr }),
    ("CALL @AR", |_, _, _| CallAr),
    ("RET", |_, _, _| Ret),
    ("RETSK", |_, _, _| Retsk),
    ("RETI", |_, _, _| Reti),
    ("EI", |_, _, _| Ei),
    ("DI", |_, _, _| Di),
    ("STOP s", |cond, _, _| Stop { cond }),
    ("HALT h", |cond, _, _| Halt { cond }),
    ("NOP", |_, _, _| Nop),
];

/// The operands of a text that has the form of a row: where the row has a name
/// in small letters the text has a number, and all else is the same.
fn operands(form: &str, text: &str) -> Option<Vec<u16>> {
    let parts = |text: &str| text.split([' ', ',']).map(str::to_string).collect::<Vec<_>>();
    let (names, given) = (parts(form), parts(text));
    if names.len() != given.len() {
        return None;
    }
    let mut numbers = vec![];
    for (name, given) in names.iter().zip(&given) {
        let mark = name.trim_end_matches(|c: char| c.is_ascii_lowercase() || c == '4');
        match given.strip_prefix(mark)? {
            "" if mark == name => {}
            number if mark.len() < name.len() => numbers.push(word(number).ok()?),
            _ => return None,
        }
    }
    Some(numbers)
}

impl Row {
    /// The row of an instruction in the manual's assembler.
    fn of(text: &str) -> Result<Row, String> {
        let mut rows = (0..).zip(&LIST);
        let found = rows.find_map(|(row, (form, _))| Some((row, form, operands(form, text)?)));
        let (row, form, numbers) = found.ok_or(format!("{text} is no instruction"))?;
        let at = |k: usize| numbers.get(k).copied().unwrap_or(0);
        if form.ends_with("addr") {
            return Ok(Row { row, addr: at(0), ..Row::default() });
        }
        let byte = |k: usize| at(k).try_into().map_err(|_| format!("{text}: no byte"));
        Ok(Row { row, first: byte(0)?, second: byte(1)?, addr: 0 })
    }

    pub fn instruction(self) -> Instruction {
        LIST[usize::from(self.row)].1(self.first, self.second, self.addr)
    }
}

pub struct Words;

impl Bench for Words {
    fn begin(&mut self, _: Head) {}

    fn given(&mut self, line: &str) -> Result<(), String> {
        Err(format!("{line}: no answer"))
    }

    fn got(&mut self, line: &str, answer: &str, emulator: &dyn Emulator) -> Result<String, String> {
        if line == "all" {
            return Ok(all(emulator));
        }
        let printed = printed(line);
        if printed.is_none() && !is_word(line) {
            let (number, word) = emulator.encode(Row::of(line)?);
            return Ok(format!("refusal {number}, word {word:04X}"));
        }
        let word = printed.map_or_else(|| word(line), Ok)?;
        let row = if answer == "none" { None } else { Some(Row::of(answer)?) };
        if let Some(other) = emulator.decodes_else(word, row) {
            return Ok(other);
        }
        let coded = row.map(|row| emulator.encode(row));
        let stepped = is_instruction(word, emulator);
        if coded.is_some_and(|coded| coded != (0, word)) || stepped != row.is_some() {
            return Ok(format!("encoded as {coded:04X?}, an instruction by its step: {stepped}"));
        }
        Ok(answer.to_string())
    }
}

/// A word in the bits of the manual's boxes: the opcode, then row, column and
/// r or n4, or an address.
fn printed(line: &str) -> Option<u16> {
    let fields: Vec<usize> = line.split(' ').map(str::len).collect();
    let is_box = matches!(fields[..], [5, 3, 4, 4] | [5, 11]);
    let bits = is_box.then(|| line.replace(' ', ""))?;
    u16::from_str_radix(&bits, 2).ok()
}

/// Is a word an instruction by the step?
fn is_instruction(word: u16, emulator: &dyn Emulator) -> bool {
    let model = Model::Upd17132;
    let mut machine = Machine::reset(model);
    emulator.step(model.number(), &[word], &mut machine, &Board::default()) != 3
}

fn all(emulator: &dyn Emulator) -> String {
    let (mut back, mut elsewhere, mut stepped) = (0, 0, 0);
    for word in 0..=u16::MAX {
        match emulator.there_and_back(word) {
            Some((0, same)) if same == word => back += 1,
            Some(_) => elsewhere += 1,
            None => {}
        }
        stepped += u32::from(is_instruction(word, emulator));
    }
    format!("{back} come back, {elsewhere} come back different, {stepped} steps")
}
