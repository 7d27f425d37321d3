//! The form of a file of cases.
//!
//! A line at the margin begins a block: `case`, `also` or `then`, and a name.
//! Below it stand indented lines; one with ` = ` is a case, with its answer
//! behind the sign, the others set something up. A line that begins with `=`
//! goes on with the answer of the line before. A semicolon begins a comment.
//! The last line is `cases` and how many there are.

/// How a block begins.
#[derive(Clone, Copy)]
pub enum Head {
    /// From nothing.
    Case,
    /// With givens of the block before.
    Also,
    /// With what the block before left.
    Then,
}

pub struct Line {
    pub number: usize,
    pub left: String,
    /// The answer, where the line is a case.
    pub answer: Option<String>,
}

pub struct Block {
    pub head: Head,
    pub name: String,
    pub lines: Vec<Line>,
}

/// The blocks of a file, and how many cases they have.
pub struct Script {
    pub blocks: Vec<Block>,
    pub cases: usize,
}

/// A text with one blank between two words.
fn spaced(text: &str) -> String {
    text.split_whitespace().collect::<Vec<_>>().join(" ")
}

/// Takes a file apart.
pub fn scan(text: &str) -> Result<Script, String> {
    let mut script = Script { blocks: vec![], cases: 0 };
    let mut told: Option<usize> = None;
    for (number, line) in (1..).zip(text.lines()) {
        let line = line.split(';').next().unwrap_or_default();
        if line.trim().is_empty() {
            continue;
        }
        if told.is_some() {
            return Err(format!("{number}: behind the last line"));
        }
        match line.strip_prefix("cases ") {
            Some(count) => told = count.trim().parse().ok(),
            None => script.add(number, line).ok_or(format!("{number}: {line}"))?,
        }
    }
    match told {
        Some(count) if count == script.cases => Ok(script),
        Some(count) => Err(format!("{} cases, and {count} by the last line", script.cases)),
        None => Err("no last line with the number of cases".to_string()),
    }
}

impl Script {
    /// One line more; none where it has no form.
    fn add(&mut self, number: usize, line: &str) -> Option<()> {
        if !line.starts_with(' ') {
            let (head, name) = line.split_once(' ')?;
            let head = match head {
                "case" => Head::Case,
                "also" => Head::Also,
                "then" => Head::Then,
                _ => return None,
            };
            self.blocks.push(Block { head, name: spaced(name), lines: vec![] });
            return Some(());
        }
        let lines = &mut self.blocks.last_mut()?.lines;
        if let Some(more) = line.trim().strip_prefix("= ") {
            let answer = lines.last_mut()?.answer.as_mut()?;
            answer.push_str(", ");
            answer.push_str(&spaced(more));
            return Some(());
        }
        let (left, answer) = match line.split_once(" = ") {
            Some((left, answer)) => (left, Some(spaced(answer))),
            None => (line, None),
        };
        self.cases += usize::from(answer.is_some());
        lines.push(Line { number, left: spaced(left), answer });
        Some(())
    }
}

/// A hexadecimal number.
pub fn hex(text: &str) -> Result<usize, String> {
    usize::from_str_radix(text, 16).map_err(|_| format!("{text} is no hexadecimal number"))
}

/// One that is a byte.
pub fn byte(text: &str) -> Result<u8, String> {
    hex(text)?.try_into().map_err(|_| format!("{text} is no byte"))
}

/// One that is a word.
pub fn word(text: &str) -> Result<u16, String> {
    hex(text)?.try_into().map_err(|_| format!("{text} is no word"))
}

/// The number of a model that a line names: `model 17120`, or `number FF` for one
/// that is perhaps none's. None where it is another line.
pub fn model(line: &str) -> Result<Option<u8>, String> {
    match line.split(' ').collect::<Vec<_>>()[..] {
        ["model", "17132"] => Ok(Some(0)),
        ["model", "17120"] => Ok(Some(1)),
        ["model", name] => Err(format!("{name} is no model")),
        ["number", number] => byte(number).map(Some),
        _ => Ok(None),
    }
}

/// Is this a word of the ROM, four digits?
pub fn is_word(text: &str) -> bool {
    text.len() == 4 && word(text).is_ok()
}

/// The outcomes of a row of values as one answer: the first, and each that
/// differs from the one before, behind its value. None where a value has none.
pub fn sweep(outcomes: impl Iterator<Item = Option<(String, String)>>) -> Option<String> {
    let mut told: Vec<(String, String)> = vec![];
    for outcome in outcomes {
        let (value, outcome) = outcome?;
        if told.last().is_none_or(|last| last.1 != outcome) {
            told.push((value, outcome));
        }
    }
    let texts: Vec<_> = told.iter().map(|(value, text)| format!("{value} {text}")).collect();
    Some(texts.join(", "))
}
