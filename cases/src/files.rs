//! Station files, read, written and printed, and sheets widened, with what the
//! lent buffers then hold. The lines are told in data/files.cases and
//! data/texts.cases.

use crate::emulators::{Emulator, Station, RECORD};
use crate::lent::{doubled, file_of, form_of, read, text, told, widen, write, Sizes, BEHIND};
use crate::scan::{byte, hex, sweep, Head};
use crate::Bench;

#[derive(Default)]
pub struct Files {
    bytes: Vec<u8>,
    /// Of what, where the bytes are parts of a station and no file.
    parts: Option<Parts>,
    /// What is lent, where it is not more than enough.
    room: Option<Sizes>,
    out: Option<usize>,
}

/// Words, the sheet and inputs of a station.
#[derive(Clone, Copy)]
struct Parts {
    sizes: Sizes,
    /// Has the sheet one byte an entry here, for both halves?
    single: bool,
}

impl Files {
    /// The station whose parts the bytes are; none where they are too few.
    fn station(&self, Parts { sizes, single }: Parts) -> Option<Station> {
        let [words, listed, inputs] = sizes;
        let (raw, rest) = self.bytes.split_at_checked(2 * words)?;
        let (listed, rest) = rest.split_at_checked(listed)?;
        let rom = raw.chunks_exact(2).map(|pair| u16::from_be_bytes([pair[0], pair[1]])).collect();
        let sheet = if single { doubled(listed) } else { listed.to_vec() };
        Some(Station { rom, sheet, inputs: rest.get(..inputs)?.to_vec() })
    }

    /// What comes of the first bytes, or of the parts; none where there are not
    /// so many.
    fn outcome(&self, size: usize, emulator: &dyn Emulator) -> Option<String> {
        let enough = |size| [size, 2 * size, size];
        let Some(parts) = self.parts else {
            let room = self.room.unwrap_or(enough(size));
            return Some(read(self.bytes.get(..size)?, room, emulator));
        };
        let station = self.station(parts)?;
        let Station { rom, sheet, inputs } = &station;
        let again = format!("STATION {} {} {}", rom.len(), sheet.len() / 2, inputs.len() / RECORD);
        let most = 8 + 2 * rom.len() + sheet.len() + inputs.len();
        let outcome = write(&station, self.out.unwrap_or(most + BEHIND), emulator);
        if outcome.starts_with("REFUSED") {
            return Some(outcome);
        }
        let file = file_of(&station, form_of(sheet));
        Some(told(outcome, read(&file, enough(file.len()), emulator) == again))
    }

    /// With each byte at a place.
    fn each(&mut self, at: usize, values: [u8; 2], emulator: &dyn Emulator) -> Option<String> {
        let old = *self.bytes.get(at)?;
        let told = sweep((values[0]..=values[1]).map(|byte| {
            self.bytes[at] = byte;
            Some((format!("{byte:02X}"), self.outcome(self.bytes.len(), emulator)?))
        }));
        self.bytes[at] = old;
        told
    }
}

fn bytes(texts: &[&str]) -> Result<Vec<u8>, String> {
    texts.iter().map(|text| byte(text)).collect()
}

fn three(w: &str, e: &str, i: &str) -> Result<Sizes, String> {
    Ok([hex(w)?, hex(e)?, hex(i)?])
}

impl Bench for Files {
    fn begin(&mut self, head: Head) {
        if let Head::Case = head {
            *self = Files::default();
        }
    }

    fn given(&mut self, line: &str) -> Result<(), String> {
        match line.split(' ').collect::<Vec<_>>()[..] {
            ["times", n, ref texts @ ..] => self.bytes.extend(bytes(texts)?.repeat(hex(n)?)),
            ["cut", size] => self.bytes.truncate(hex(size)?),
            ["set", at, value] => *self.bytes.get_mut(hex(at)?).ok_or("past them")? = byte(value)?,
            ["room", w, e, i] => {
                let [words, entries, bytes] = three(w, e, i)?;
                self.room = Some([words, 2 * entries, bytes]);
            }
            ["lent", w, b, i] => self.room = Some(three(w, b, i)?),
            ["out", room] => self.out = Some(hex(room)?),
            ["parts", w, e, i] => {
                self.parts = Some(Parts { sizes: three(w, e, i)?, single: true });
            }
            ["ranges", w, b, i] => {
                self.parts = Some(Parts { sizes: three(w, b, i)?, single: false });
            }
            ref texts => self.bytes.extend(bytes(texts)?),
        }
        Ok(())
    }

    fn got(&mut self, line: &str, _: &str, emulator: &dyn Emulator) -> Result<String, String> {
        let cut = |size: usize| Some((size.to_string(), self.outcome(size, emulator)?));
        let told = match line.split(' ').collect::<Vec<_>>()[..] {
            ["try"] => self.outcome(self.bytes.len(), emulator),
            ["text"] => Some(text(&self.bytes, emulator)),
            ["widen"] => {
                let room = self.out.unwrap_or(2 * self.bytes.len() + BEHIND);
                Some(widen(&self.bytes, room, emulator))
            }
            ["cuts", a, b] => sweep((hex(a)?..=hex(b)?).map(cut)),
            ["each", at, a, b] => self.each(hex(at)?, [byte(a)?, byte(b)?], emulator),
            _ => return Err("no try".to_string()),
        };
        told.ok_or("not so many bytes".to_string())
    }
}
