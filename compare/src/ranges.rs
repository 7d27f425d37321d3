//! Records, inputs, ROMs and budgets out of range for a model by one fault each:
//! both emulators refuse with 1 and leave the record as it came.

use std::fmt::Debug;
use std::sync::OnceLock;

use reference::{Machine, Model};

use crate::board::Board;
use crate::clock::KEPT;
use crate::host::RunReply;
use crate::pair::{self, Finding};
use crate::places::free_bits;
use crate::random::Random;
use crate::records;
use crate::tally::Tally;
use crate::words;

/// One way to be out of range.
#[derive(Clone, Copy)]
enum Kind {
    /// A bit of a cell that is above the nibble or fixed.
    Cell(usize, u8),
    /// A bit of a cell that the 17120 lacks.
    Missing(usize, u8),
    /// A bit of PC above the tenth.
    Pc(u8),
    /// A bit of an open place above the tenth.
    Open(usize, u8),
    /// A bit of a closed place.
    Closed(usize, u8),
    Levels,
    Skip,
    Standby,
    /// A bit of a control register that is above the nibble or fixed.
    Register(usize, u8),
    Divider,
    Pin(usize),
    Direction(usize),
    Release,
    Pulse,
    EmptyRom,
    LongRom,
    /// A ROM that the 17132 could have.
    LongRomOf17120,
    Budget,
}

/// What a run out of range reports.
const REFUSED: RunReply = RunReply { steps: 0, cycles: 0, number: 1 };

/// What a call is given.
struct Call {
    rom: Vec<u16>,
    machine: Machine,
    board: Board,
    budget: u32,
}

/// One random call with the fault of kind `index`.
pub fn one_fault(random: &mut Random, index: u64, tally: &mut Tally) -> Result<(), Finding> {
    let kinds = kinds();
    let (model, kind) = kinds[(index % kinds.len() as u64) as usize];
    let words = 1 + random.below(16);
    let rom: Vec<u16> = (0..words).map(|_| words::any(random)).collect();
    let machine = records::machine(random, model, rom.len());
    let board = records::board(random, model);
    let budget = if random.once_in(8) { 0 } else { random.below(65_536) as u32 };
    let mut call = Call { rom, machine, board, budget };
    kind.put_into(&mut call, random);
    tally.see(kind.name());
    if call.budget == 0 {
        tally.see("with a budget of 0");
    }
    call.is_refused(kind, tally)
}

impl Call {
    /// The run, and the step too where the budget is not the fault.
    fn is_refused(&self, kind: Kind, tally: &mut Tally) -> Result<(), Finding> {
        let mut left = self.machine.clone();
        let report = pair::run(&self.rom, &mut left, &self.board, self.budget)?;
        tally.answer(report.number);
        self.stays(kind, report == REFUSED, &report, &left)?;
        if matches!(kind, Kind::Budget) {
            return Ok(());
        }
        let number = pair::step(&self.rom, &mut left, &self.board)?;
        tally.answer(number);
        self.stays(kind, number == 1, &number, &left)
    }

    /// Both answered and left the same: that must be refusal 1 and the record
    /// as it came.
    fn stays(
        &self,
        kind: Kind,
        refused: bool,
        answer: &dyn Debug,
        left: &Machine,
    ) -> Result<(), Finding> {
        if refused && *left == self.machine {
            return Ok(());
        }
        let call = format!("a call {}, budget {}", kind.name(), self.budget);
        Err(Finding(format!(
            "{}both answer {answer:?} and leave:\n{}first difference to before: {:?}\n",
            pair::case(&call, &self.rom, &self.machine, &self.board),
            pair::show(left),
            pair::difference(left, &self.machine)
        )))
    }
}

/// Every kind once, for each model that has it.
fn kinds() -> &'static [(Model, Kind)] {
    static KINDS: OnceLock<Vec<(Model, Kind)>> = OnceLock::new();
    KINDS.get_or_init(|| {
        let of = |model| kinds_of(model).into_iter().map(move |kind| (model, kind));
        Model::ALL.into_iter().flat_map(of).collect()
    })
}

fn kinds_of(model: Model) -> Vec<Kind> {
    let mut kinds = vec![
        Kind::Levels,
        Kind::Skip,
        Kind::Standby,
        Kind::Divider,
        Kind::Release,
        Kind::Pulse,
        Kind::EmptyRom,
        Kind::LongRom,
        Kind::Budget,
    ];
    for cell in 0..128 {
        let other = free_bits(Model::Upd17132, cell);
        let barred = (0..8).filter(|bit| other >> bit & 1 == 0);
        kinds.extend(barred.map(|bit| Kind::Cell(cell, bit)));
        let missing = (0..8).filter(|bit| (other & !free_bits(model, cell)) >> bit & 1 == 1);
        kinds.extend(missing.map(|bit| Kind::Missing(cell, bit)));
    }
    for (place, kept) in KEPT.iter().enumerate() {
        let barred = (0..8).filter(|bit| kept >> bit & 1 == 0);
        kinds.extend(barred.map(|bit| Kind::Register(place, bit)));
    }
    kinds.extend((10..16).map(Kind::Pc));
    for place in 0..5 {
        kinds.extend([Kind::Pin(place), Kind::Direction(place)]);
        kinds.extend((10..16).map(|bit| Kind::Open(place, bit)));
        kinds.extend((0..16).map(|bit| Kind::Closed(place, bit)));
    }
    if model == Model::Upd17120 {
        kinds.push(Kind::LongRomOf17120);
    }
    kinds
}

impl Kind {
    fn name(self) -> &'static str {
        match self {
            Kind::Cell(_, 0..=3) => "with a fixed bit set",
            Kind::Cell(..) => "with a cell above 15",
            Kind::Missing(..) => "with a missing cell not 0",
            Kind::Pc(_) => "with PC above 1,023",
            Kind::Open(..) => "with a stacked address above 1,023",
            Kind::Closed(..) => "with a closed level not 0",
            Kind::Levels => "with more than five open levels",
            Kind::Skip => "with a skip mark above 1",
            Kind::Standby => "with a standby mark above 2",
            Kind::Register(0, 2) => "with TMRES set",
            Kind::Register(_, 0..=3) => "with a fixed bit of a register set",
            Kind::Register(..) => "with a register above 15",
            Kind::Divider => "with a divider above 127",
            Kind::Pin(_) => "with a pin nibble above 15",
            Kind::Direction(_) => "with a direction nibble above 15",
            Kind::Release => "with a release above 1",
            Kind::Pulse => "with a pulse above 1",
            Kind::EmptyRom => "with a ROM of no words",
            Kind::LongRom => "with a ROM of more than 1,024 words",
            Kind::LongRomOf17120 => "with a ROM of 769 to 1,024 words for the 17120",
            Kind::Budget => "with a budget above 65,535",
        }
    }

    fn put_into(self, call: &mut Call, random: &mut Random) {
        let Call { rom, machine, board: Board { input, pulse, .. }, budget } = call;
        match self {
            Kind::Cell(cell, bit) | Kind::Missing(cell, bit) => machine.cells[cell] |= 1 << bit,
            Kind::Pc(bit) => machine.pc |= 1 << bit,
            Kind::Open(place, bit) => {
                machine.levels = machine.levels.max(place as u8 + 1);
                machine.stack[place] |= 1 << bit;
            }
            Kind::Closed(place, bit) => {
                machine.levels = machine.levels.min(place as u8);
                machine.stack[usize::from(machine.levels)..].fill(0);
                machine.stack[place] = 1 << bit;
            }
            Kind::Levels => machine.levels = 6 + random.byte(250),
            Kind::Skip => machine.skip = 2 + random.byte(254),
            Kind::Standby => machine.standby = 3 + random.byte(253),
            Kind::Register(place, bit) => machine.peripherals.registers[place] |= 1 << bit,
            Kind::Divider => machine.peripherals.divider = 128 + random.byte(128),
            Kind::Pin(port) => input.pins[port] = 16 + random.byte(240),
            Kind::Direction(port) => input.directions[port] = 16 + random.byte(240),
            Kind::Release => input.release = 2 + random.byte(254),
            Kind::Pulse => *pulse = 2 + random.byte(254),
            Kind::EmptyRom => rom.clear(),
            Kind::LongRom => {
                rom.resize(random.pick(&[1025, 1026, 2048, 65_536, 65_537, 66_000]), words::NOP);
            }
            Kind::LongRomOf17120 => {
                rom.resize(random.pick(&[769, 770, 800, 1023, 1024]), words::NOP);
            }
            Kind::Budget => *budget = 65_536 << random.below(16) | random.below(65_536) as u32,
        }
    }
}
