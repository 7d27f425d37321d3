//! A second emulator of the NEC uPD17132 and uPD17120, written from the papers
//! alone.
//!
//! "Document 01" below is the scope paper and "document 02" its list of
//! changes, E1 to E14; "000", "004" and "001" are the source manuals in the
//! order in which they decide.

#![forbid(unsafe_code)]

mod alu;
mod count;
mod execute;
pub mod fault;
pub mod isa;
pub mod machine;
mod memory;
pub mod model;
mod pace;
pub mod peripherals;
mod register_file;
pub mod sheet;
pub mod station;
pub mod step;
mod timer;
pub mod transcript;
pub mod verify;

pub use count::Count;
pub use isa::{decode, encode, Instruction};
pub use machine::{Input, Machine};
pub use model::Model;
pub use peripherals::Peripherals;
pub use station::Station;
pub use step::{run, step, Answer, Report};
pub use transcript::transcript;
pub use verify::{verify, Verdict};

#[cfg(feature = "faults")]
pub use fault::set_fault;
