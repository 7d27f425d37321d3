//! Tests by the numbers of document 01 and the examples of the manuals.

mod addressing;
mod arithmetic;
mod check;
mod cycles;
mod files;
mod forms;
mod halted;
mod kit;
mod lines;
mod logic;
mod missing;
mod models;
mod numbers;
mod ports;
mod ranges;
mod refusals;
mod registers;
mod routines;
mod skips;
mod stack;
mod standby;
mod text;
mod timer;
mod walks;
mod words;
