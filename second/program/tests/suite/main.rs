//! The tests of the second program, by subject.

mod analysis;
mod bytes;
mod calls;
mod common;
mod directory;
mod explorer;
mod generator;
mod order;
mod programs;
mod records;
mod round_trips;
mod shortcuts;
mod steps;
mod sums;
mod table_in_memory;
mod torn;
