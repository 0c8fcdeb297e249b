//! The proved library against the second program and the quick program, input
//! by input. Every run makes the same inputs.

mod analysis;
mod books;
mod changes;
mod delivered;
mod full;
mod lengths;
mod lines;
mod machine;
mod quick;
mod rows;
mod sums;
mod tables;
mod tally;
mod watched;
mod writing;
