//! Books, tables, states and calls made from a seed, for comparisons. The same
//! seed always gives the same.

mod random;
mod records;
mod sound;
mod states;
mod torn;
mod unsound;

pub use random::Random;
pub use records::records;
pub use sound::{small_table, table};
pub use states::{calls, state, unfitting_state, Calls};
pub use torn::{book, tear, torn_book};
pub use unsound::{noise_table, spoil, unsound_table};
