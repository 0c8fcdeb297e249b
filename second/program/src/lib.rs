//! The second program: the paper written down once more in plain Rust, with
//! sets and loops, so that the proved crates can be compared with it. It shares
//! no code with them; where the two differ, the paper decides which is wrong.

pub mod analysis;
pub mod books;
pub mod check;
pub mod compose;
pub mod explore;
pub mod generate;
pub mod lines;
pub mod machine;
pub mod read;
pub mod refusal;
pub mod sets;
pub mod table;
pub mod write;
