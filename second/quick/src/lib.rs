//! The quick program: the calls of include/gwaunidor.h as one writes them who
//! proves nothing and wants them fast, on masks and references, in the bytes as
//! they lie. The proved library's times are given beside it.
//!
//! Every call returns 0 when done, else number + 256 x place, and leaves in lent
//! memory what the header says.

mod analysis;
mod book;
mod check;
mod image;
mod lines;
mod machine;
mod masks;
mod pairs;

pub use analysis::{bound, report, rows};
pub use book::{read, size, write};
pub use check::check;
pub use lines::lines;
pub use machine::{fresh, post, run, step};

pub type TableBytes = [u8; 9_092];
pub type ReportBytes = [u8; 512];
pub type AmountsBytes = [u8; 256];
pub type StateBytes = [u8; 264];

/// What a call returns: done, a refusal of the whole, a refusal of one rule.
const DONE: u32 = 0;

const fn whole(number: u32) -> u32 {
    of_rule(number, 255)
}

const fn of_rule(number: u32, rule: usize) -> u32 {
    number + 256 * rule as u32
}

fn code(answer: Result<(), u32>) -> u32 {
    match answer {
        Ok(()) => DONE,
        Err(refused) => refused,
    }
}

/// Refuses by `code` when it `applies`.
fn refuse_when(applies: bool, code: u32) -> Result<(), u32> {
    if applies {
        return Err(code);
    }
    Ok(())
}
