//! Rows of four-mask records, as the editor keeps them.

use super::random::Random;
use super::sound::table;
use crate::analysis::{self, Record};

/// A table's records as they are, or with some masks changed, or a row that is
/// too long.
pub fn records(seed: u64) -> Vec<Record> {
    let random = &mut Random::new(seed);
    let mut row = analysis::records(&table(random.bits()));
    if random.chance(5) {
        row.resize(random.pick(&[31, 32, 33, 40]), Record::default());
    }
    if random.chance(50) {
        for record in &mut row {
            let bit = 1 << random.below(32);
            match random.below(40) {
                0 => record.precedes |= bit,
                1..=5 => record.watch |= bit,
                6..=10 => record.reads |= bit,
                11..=15 => record.writes |= bit,
                _ => {}
            }
        }
    }
    row
}
