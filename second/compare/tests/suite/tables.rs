//! Tables in memory: sound, spoiled in a field, noise, and any bytes.

use crate::tally::Tally;
use compare::border::TABLE_BYTES;
use compare::layout::bytes_of;
use compare::same::Desk;
use second::generate::{noise_table, spoil, table, Random};
use second::table::Table;

const SOUND: u64 = 25_000;
const SPOILED_EACH: usize = 3;
const NOISE: u64 = 20_000;
/// What a table can be given; 3 speaks of the whole, 10 of the priorities.
pub const NUMBERS: [usize; 8] = [0, 3, 5, 6, 7, 8, 9, 10];

#[test]
fn tables_of_the_generator() {
    let mut tally = Tally::new("tables of the generator, sound and spoiled");
    compare_tables(&mut Desk::linked(), &mut tally, SOUND);
    tally.close(100_000, &NUMBERS, 100);
}

/// So many sound tables, and some spoiled ones of each.
pub fn compare_tables(desk: &mut Desk, tally: &mut Tally, sound: u64) {
    for seed in 0..sound {
        let sound = table(seed);
        tally.add(desk.check(&sound));
        let random = &mut Random::new(!seed);
        for _ in 0..SPOILED_EACH {
            let mut spoiled = sound.clone();
            for _ in 0..random.pick(&[1, 1, 1, 2, 8]) {
                spoil(random, &mut spoiled);
            }
            tally.add(desk.check(&spoiled));
        }
    }
}

#[test]
fn tables_of_noise() {
    let mut desk = Desk::linked();
    let mut tally = Tally::new("tables of noise");
    for seed in 0..NOISE {
        tally.add(desk.check(&noise_table(seed)));
    }
    tally.close(20_000, &[0, 3, 5, 6], 1);
}

/// Bytes 0 and 3 are not looked at; any other may be anything.
#[test]
fn tables_with_changed_bytes() {
    let mut desk = Desk::linked();
    let mut tally = Tally::new("tables with changed bytes");
    for seed in 0..3_000 {
        let random = &mut Random::new(seed);
        let mut bytes = bytes_of(&table(random.bits()));
        bytes[0] = random.bits() as u8;
        bytes[3] = random.bits() as u8;
        let (number, _) = desk.check_bytes(&bytes);
        assert_eq!(number, 0, "bytes 0 and 3 of a sound table, seed {seed}");
        for _ in 0..4 {
            let mut changed = bytes;
            for _ in 0..random.between(1, 3) {
                changed[random.below(TABLE_BYTES)] = random.bits() as u8;
            }
            tally.add(desk.check_bytes(&changed));
        }
    }
    tally.close(12_000, &[0, 5, 6, 7], 10);
}

/// Every byte of an empty table and of the night book's, each set to 1 and to
/// 255.
#[test]
fn every_byte_of_a_table() {
    let mut desk = Desk::linked();
    let mut tally = Tally::new("every byte of a table");
    let mut one_cell = Table::empty();
    one_cell.k = 1;
    for table in [one_cell, second::books::night()] {
        let mut bytes = bytes_of(&table);
        for place in 0..TABLE_BYTES {
            let kept = bytes[place];
            for byte in [1, 255] {
                bytes[place] = byte;
                tally.add(desk.check_bytes(&bytes));
            }
            bytes[place] = kept;
        }
    }
    tally.close(4 * TABLE_BYTES, &[0, 3, 5, 6, 7, 9], 1);
}
