//! The writer: buffers of every length that matters, tables that are refused.

use crate::tally::Tally;
use compare::answers::Answers;
use compare::border;
use compare::full::full_table;
use compare::tables::OnTable;
use second::generate::{book, spoil, table, torn_book, Random};
use std::cell::RefCell;

const TABLES: u64 = 100_000;
const AROUND: u64 = 300;
const BOOKS: u64 = 50_000;
const NUMBERS: [usize; 8] = [0, 3, 5, 6, 7, 8, 9, 10];

#[test]
fn tables_of_the_generator() {
    let (mut sizes, mut tally) = (Tally::new("sizes"), Tally::new("writes"));
    compare_writes(None, &mut sizes, &mut tally, TABLES);
    sizes.close(100_000, &NUMBERS, 50);
    tally.close(200_000, &NUMBERS, 50);
}

/// "a done write leaves the bytes after the book untouched"
#[test]
fn every_length_around_the_book() {
    let mut tally = Tally::new("writes, every length around the book's");
    for seed in 0..AROUND {
        let table = table(seed);
        let both = OnTable::new(&table, None);
        let (_, size) = both.size();
        let size = size as usize;
        for room in size.saturating_sub(30)..=size + 30 {
            tally.add(both.write(room));
        }
    }
    tally.close(10_000, &[0, 18], 5_000);
}

/// "a book read and written again has the same bytes"
#[test]
fn books_rewritten() {
    let mut tally = Tally::new("books read and written again");
    let mut table = [0; border::TABLE_BYTES];
    for seed in 0..BOOKS {
        for book in [book(seed), torn_book(seed)] {
            let given = border::number_and_place(border::read(&book, &mut table));
            tally.add(given);
            if given.0 != 0 {
                continue;
            }
            let (mut out, mut length) = (vec![0xA5; book.len()], 0);
            assert_eq!(border::write(&table, &mut out, &mut length), 0);
            assert_eq!(length as usize, book.len());
            assert_eq!(out, book, "the book of seed {seed}");
        }
    }
    tally.close(100_000, &[0], 45_000);
}

/// In turn into a buffer that fits and one that is a byte too short, or into a
/// longer one and one of any length up to the book's.
pub fn compare_writes(
    answers: Option<&RefCell<Answers>>,
    sizes: &mut Tally,
    tally: &mut Tally,
    tables: u64,
) {
    for seed in 0..tables {
        let random = &mut Random::new(seed);
        let mut table = table(random.bits());
        if random.chance(30) {
            spoil(random, &mut table);
        }
        let both = OnTable::new(&table, answers);
        let (given, size) = both.size();
        sizes.add(given);
        let size = size as usize;
        let rooms = match seed % 2 {
            0 => [size, size.saturating_sub(1)],
            _ => [size + random.between(1, 40), random.below(size + 1)],
        };
        for room in rooms {
            tally.add(both.write(room));
        }
    }
}

/// "output buffer shorter than the book"
#[test]
fn the_largest_book() {
    let full = full_table();
    let both = OnTable::new(&full, None);
    assert_eq!(both.size(), ((0, 255), 9_220));
    for (room, given) in [(9_220, 0), (9_219, 18), (0, 18), (9_300, 0)] {
        assert_eq!(both.write(room), (given, 255));
    }
}
