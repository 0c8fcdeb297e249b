//! Books as bytes, whole and torn.

use super::random::Random;
use super::sound::table;
use crate::sets::with;
use crate::write::bytes_of;

/// A book: nearly always one that is read, now and then one whose priorities
/// have a cycle.
pub fn book(seed: u64) -> Vec<u8> {
    let random = &mut Random::new(seed);
    let mut table = table(random.bits());
    if table.n > 0 && random.chance(6) {
        let n = usize::from(table.n);
        let (r, s) = (random.below(n), random.below(n));
        table.rules[r].precedes = with(table.rules[r].precedes, s);
        table.rules[s].precedes = with(table.rules[s].precedes, r);
    }
    bytes_of(&table)
}

/// A book torn in one place, or in up to three.
pub fn torn_book(seed: u64) -> Vec<u8> {
    let random = &mut Random::new(seed);
    let mut book = book(random.bits());
    for _ in 0..random.pick(&[1, 1, 1, 2, 3]) {
        tear(random, &mut book);
    }
    book
}

/// Changes a byte, cuts or lengthens the book, or makes its contents lie.
pub fn tear(random: &mut Random, book: &mut Vec<u8>) {
    let length = book.len();
    match random.below(12) {
        0 => book.truncate(random.below(length + 1)),
        1 => book.truncate(length.saturating_sub(1)),
        2 => book.extend((0..random.between(1, 20)).map(|_| random.bits() as u8)),
        3 => book.resize(random.pick(&[9_219, 9_220, 9_221, 9_300]), 0),
        4 if length > 0 => {
            book.remove(random.below(length));
        }
        5 | 6 => lie(random, book),
        7 if length > 40 => repeat(random, book),
        _ if length > 0 => book[random.below(length)] = random.bits() as u8,
        _ => book.push(1),
    }
}

/// Repeats a stretch as long as an assignment right after itself, so that a
/// target may come twice.
fn repeat(random: &mut Random, book: &mut [u8]) {
    let start = random.below(book.len() - 39);
    book.copy_within(start..start + 20, start + 20);
}

/// Changes a start or a length in the contents, sometimes two lengths so that
/// their sum stays.
fn lie(random: &mut Random, book: &mut [u8]) {
    let n = usize::from(book.get(1).copied().unwrap_or(0));
    if n == 0 || book.len() < 4 + 4 * n {
        return;
    }
    let by = random.pick(&[1, 12, 20, 255, 256, 32_768]);
    let place = 4 + 2 * random.below(2 * n);
    change(book, place, by);
    if random.chance(50) {
        change(book, 4 + 4 * random.below(n) + 2, by.wrapping_neg());
    }
    if random.chance(50) {
        mend_starts(book, n);
    }
}

fn change(book: &mut [u8], place: usize, by: u16) {
    let number = number_at(book, place).wrapping_add(by);
    book[place..place + 2].copy_from_slice(&number.to_le_bytes());
}

fn number_at(book: &[u8], place: usize) -> u16 {
    u16::from_le_bytes([book[place], book[place + 1]])
}

/// Makes every start the sum before it, as a number of 16 bits.
fn mend_starts(book: &mut [u8], n: usize) {
    let mut start = (4 + 4 * n) as u16;
    for entry in 0..n {
        let place = 4 + 4 * entry;
        book[place..place + 2].copy_from_slice(&start.to_le_bytes());
        start = start.wrapping_add(number_at(book, place + 2));
    }
}
