//! Every change of one byte and every truncation of the two small books.

use crate::tally::Tally;
use compare::same::Desk;
use second::books::{night, tax};
use second::write::bytes_of;

#[test]
fn every_byte_of_the_night_book_and_the_tax_book() {
    let mut desk = Desk::linked();
    let mut tally = Tally::new("changes of one byte");
    compare_changes(&mut desk, &mut tally, bytes_of(&night()));
    compare_changes(&mut desk, &mut tally, bytes_of(&tax()));
    tally.close(43_264, &[0, 2, 3, 4, 5, 6, 7, 9, 10], 1);
}

/// Every byte of the book set to every value.
pub fn compare_changes(desk: &mut Desk, tally: &mut Tally, mut book: Vec<u8>) {
    for place in 0..book.len() {
        let kept = book[place];
        for byte in 0..=255 {
            book[place] = byte;
            tally.add(desk.read(&book));
        }
        book[place] = kept;
    }
}

#[test]
fn every_truncation_of_the_night_book_and_the_tax_book() {
    let mut desk = Desk::linked();
    let mut tally = Tally::new("truncations");
    for book in [bytes_of(&night()), bytes_of(&tax())] {
        for length in 0..=book.len() {
            tally.add(desk.read(&book[..length]));
        }
    }
    tally.close(100, &[0, 1, 4], 2);
}
