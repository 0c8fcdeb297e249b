//! Torn books: nothing panics, a refused one gives the empty table, one that
//! is read after all is written back to the same bytes.

use crate::common::{book_of, read_number};
use second::books;
use second::generate;
use second::lines::lines;
use second::read::read;
use second::write::book;
use std::collections::BTreeSet;

/// The number of a torn book, after looking at all that comes back.
fn number_of(bytes: &[u8]) -> u8 {
    let (number, place) = read_number(bytes);
    let expected_place = matches!(number, 5..=9);
    assert_eq!(place != 255, expected_place, "{number} with place {place}");
    assert!(number <= 10);
    if number == 0 {
        let (_, _, table) = read(bytes);
        assert_eq!(book(&table), (0, 255, bytes.to_vec()));
    }
    number
}

/// Every byte changed to every value.
fn numbers_of_single_changes(book: &[u8]) -> BTreeSet<u8> {
    let mut numbers = BTreeSet::new();
    for place in 0..book.len() {
        for value in 0..=255 {
            let mut torn = book.to_vec();
            torn[place] = value;
            numbers.insert(number_of(&torn));
        }
    }
    numbers
}

#[test]
fn every_byte_of_the_tax_book() {
    let numbers = numbers_of_single_changes(&book_of(&books::tax()));
    assert_eq!(numbers, BTreeSet::from([0, 2, 3, 4, 5, 6, 7, 9, 10]));
}

#[test]
fn every_byte_of_the_night_book() {
    let numbers = numbers_of_single_changes(&book_of(&books::night()));
    assert_eq!(numbers, BTreeSet::from([0, 2, 3, 4, 5, 6, 7, 9, 10]));
}

#[test]
fn every_beginning() {
    for (name, table) in books::all() {
        let whole = book_of(&table);
        for length in 0..whole.len() {
            let expected = if length < 4 { 1 } else { 4 };
            assert_eq!(number_of(&whole[..length]), expected, "{name} {length}");
        }
        assert_eq!(number_of(&[&whole[..], &[0]].concat()), 4, "{name}");
    }
}

/// Every pair of lengths that lie while their sum stays: the contents fit, so
/// the first body judged by its counts tells.
#[test]
fn lengths_that_lie_together() {
    let night = book_of(&books::night());
    let length = |entry: usize| usize::from(night[6 + 4 * entry]);
    for first in 0..length(0) + length(1) {
        let mut torn = night.clone();
        torn[6] = first as u8;
        torn[8] = 16 + first as u8;
        torn[10] = (length(0) + length(1) - first) as u8;
        let expected = if first == length(0) { 0 } else { 5 };
        assert_eq!(number_of(&torn), expected, "{first}");
    }
}

#[test]
fn torn_at_random() {
    let mut numbers = BTreeSet::new();
    for seed in 0..20_000 {
        let torn = generate::torn_book(seed);
        let number = number_of(&torn);
        numbers.insert(number);
        let refused = lines(&torn).starts_with("refused ");
        assert_eq!(refused, number != 0);
    }
    assert_eq!(numbers, (0..=10).collect());
}
