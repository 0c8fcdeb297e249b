//! The report program's lines, into buffers that fit and buffers that do not.

use crate::tally::Tally;
use compare::answers::Answers;
use compare::border::{lines, number_and_place};
use compare::lent::{Lent, Word};
use second::generate::{book, torn_book, Random};
use std::cell::RefCell;

const BOOKS: u64 = 10_000;
/// A buffer of so many bytes is long enough for a book's lines.
const ENOUGH: usize = 512;

#[test]
fn books_of_the_generator() {
    let mut tally = Tally::new("lines");
    compare_lines(None, &mut tally, BOOKS);
    tally.close(40_000, &[0, 1, 2, 3, 4, 5, 6, 7, 8, 9, 10], 10);
}

pub fn compare_lines(answers: Option<&RefCell<Answers>>, tally: &mut Tally, books: u64) {
    for seed in 0..books {
        let random = &mut Random::new(seed);
        for book in [book(seed), torn_book(seed)] {
            let told = second::lines::lines(&book).len();
            let around = (told + 2).saturating_sub(random.below(5));
            for room in [ENOUGH, around] {
                tally.add(same_lines(answers, &book, room));
            }
        }
    }
}

/// The lines, their length and the book's number; a buffer that is too short
/// is as it was, and so is what lies beside it.
fn same_lines(answers: Option<&RefCell<Answers>>, book: &[u8], room: usize) -> (u32, u32) {
    let told = second::lines::lines(book);
    let (number, place, _) = second::read::read(book);
    let before = vec![0xA5; room];
    let mut out = Lent::new(&before);
    let mut written = Word::new();
    let code = match answers {
        None => lines(book, out.bytes_mut(), written.number_mut()),
        Some(c) => c
            .borrow_mut()
            .lines(book, out.bytes_mut(), written.number_mut()),
    };
    let (mut after, mut length) = (before, 0);
    if told.len() <= room {
        after[..told.len()].copy_from_slice(told.as_bytes());
        length = told.len();
    }
    assert_eq!(out.bytes(), after, "the lines of {book:02x?}");
    assert!(
        out.guards_are_whole(),
        "written beside the lines of {book:02x?}"
    );
    assert_eq!(
        written.number() as usize,
        length,
        "the length for {book:02x?}"
    );
    let given = number_and_place(code);
    assert_eq!(given, (number.into(), place.into()), "{book:02x?}");
    given
}
