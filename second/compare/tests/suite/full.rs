//! The largest book, and every change of one byte of it to a few values.

use crate::tally::Tally;
use compare::full::full_book;
use compare::same::Desk;

#[test]
fn the_largest_book_and_its_changes() {
    let mut desk = Desk::linked();
    let mut tally = Tally::new("changes of the largest book");
    let mut book = full_book();
    assert_eq!(book.len(), 9_220);
    assert_eq!(desk.read(&book), (0, 255));
    for place in 0..book.len() {
        let kept = book[place];
        book[place] = kept.wrapping_add(if place % 2 == 0 { 1 } else { 128 });
        tally.add(desk.read(&book));
        book[place] = kept;
    }
    tally.close(9_000, &[0, 2, 3, 4, 5, 6, 7, 8, 9], 1);
}
