//! Every length from 0 to 9,300.

use crate::tally::Tally;
use compare::full::full_book;
use compare::same::Desk;
use second::books::empty;
use second::write::bytes_of;

const LONGEST: usize = 9_300;

#[test]
fn every_length() {
    let mut desk = Desk::linked();
    let mut tally = Tally::new("lengths 0 to 9,300");
    for mut book in [
        full_book(),
        bytes_of(&empty()),
        vec![1; LONGEST],
        vec![0; LONGEST],
    ] {
        book.resize(LONGEST, 0);
        for length in 0..=LONGEST {
            tally.add(desk.read(&book[..length]));
        }
    }
    tally.close(4 * (LONGEST + 1), &[0, 1, 2, 4], 2);
}
