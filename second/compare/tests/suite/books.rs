//! Books from the generator, whole and torn.

use crate::tally::Tally;
use compare::same::Desk;
use second::generate::{book, tear, Random};

const WHOLE: u64 = 50_000;
const TORN_EACH: usize = 4;

#[test]
fn books_of_the_generator() {
    let mut tally = Tally::new("books of the generator, whole and torn");
    compare_books(&mut Desk::linked(), &mut tally, WHOLE);
    tally.close(200_000, &[0, 1, 2, 3, 4, 5, 6, 7, 8, 9, 10], 100);
}

/// So many whole books, and some torn ones of each.
pub fn compare_books(desk: &mut Desk, tally: &mut Tally, whole: u64) {
    for seed in 0..whole {
        let book = book(seed);
        tally.add(desk.read(&book));
        let random = &mut Random::new(!seed);
        for _ in 0..TORN_EACH {
            let mut torn = book.clone();
            for _ in 0..random.pick(&[1, 1, 1, 2, 3]) {
                tear(random, &mut torn);
            }
            tally.add(desk.read(&torn));
        }
    }
}
