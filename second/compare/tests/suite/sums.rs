//! The treasurer's sums that are about reading and checking, as the border
//! gives them.

use compare::border::{self, number_and_place, TABLE_BYTES};
use compare::layout::{bytes_of, table_of};
use compare::same::Desk;
use second::books::{night, staircase, tax};
use second::compose::{rule, share, table, tested, with_constant};
use second::table::Table;
use second::write::bytes_of as book_of;

const DONE: (u32, u32) = (0, 255);

/// A book of one rule with so many tests, its length right for them.
fn book_with_tests(tests: u8) -> Vec<u8> {
    let length = 13 + 12 * u16::from(tests);
    let mut book = vec![1, 1, 1, 0, 8, 0];
    book.extend(length.to_le_bytes());
    book.extend([0; 8]);
    book.extend([tests, 0, 1, 0]);
    book.extend(vec![0; 12 * usize::from(tests)]);
    book.push(b'r');
    book
}

fn sharing(q: u32) -> Table {
    table(2, &[rule("tax", &[0], &[], &[share(1, 0, 1, q)])])
}

#[test]
fn codes_are_number_and_place() {
    assert_eq!(number_and_place(0), DONE);
    assert_eq!(number_and_place(1 + 256 * 255), (1, 255));
    assert_eq!(number_and_place(9 + 256 * 31), (9, 31));
}

#[test]
fn no_rules() {
    let mut desk = Desk::linked();
    assert_eq!(desk.read(&[1, 0, 1, 0]), DONE);
    assert_eq!(desk.read(&[1, 0, 1]), (1, 255));
    assert_eq!(desk.read(&[]), (1, 255));
}

#[test]
fn the_tax_book_and_the_night_book() {
    let mut desk = Desk::linked();
    for sound in [tax(), night(), staircase()] {
        assert_eq!(desk.read(&book_of(&sound)), DONE);
        assert_eq!(desk.check(&sound), DONE);
    }
}

/// "n 32 read, 33 gives 3"
#[test]
fn n_32_and_33() {
    let mut desk = Desk::linked();
    let mut book = book_of(&staircase());
    let mut stairs = staircase();
    for (n, found) in [(32, DONE), (33, (3, 255))] {
        book[1] = n;
        stairs.n = n;
        assert_eq!(desk.read(&book), found);
        assert_eq!(desk.check(&stairs), found);
    }
}

/// "t 8 read, 9 gives 5"
#[test]
fn t_8_and_9() {
    let mut desk = Desk::linked();
    assert_eq!(desk.read(&book_with_tests(8)), DONE);
    assert_eq!(desk.read(&book_with_tests(9)), (5, 0));
    let eight = tested(rule("r", &[0], &[], &[]), &[with_constant(0, 0, 1); 8]);
    let mut table = table(1, &[eight]);
    assert_eq!(desk.check(&table), DONE);
    table.rules[0].tests = 9;
    assert_eq!(desk.check(&table), (5, 0));
}

/// "q 1 read, 0 gives 7"
#[test]
fn q_1_and_0() {
    let mut desk = Desk::linked();
    for (q, found) in [(1, DONE), (0, (7, 0))] {
        assert_eq!(desk.read(&book_of(&sharing(q))), found);
        assert_eq!(desk.check(&sharing(q)), found);
    }
}

/// The layout's own round trip, and one place of it by hand.
#[test]
fn the_layout() {
    let night = night();
    let bytes = bytes_of(&night);
    assert_eq!(table_of(&bytes), night);
    assert_eq!((bytes[1], bytes[2]), (3, 3));
    let close = 4 + 2 * 284;
    assert_eq!(
        bytes[close..close + 12],
        [2, 0, 0, 0, 3, 0, 0, 0, 0, 1, 5, 0]
    );
    assert_eq!(bytes[close + 108..close + 113], [2, 0, 0, 0, 7]);
    assert_eq!(&bytes[close + 268..close + 273], b"close");
    assert_eq!(border::check(&bytes), 0);
    assert_eq!(border::check(&[0; TABLE_BYTES]), 3 + 256 * 255);
}
