//! Numbers 1 to 5 of a book as bytes: each with the nearest book that is read.

use crate::common::{body, book_of, book_of_bodies, book_with_tests, read_number, DONE};
use second::books;
use second::compose::{add, rule, table, tested, with_constant};
use second::table::{Assign, Rule, Table};

fn book_with_assigns(assigns: u8) -> Vec<u8> {
    let mut body = vec![0; 8];
    body.extend([0, assigns, 1, 0]);
    for target in 0..assigns {
        body.push(target);
        body.extend([0; 19]);
    }
    body.push(b'r');
    book_of_bodies(32, &[body])
}

/// The largest book: 32 rules with 8 tests, 8 assignments and 16 letters each.
fn largest() -> Table {
    let assigns: Vec<Assign> = (0..8).map(|target| add(target, 0, 1)).collect();
    let full = |i: usize| {
        let name = format!("abcdefghijklmn{i:02}");
        tested(
            rule(&name, &[31], &[], &assigns),
            &[with_constant(31, 0, 1); 8],
        )
    };
    let rules: Vec<Rule> = (0..32).map(full).collect();
    table(32, &rules)
}

#[test]
fn number_1_is_for_the_size() {
    let empty = book_of(&books::empty());
    assert_eq!(read_number(&empty), DONE);
    assert_eq!(read_number(&empty[..3]), (1, 255));
    assert_eq!(read_number(&[]), (1, 255));

    let mut large = book_of(&largest());
    assert_eq!(large.len(), 9_220);
    assert_eq!(read_number(&large), DONE);
    large.push(0);
    assert_eq!(read_number(&large), (1, 255));
}

#[test]
fn number_2_is_for_the_edition_and_byte_3() {
    for (place, wrong, right) in [(0, 0, 1), (0, 2, 1), (3, 1, 0), (3, 255, 0)] {
        let mut book = book_of(&books::tax());
        book[place] = wrong;
        assert_eq!(read_number(&book), (2, 255));
        book[place] = right;
        assert_eq!(read_number(&book), DONE);
    }
}

#[test]
fn number_3_is_for_n_and_k() {
    for (k, number) in [(0, (3, 255)), (1, DONE), (32, DONE), (33, (3, 255))] {
        assert_eq!(read_number(&[1, 0, k, 0]), number);
    }
    let mut stairs = book_of(&books::staircase());
    for (n, number) in [(32, DONE), (33, (3, 255)), (255, (3, 255))] {
        stairs[1] = n;
        assert_eq!(read_number(&stairs), number);
    }
}

#[test]
fn number_4_is_for_contents_that_lie() {
    let night = book_of(&books::night());
    assert_eq!(read_number(&night), DONE);
    // Starts in bytes 4, 8 and 12, lengths in bytes 6, 10 and 14.
    for place in [4, 6, 8, 10, 12, 14] {
        for by in [1, 255] {
            let mut book = night.clone();
            book[place] = book[place].wrapping_add(by);
            assert_eq!(read_number(&book), (4, 255), "byte {place} by {by}");
        }
    }
}

#[test]
fn number_4_is_for_contents_that_leave_the_book() {
    let tax = book_of(&books::tax());
    for length in 4..tax.len() {
        assert_eq!(read_number(&tax[..length]), (4, 255), "{length} bytes");
    }
    let longer = [&tax[..], &[0]].concat();
    assert_eq!(read_number(&longer), (4, 255));
    assert_eq!(read_number(&[1, 0, 1, 0, 0]), (4, 255));
    assert_eq!(read_number(&[1, 0, 1, 0]), DONE);
}

#[test]
fn number_4_is_for_a_start_that_is_the_sum_only_in_16_bits() {
    let bodies = [body(0, 1, 0), body(0, 2, 0)];
    let mut book = book_of_bodies(1, &bodies);
    assert_eq!(read_number(&book), DONE);
    // The first length is 65,535, so the second start would be 65,547.
    book[6..8].copy_from_slice(&65_535u16.to_le_bytes());
    book[8..10].copy_from_slice(&11u16.to_le_bytes());
    let to_the_end = (book.len() - 11) as u16;
    book[10..12].copy_from_slice(&to_the_end.to_le_bytes());
    assert_eq!(read_number(&book), (4, 255));
}

#[test]
fn number_5_is_for_the_counts() {
    for (tests, number) in [(0, DONE), (8, DONE), (9, (5, 0)), (255, (5, 0))] {
        assert_eq!(read_number(&book_with_tests(tests)), number, "t {tests}");
    }
    for (assigns, number) in [(0, DONE), (8, DONE), (9, (5, 0)), (255, (5, 0))] {
        assert_eq!(
            read_number(&book_with_assigns(assigns)),
            number,
            "a {assigns}"
        );
    }
    for (letters, number) in [(0, (5, 0)), (1, DONE), (16, DONE), (17, (5, 0))] {
        let book = book_of_bodies(1, &[body(0, letters, 0)]);
        assert_eq!(read_number(&book), number, "m {letters}");
    }
    for (fourth, number) in [(0, DONE), (1, (5, 0)), (255, (5, 0))] {
        let book = book_of_bodies(1, &[body(0, 1, fourth)]);
        assert_eq!(read_number(&book), number, "fourth {fourth}");
    }
}

#[test]
fn number_5_is_for_the_length_of_a_body() {
    let right = body(1, 2, 0);
    let longer = [&right[..], b"r"].concat();
    let shorter = right[..right.len() - 1].to_vec();
    let good = body(0, 1, 0);
    for (second, number) in [(right, DONE), (longer, (5, 1)), (shorter, (5, 1))] {
        let book = book_of_bodies(1, &[good.clone(), second]);
        assert_eq!(read_number(&book), number);
    }
}

#[test]
fn number_5_is_for_a_body_without_room_for_its_counts() {
    for length in 0..=12 {
        let short = body(0, 1, 0)[..length].to_vec();
        assert_eq!(read_number(&book_of_bodies(1, &[short])), (5, 0));
    }
    assert_eq!(read_number(&book_of_bodies(1, &[body(0, 1, 0)])), DONE);
}
