//! "Sums the treasurer has checked", in the paper's order and with its bytes.

use crate::common::{
    book_of, book_with_tests, fresh_with, mark, posted, posted_to_zeros, read_number, report_on,
    DONE, TRILLION,
};
use second::analysis::bound;
use second::books;
use second::compose::{add, rule, share, table};
use second::lines::lines;
use second::machine::{run, step, State};
use second::read::read;
use second::table::Table;

const TAX_BOOK: [u8; 43] = [
    0x01, 0x01, 0x02, 0x00, 0x08, 0x00, 0x23, 0x00, // edition, n, k, 0; start, length
    0x01, 0x00, 0x00, 0x00, 0x00, 0x00, 0x00, 0x00, // watch, precedes
    0x00, 0x01, 0x03, 0x00, 0x01, 0x04, 0x00, 0x00, // counts; target, operation, A, B
    0x00, 0x00, 0x00, 0x00, 0x00, 0x00, 0x00, 0x00, // K
    0x01, 0x00, 0x00, 0x00, 0x08, 0x00, 0x00, 0x00, // p, q
    0x74, 0x61, 0x78, // name
];

/// Posts to a trigger cell and runs to the end.
fn run_after_posting(table: &Table, first_cells: &[i64], cell: u32, value: i64) -> State {
    let state = posted(table, &fresh_with(table, first_cells), cell, value);
    let (number, place, end, _) = run(table, &state, 100);
    assert_eq!((number, place), DONE);
    end
}

#[test]
fn no_rules() {
    let bytes = [0x01, 0x00, 0x01, 0x00];
    let (number, place, empty) = read(&bytes);
    assert_eq!((number, place), DONE);
    assert_eq!((empty.n, empty.k), (0, 1));
    assert!(report_on(&empty).cleared);
    assert_eq!(bound(&empty, 0), (0, 255, 0));
    assert_eq!(read_number(&bytes[..3]), (1, 255));
}

#[test]
fn tax_book() {
    let (number, place, tax) = read(&TAX_BOOK);
    assert_eq!((number, place), DONE);
    assert_eq!(tax, books::tax());
    assert_eq!(book_of(&tax), TAX_BOOK);
    assert!(report_on(&tax).cleared);
    assert_eq!(bound(&tax, 1), (0, 255, 1));
    assert_eq!(
        lines(&TAX_BOOK),
        "book 1 2\nends yes 1\npairs 0\ncleared yes\n"
    );
}

#[test]
fn halves_are_cut_toward_zero() {
    let half = table(2, &[rule("half", &[0], &[], &[share(1, 0, 1, 2)])]);
    assert_eq!(run_after_posting(&half, &[], 0, 7).cells[1], 3);
    assert_eq!(run_after_posting(&half, &[], 0, -7).cells[1], -3);
}

#[test]
fn the_limit_is_stored_and_one_more_is_a_fault() {
    let plus = |k| table(2, &[rule("plus", &[0], &[], &[add(1, 0, k)])]);
    for (limit, further) in [(TRILLION, 1), (-TRILLION, -1)] {
        let stored = run_after_posting(&plus(0), &[0, 4], 0, limit);
        assert_eq!((stored.cells[1], stored.faults), (limit, 0));
        let fault = run_after_posting(&plus(further), &[0, 4], 0, limit);
        assert_eq!(fault.cells[..2], [limit, 4]);
        assert_eq!((fault.faults, fault.waiting), (1, 0));
    }
}

#[test]
fn swap() {
    let end = run_after_posting(&books::swap(), &[3, 4], 2, 1);
    assert_eq!(end.cells[..2], [4, 3]);
}

#[test]
fn a_rule_that_watches_what_it_writes() {
    let circle = books::circle();
    let report = report_on(&circle);
    assert_eq!((report.faulty, report.cleared), (1, false));
    let text = lines(&book_of(&circle));
    assert_eq!(text.lines().nth(1), Some("ends no 0"));
}

#[test]
fn tax_and_post() {
    let unordered = report_on(&books::unordered());
    assert_eq!((mark(&unordered, 0, 1), unordered.failing), (2, 1));
    assert_eq!(
        (unordered.first, unordered.culprits, unordered.cleared),
        ((0, 1), (0, 1), false)
    );
    let ordered = report_on(&books::ordered());
    assert_eq!((mark(&ordered, 0, 1), ordered.failing), (0, 0));
    assert!(ordered.cleared);
    for (set, steps) in [(1, 2), (2, 1), (3, 3)] {
        assert_eq!(bound(&books::ordered(), set), (0, 255, steps));
    }
}

#[test]
fn night_book_fails_through_2_and_1() {
    let report = report_on(&books::night());
    assert_eq!((report.faulty, report.cleared), (0, false));
    assert_eq!((mark(&report, 0, 1), report.failing), (2, 1));
    assert_eq!((mark(&report, 0, 2), mark(&report, 1, 2)), (0, 0));
    assert_eq!((report.first, report.culprits), ((0, 1), (2, 1)));
}

#[test]
fn night_book_ends_in_two_ways() {
    let night = books::night();
    let start = posted_to_zeros(&night, 0, 5);
    assert_eq!(start.waiting, 0b011);
    for (order, last) in [([0, 2, 1], 9), ([1, 0, 2], 7)] {
        let mut state = start.clone();
        for rule in order {
            let (number, place, after) = step(&night, &state, rule);
            assert_eq!((number, place), DONE);
            state = after;
        }
        assert_eq!(state.cells[..3], [5, 6, last]);
        assert_eq!((state.waiting, state.faults), (0, 0));
    }
}

#[test]
fn night_book_lines() {
    let expected = "book 3 3\nends yes 4\npairs 1 0 1 2 1\ncleared no\n";
    assert_eq!(lines(&book_of(&books::night())), expected);
}

#[test]
fn staircase() {
    let stairs = books::staircase();
    assert_eq!(bound(&stairs, u32::MAX), (0, 255, 4_294_967_295));
    for i in 0..32 {
        assert_eq!(bound(&stairs, 1 << i), (0, 255, 1 << (31 - i)));
    }
}

#[test]
fn counts_at_their_bounds() {
    let mut stairs = book_of(&books::staircase());
    assert_eq!(read_number(&stairs), DONE);
    stairs[1] = 33;
    assert_eq!(read_number(&stairs), (3, 255));

    assert_eq!(read_number(&book_with_tests(8)), DONE);
    assert_eq!(read_number(&book_with_tests(9)), (5, 0));

    let mut tax = TAX_BOOK;
    tax[36] = 1;
    assert_eq!(read_number(&tax), DONE);
    tax[36] = 0;
    assert_eq!(read_number(&tax), (7, 0));
}

#[test]
fn a_rule_that_is_not_waiting_gives_13_though_another_goes_before_it() {
    let night = books::night();
    let mut state = fresh_with(&night, &[]);
    state.waiting = 0b100;
    assert_eq!(step(&night, &state, 0), (13, 255, state.clone()));
    state.waiting = 0b101;
    assert_eq!(step(&night, &state, 0), (14, 255, state.clone()));
}
