//! What several subjects need.

use second::analysis::{pairs, report, Report, Rules};
use second::compose::{
    add, difference, give, rule, share, sum, table, tested, with_cell, with_constant, AT_MOST,
    UNEQUAL,
};
use second::machine::{fresh, post, State};
use second::read::read;
use second::table::Table;
use second::write::book;

/// Number and place of "done".
pub const DONE: (u8, u8) = (0, 255);

/// The limit of an amount, written out once more.
pub const TRILLION: i64 = 1_000_000_000_000;

/// A change to a table.
pub type Change = fn(&mut Table);

/// Two rules over five cells, with both kinds of test and all five operations.
pub fn sample() -> Table {
    let assigns = [
        give(0, 5),
        add(1, 0, 2),
        sum(2, 0, 1),
        difference(3, 2, 1),
        share(4, 3, 1, 2),
    ];
    let tests = [with_constant(0, AT_MOST, 7), with_cell(1, UNEQUAL, 2)];
    let first = tested(rule("first", &[0, 1], &[1], &assigns), &tests);
    let second = rule("second", &[4], &[], &[add(3, 3, 1)]);
    table(5, &[first, second])
}

/// The sample after a change.
pub fn sample_after(change: impl Fn(&mut Table)) -> Table {
    let mut table = sample();
    change(&mut table);
    table
}

/// The book of a sound table.
pub fn book_of(table: &Table) -> Vec<u8> {
    let (number, place, bytes) = book(table);
    assert_eq!((number, place), DONE, "the table has no book");
    bytes
}

/// A book of these bodies, with contents that fit them.
pub fn book_of_bodies(k: u8, bodies: &[Vec<u8>]) -> Vec<u8> {
    let mut book = vec![1, bodies.len() as u8, k, 0];
    let mut start = 4 + 4 * bodies.len();
    for body in bodies {
        book.extend((start as u16).to_le_bytes());
        book.extend((body.len() as u16).to_le_bytes());
        start += body.len();
    }
    book.extend(bodies.concat());
    book
}

/// The body of a rule without assignments, its name all "r".
pub fn body(tests: u8, letters: u8, fourth: u8) -> Vec<u8> {
    let mut body = vec![0; 8];
    body.extend([tests, 0, letters, fourth]);
    body.extend(vec![0; 12 * usize::from(tests)]);
    body.extend(vec![b'r'; usize::from(letters)]);
    body
}

/// A book of one rule with so many tests, its length right for them.
pub fn book_with_tests(tests: u8) -> Vec<u8> {
    book_of_bodies(1, &[body(tests, 1, 0)])
}

/// Number and place of a read; refused, the table is empty.
pub fn read_number(bytes: &[u8]) -> (u8, u8) {
    let (number, place, table) = read(bytes);
    if number != 0 {
        assert_eq!(table, Table::empty(), "a refused read gave a table");
    }
    (number, place)
}

/// The mark of a pair: rows of 31, 30, 29 .. marks.
pub fn mark(report: &Report, i: usize, j: usize) -> u8 {
    let row_start: usize = (0..i).map(|row| 31 - row).sum();
    report.marks[row_start + j - i - 1]
}

/// The report on a table that is not refused.
pub fn report_on(table: &Table) -> Report {
    let report = report(table);
    assert_eq!((report.number, report.place), DONE);
    report
}

/// "A refused report has only zeros beside number and place."
pub fn assert_only_zeros(report: &Report) {
    let zeros = Report {
        number: report.number,
        place: report.place,
        cleared: false,
        faulty: 0,
        marks: [0; 496],
        failing: 0,
        first: (0, 0),
        culprits: (0, 0),
    };
    assert_eq!(*report, zeros);
}

/// The unordered pairs of these rules.
pub fn unordered_pairs(rules: &Rules) -> Vec<(usize, usize)> {
    let unordered = |&(i, j): &(usize, usize)| j < rules.count() && rules.unordered(i, j);
    pairs().into_iter().filter(unordered).collect()
}

/// The fresh state with these first cells, the others 0.
pub fn fresh_with(table: &Table, first_cells: &[i64]) -> State {
    let mut cells = [0; 32];
    cells[..first_cells.len()].copy_from_slice(first_cells);
    let (number, place, state) = fresh(table, &cells);
    assert_eq!((number, place), DONE);
    state
}

/// The state after a posting that is accepted.
pub fn posted(table: &Table, state: &State, cell: u32, value: i64) -> State {
    let (number, place, after) = post(table, state, cell, value);
    assert_eq!((number, place), DONE);
    after
}

/// The fresh state of zeros after one posting.
pub fn posted_to_zeros(table: &Table, cell: u32, value: i64) -> State {
    posted(table, &fresh_with(table, &[]), cell, value)
}
