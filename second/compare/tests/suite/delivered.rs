//! The archive that is delivered, called from C by the header: fewer inputs, the
//! same comparison.

use crate::analysis::{judge_any, judge_small, Judged, REFUSALS};
use crate::books::compare_books;
use crate::changes::compare_changes;
use crate::lines::compare_lines;
use crate::machine::{compare_fresh, compare_postings, compare_runs, compare_steps};
use crate::rows::compare_rows;
use crate::tables::{compare_tables, NUMBERS};
use crate::tally::Tally;
use crate::writing::compare_writes;
use compare::answers::Answers;
use compare::same::Desk;
use second::books::tax;
use second::write::bytes_of;
use std::cell::RefCell;

#[test]
fn books_from_c() {
    let mut desk = Desk::delivered();
    let mut tally = Tally::new("books, from C on the archive delivered");
    compare_books(&mut desk, &mut tally, 1_500);
    compare_changes(&mut desk, &mut tally, bytes_of(&tax()));
    tally.close(18_000, &[0, 1, 2, 3, 4, 5, 6, 7, 8, 9, 10], 10);
}

#[test]
fn tables_from_c() {
    let mut tally = Tally::new("tables, from C on the archive delivered");
    compare_tables(&mut Desk::delivered(), &mut tally, 750);
    tally.close(3_000, &NUMBERS, 10);
}

#[test]
fn reports_from_c() {
    let answers = RefCell::new(Answers::start());
    let what = "reports, from C on the archive delivered";
    let mut judged = Judged::new(what, Some(&answers));
    judge_any(&mut judged, 300);
    judge_small(&mut judged, 400);
    judged.close(3_000, &REFUSALS, 1);
}

#[test]
fn states_from_c() {
    let answers = RefCell::new(Answers::start());
    let mut tally = Tally::new("calls of the machine, from C on the archive delivered");
    compare_fresh(Some(&answers), &mut tally, 500);
    compare_steps(Some(&answers), &mut tally, 200);
    compare_postings(Some(&answers), &mut tally, 500);
    compare_runs(Some(&answers), &mut tally, 500);
    tally.close(2_500, &[0, 11, 12, 13, 14, 15, 16], 5);
}

#[test]
fn writes_from_c() {
    let answers = RefCell::new(Answers::start());
    let mut sizes = Tally::new("sizes, from C on the archive delivered");
    let mut tally = Tally::new("writes, from C on the archive delivered");
    compare_writes(Some(&answers), &mut sizes, &mut tally, 500);
    sizes.close(500, &[0, 7], 1);
    tally.close(1_000, &[0, 7, 18], 5);
}

#[test]
fn lines_and_rows_from_c() {
    let answers = RefCell::new(Answers::start());
    let mut tally = Tally::new("lines, from C on the archive delivered");
    compare_lines(Some(&answers), &mut tally, 300);
    tally.close(1_200, &[0, 1, 2, 3, 4, 5, 6, 7], 1);
    let mut tally = Tally::new("the editor's rows, from C on the archive delivered");
    compare_rows(Some(&answers), &mut tally, 500);
    tally.close(1_500, &[0, 3, 6, 10], 10);
}
