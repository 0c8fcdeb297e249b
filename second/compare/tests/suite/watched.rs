//! Ten thousand calls under valgrind, which ends the program that makes them at
//! the first error: the same comparison, fewer inputs.

use crate::analysis::{judge_any, judge_small, Judged, REFUSALS};
use crate::books::compare_books;
use crate::lines::compare_lines;
use crate::machine::{compare_fresh, compare_postings, compare_runs, compare_steps};
use crate::rows::compare_rows;
use crate::tables::compare_tables;
use crate::tally::Tally;
use crate::writing::compare_writes;
use compare::answers::Answers;
use compare::same::Desk;
use std::cell::RefCell;

#[test]
fn books_and_tables_under_valgrind() {
    let mut desk = Desk::asking(Answers::watched());
    let mut tally = Tally::new("books and tables, under valgrind");
    compare_books(&mut desk, &mut tally, 300);
    compare_tables(&mut desk, &mut tally, 250);
    tally.close(2_500, &[0, 1, 2, 4], 1);
}

#[test]
fn reports_under_valgrind() {
    let answers = RefCell::new(Answers::watched());
    let mut judged = Judged::new("reports, under valgrind", Some(&answers));
    judge_any(&mut judged, 300);
    judge_small(&mut judged, 400);
    judged.close(3_000, &REFUSALS, 1);
}

#[test]
fn states_and_writes_under_valgrind() {
    let answers = RefCell::new(Answers::watched());
    let mut tally = Tally::new("states, sizes and writes, under valgrind");
    let mut sizes = Tally::new("sizes, under valgrind");
    compare_fresh(Some(&answers), &mut tally, 250);
    compare_steps(Some(&answers), &mut tally, 100);
    compare_postings(Some(&answers), &mut tally, 250);
    compare_runs(Some(&answers), &mut tally, 250);
    compare_writes(Some(&answers), &mut sizes, &mut tally, 200);
    sizes.close(200, &[0], 1);
    tally.close(1_650, &[0, 11, 13, 18], 5);
}

#[test]
fn lines_and_rows_under_valgrind() {
    let answers = RefCell::new(Answers::watched());
    let mut tally = Tally::new("lines and the editor's rows, under valgrind");
    compare_lines(Some(&answers), &mut tally, 150);
    compare_rows(Some(&answers), &mut tally, 200);
    tally.close(1_200, &[0, 1, 2, 3, 4, 6, 10], 1);
}
