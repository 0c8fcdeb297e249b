//! The report and the step bound: sparse and dense tables, small ones, spoiled
//! ones and those of torn books, with cycles and without.

use crate::tally::Tally;
use compare::answers::Answers;
use compare::tables::OnTable;
use second::books::{all, night, staircase};
use second::generate::{calls, small_table, spoil, table, tear, Random};
use second::sets::with;
use second::table::Table;
use second::write::bytes_of;
use std::cell::RefCell;

const ANY: u64 = 12_000;
const SMALL: u64 = 45_000;
pub const REFUSALS: [usize; 7] = [3, 5, 6, 7, 8, 9, 10];

/// Who answers, the tallies of both calls, and how many reports said what.
pub struct Judged<'a> {
    answers: Option<&'a RefCell<Answers>>,
    report: Tally,
    bound: Tally,
    cleared: usize,
    cyclic: usize,
    failing: usize,
}

impl<'a> Judged<'a> {
    pub fn new(what: &'static str, answers: Option<&'a RefCell<Answers>>) -> Judged<'a> {
        Judged {
            answers,
            report: Tally::new(what),
            bound: Tally::new("step bounds of the same"),
            cleared: 0,
            cyclic: 0,
            failing: 0,
        }
    }

    fn add(&mut self, seed: u64, table: &Table) {
        let both = OnTable::new(table, self.answers);
        let (given, report) = both.report();
        self.report.add(given);
        self.bound.add(both.bound(calls(seed, table).set));
        self.cleared += usize::from(report.cleared);
        self.cyclic += usize::from(report.faulty != 0);
        self.failing += usize::from(report.failing > 0);
    }

    /// At least so many, the refusals and each verdict so many times.
    pub fn close(self, least: usize, refusals: &[usize], each: usize) {
        let (cleared, cyclic, failing) = (self.cleared, self.cyclic, self.failing);
        self.report.close(least, refusals, each);
        self.bound.close(least, &[0, 11, 17], each);
        println!("  cleared {cleared}, with a cycle {cyclic}, with a failing pair {failing}");
        assert!(cleared.min(cyclic).min(failing) >= each, "too much alike");
    }
}

#[test]
fn tables_of_any_size() {
    let mut judged = Judged::new("reports, tables of any size", None);
    judge_any(&mut judged, ANY);
    judged.close(72_000, &REFUSALS, 100);
}

/// So many sound tables, spoiled copies and copies torn as books.
pub fn judge_any(judged: &mut Judged, count: u64) {
    for seed in 0..count {
        let whole = table(seed);
        judged.add(seed, &whole);
        let random = &mut Random::new(!seed);
        for _ in 0..3 {
            let mut spoiled = whole.clone();
            spoil(random, &mut spoiled);
            judged.add(random.bits(), &spoiled);
        }
        for _ in 0..2 {
            let mut torn = bytes_of(&whole);
            tear(random, &mut torn);
            judged.add(random.bits(), &second::read::read(&torn).2);
        }
    }
}

#[test]
fn small_tables() {
    let mut judged = Judged::new("reports, small tables", None);
    judge_small(&mut judged, SMALL);
    judged.close(135_000, &[], 1_000);
}

/// Each as it is, and twice with a rule that watches one cell more.
pub fn judge_small(judged: &mut Judged, count: u64) {
    for seed in 0..count {
        let small = small_table(seed);
        judged.add(seed, &small);
        let random = &mut Random::new(!seed);
        for _ in 0..2 {
            let mut watching = small.clone();
            let rule = &mut watching.rules[random.below(usize::from(small.n))];
            rule.watch = with(rule.watch, random.below(usize::from(small.k)));
            judged.add(random.bits(), &watching);
        }
    }
}

/// The paper's books; "bound of all rules 4,294,967,295".
#[test]
fn the_books_of_the_paper() {
    for (_, book) in all() {
        let both = OnTable::new(&book, None);
        assert_eq!(both.report().0, (0, 255));
        both.bound(calls(0, &book).set);
    }
    let (_, report) = OnTable::new(&night(), None).report();
    assert_eq!(
        (report.failing, report.first, report.culprits),
        (1, (0, 1), (2, 1))
    );
    assert_eq!(second::analysis::bound(&staircase(), u32::MAX).2, u32::MAX);
    assert_eq!(OnTable::new(&staircase(), None).bound(u32::MAX), (0, 255));
    assert_eq!(OnTable::new(&night(), None).bound(8), (11, 255));
}
