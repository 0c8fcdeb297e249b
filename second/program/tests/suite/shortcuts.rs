//! "Shortcuts that look right": for each a book on which it goes wrong.

use crate::common::{fresh_with, mark, posted, posted_to_zeros, report_on, TRILLION};
use second::analysis::{records, Rules};
use second::books;
use second::compose::{add, give, rule, table};
use second::explore::{explore, Explored};
use second::machine::{eligible, run, step, State};
use second::sets::Set;
use second::table::Table;

fn explored(table: &Table, state: &State) -> Explored {
    let explored = explore(table, state, 1_000, 100_000);
    assert!(explored.complete && !explored.stuck);
    explored
}

#[test]
fn testing_only_i_against_j() {
    let night = books::night();
    let rules = Rules::of(&records(&night));
    assert!(rules.commute(0, 1));
    assert_eq!(rules.grown(0, 1), (Set::from([0, 2]), Set::from([1])));
    assert_eq!(mark(&report_on(&night), 0, 1), 2);
    let ends = explored(&night, &posted_to_zeros(&night, 0, 5)).ends;
    assert_eq!(ends.len(), 2);
}

/// Like the night book, but rule 2 goes before 0 and 1 only through 3.
fn night_through_3() -> Table {
    let rules = [
        rule("count", &[0], &[], &[add(1, 0, 1)]),
        rule("lamp", &[0], &[], &[give(2, 9)]),
        rule("close", &[1], &[3], &[give(2, 7)]),
        rule("between", &[], &[0, 1], &[]),
    ];
    table(3, &rules)
}

#[test]
fn using_only_priorities_written_in_the_masks() {
    let table = night_through_3();
    let mut written = Rules::of(&records(&table));
    written.before = table.precedes();
    assert_eq!(written.grown(0, 1), (Set::from([0]), Set::from([1])));
    assert!(written.commute(0, 1) && written.unordered(0, 2));
    let report = report_on(&table);
    assert_eq!((mark(&report, 0, 1), mark(&report, 0, 2)), (2, 0));

    // The machine's order goes through others too, also when they don't wait.
    let mut state = fresh_with(&table, &[]);
    state.waiting = 0b0101;
    assert_eq!(eligible(&written.before, &state), Set::from([0, 2]));
    assert_eq!(step(&table, &state, 0).0, 14);
    let (_, _, after_run, _) = run(&table, &state, 1);
    assert_eq!(step(&table, &state, 2).2, after_run);
    let ends = explored(&table, &posted_to_zeros(&table, 0, 5)).ends;
    assert_eq!(ends.len(), 2);
}

#[test]
fn waking_rules_for_a_stored_value_equal_to_the_old_one() {
    let ordered = books::ordered();
    let start = fresh_with(&ordered, &[0, 2]);
    let again = posted(&ordered, &start, 0, 0);
    assert_eq!(again.waiting, 0, "the posting changed nothing");
    // 16 / 8 is the 2 that cell 1 already holds.
    let waiting = posted(&ordered, &start, 0, 16);
    let (_, _, same) = step(&ordered, &waiting, 0);
    assert_eq!((same.cells[1], same.waiting), (2, 0));
    let waiting = posted(&ordered, &start, 0, 24);
    let (_, _, other) = step(&ordered, &waiting, 0);
    assert_eq!((other.cells[1], other.waiting), (3, 0b10));
}

#[test]
fn doing_assignments_one_after_another() {
    let swap = books::swap();
    let start = posted(&swap, &fresh_with(&swap, &[3, 4]), 2, 1);
    let (_, _, after) = step(&swap, &start, 0);
    assert_eq!(after.cells[..2], [4, 3]);
    // One after another would give 4 and 4.
    assert_ne!(after.cells[..2], [4, 4]);
}

#[test]
fn storing_some_before_a_fault() {
    let assigns = [give(0, 1), add(1, 1, 1), give(2, 1)];
    let watcher = rule("watcher", &[0, 2], &[], &[]);
    let over = rule("over", &[3], &[], &assigns);
    let table = table(4, &[watcher, over]);
    let start = posted(&table, &fresh_with(&table, &[0, TRILLION]), 3, 1);
    let (_, _, after) = step(&table, &start, 1);
    assert_eq!(after.cells, start.cells);
    assert_eq!((after.waiting, after.faults), (0, 0b10));
    // With room for the sum all three are stored, and the watcher wakes.
    let start = posted(&table, &fresh_with(&table, &[0, TRILLION - 1]), 3, 1);
    let (_, _, after) = step(&table, &start, 1);
    assert_eq!(after.cells[..3], [1, TRILLION, 1]);
    assert_eq!((after.waiting, after.faults), (0b01, 0));
}

#[test]
fn taking_not_cleared_to_mean_that_the_results_differ() {
    let both = |name: &str| rule(name, &[0], &[], &[give(1, 5)]);
    let table = table(2, &[both("one"), both("other")]);
    let report = report_on(&table);
    assert_eq!((report.cleared, report.failing), (false, 1));
    for amount in [-1, 1, 5, TRILLION] {
        let explored = explored(&table, &posted_to_zeros(&table, 0, amount));
        assert!(explored.choice);
        assert_eq!(explored.ends.len(), 1);
    }
}
