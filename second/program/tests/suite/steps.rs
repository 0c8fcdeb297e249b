//! What one step and one posting do, field by field.

use crate::common::{fresh_with, posted, DONE, TRILLION};
use second::compose::{
    add, difference, give, rule, share, sum, table, tested, with_cell, with_constant, AT_LEAST,
    AT_MOST, EQUAL, LESS, MORE, UNEQUAL,
};
use second::machine::{step, State};
use second::table::{Assign, Table, Test};

/// Steps rule 0, which waits, from these first cells.
fn after_step(table: &Table, first_cells: &[i64]) -> State {
    let mut state = fresh_with(table, first_cells);
    state.waiting = 1;
    let (number, place, after) = step(table, &state, 0);
    assert_eq!((number, place), DONE);
    after
}

/// What an assignment to cell 2 stores, from cells 0 and 1; none for a fault.
fn stored(assign: Assign, a: i64, b: i64) -> Option<i64> {
    let table = table(3, &[rule("r", &[], &[], &[assign])]);
    let after = after_step(&table, &[a, b, 77]);
    assert_eq!(after.cells[..2], [a, b]);
    assert_eq!(after.waiting, 0);
    match after.faults {
        0 => Some(after.cells[2]),
        _ => {
            assert_eq!((after.faults, after.cells[2]), (1, 77));
            None
        }
    }
}

/// Whether a rule with this test acts, from cells 0 and 1.
fn holds(test: Test, left: i64, right: i64) -> bool {
    let rule = tested(rule("r", &[], &[], &[give(2, 1)]), &[test]);
    let after = after_step(&table(3, &[rule]), &[left, right]);
    assert_eq!((after.waiting, after.faults), (0, 0));
    after.cells[2] == 1
}

#[test]
fn comparisons() {
    // For each: whether it holds of less, of equal and of more.
    for (comparison, expected) in [
        (EQUAL, [false, true, false]),
        (UNEQUAL, [true, false, true]),
        (LESS, [true, false, false]),
        (AT_MOST, [true, true, false]),
        (MORE, [false, false, true]),
        (AT_LEAST, [false, true, true]),
    ] {
        for middle in [-5, 0, 5] {
            let lefts = [middle - 1, middle, middle + 1];
            let constant = with_constant(0, comparison, middle);
            assert_eq!(lefts.map(|left| holds(constant, left, 3)), expected);
            let cell = with_cell(0, comparison, 1);
            assert_eq!(lefts.map(|left| holds(cell, left, middle)), expected);
        }
    }
}

#[test]
fn operations() {
    assert_eq!(stored(give(2, -8), 5, 6), Some(-8));
    assert_eq!(stored(add(2, 0, -8), 5, 6), Some(-3));
    assert_eq!(stored(add(2, 1, -8), 5, 6), Some(-2));
    assert_eq!(stored(sum(2, 0, 1), 5, -6), Some(-1));
    assert_eq!(stored(difference(2, 0, 1), 5, -6), Some(11));
    assert_eq!(stored(difference(2, 1, 0), 5, -6), Some(-11));
    assert_eq!(stored(share(2, 1, 2, 3), 5, -7), Some(-4));
    assert_eq!(stored(share(2, 0, 0, 3), 5, -7), Some(0));
}

#[test]
fn operations_at_the_limits() {
    for limit in [TRILLION, -TRILLION] {
        let one = limit.signum();
        assert_eq!(stored(add(2, 0, limit), 0, 0), Some(limit));
        assert_eq!(stored(add(2, 0, limit), one, 0), None);
        assert_eq!(stored(sum(2, 0, 1), limit - one, one), Some(limit));
        assert_eq!(stored(sum(2, 0, 1), limit, one), None);
        assert_eq!(stored(sum(2, 0, 1), limit, limit), None);
        assert_eq!(stored(difference(2, 0, 1), limit, 0), Some(limit));
        assert_eq!(stored(difference(2, 0, 1), limit, -one), None);
        let (most, less) = (1_000_000, 999_999);
        assert_eq!(stored(share(2, 0, most, most), limit, 0), Some(limit));
        assert_eq!(stored(share(2, 0, most, less), limit, 0), None);
        assert_eq!(stored(share(2, 0, most, 1), limit, 0), None);
        // A product beyond the range is no fault when the share is within.
        assert_eq!(
            stored(share(2, 0, most, 1), one * most as i64, 0),
            Some(limit)
        );
        let over = one * (most as i64 + 1);
        assert_eq!(stored(share(2, 0, most, 1), over, 0), None);
    }
}

#[test]
fn every_test_has_to_hold() {
    let tests = [with_constant(0, MORE, 0), with_constant(1, MORE, 0)];
    let rule = tested(rule("r", &[], &[], &[give(2, 1)]), &tests);
    let table = table(3, &[rule]);
    for (cells, expected) in [([1, 1], 1), ([1, 0], 0), ([0, 1], 0), ([0, 0], 0)] {
        assert_eq!(after_step(&table, &cells).cells[2], expected);
    }
}

#[test]
fn tests_see_the_amounts_before_the_step_and_a_false_one_hides_a_fault() {
    let over = add(0, 0, TRILLION);
    let rule = tested(rule("r", &[], &[], &[over]), &[with_constant(0, EQUAL, 0)]);
    let table = table(1, &[rule]);
    assert_eq!(after_step(&table, &[0]).cells[0], TRILLION);
    let unchanged = after_step(&table, &[1]);
    assert_eq!((unchanged.cells[0], unchanged.faults), (1, 0));
}

#[test]
fn who_wakes() {
    let rules = [
        rule("itself", &[0, 1], &[], &[give(1, 5), give(2, 6)]),
        rule("both", &[1, 2], &[], &[]),
        rule("second", &[2], &[], &[]),
        rule("neither", &[0, 3], &[], &[]),
    ];
    let table = table(4, &rules);
    assert_eq!(after_step(&table, &[0, 0, 0]).waiting, 0b0111);
    assert_eq!(after_step(&table, &[0, 5, 0]).waiting, 0b0110);
    assert_eq!(after_step(&table, &[0, 0, 6]).waiting, 0b0011);
    assert_eq!(after_step(&table, &[0, 5, 6]).waiting, 0);
}

#[test]
fn waiting_rules_and_fault_marks_stay() {
    let over = rule("over", &[], &[], &[add(0, 0, TRILLION)]);
    let other = rule("other", &[1], &[], &[]);
    let table = table(2, &[over, other]);
    let mut state = fresh_with(&table, &[1, 0]);
    (state.waiting, state.faults) = (0b11, 0b10);
    let (_, _, after) = step(&table, &state, 0);
    assert_eq!((after.waiting, after.faults), (0b10, 0b11));
    // A later step without a fault leaves the mark.
    (state.cells[0], state.faults) = (0, 0b01);
    let (_, _, after) = step(&table, &state, 0);
    assert_eq!((after.cells[0], after.faults), (TRILLION, 0b01));
}

#[test]
fn postings_wake_the_watchers_of_one_cell_and_wake_nobody_twice() {
    let rules = [rule("a", &[0], &[], &[]), rule("b", &[0, 1], &[], &[])];
    let table = table(2, &rules);
    let start = fresh_with(&table, &[3, 4]);
    assert_eq!(posted(&table, &start, 0, 3), start);
    assert_eq!(posted(&table, &start, 1, 5).waiting, 0b10);
    let there = posted(&table, &start, 0, 9);
    assert_eq!(
        (there.cells[..2].to_vec(), there.waiting),
        (vec![9, 4], 0b11)
    );
    // Edition 1 doesn't go by net effect: back again, and both still wait.
    let back = posted(&table, &there, 0, 3);
    assert_eq!((back.cells, back.waiting), (start.cells, 0b11));
}
