//! Demand 3 by trying every permitted order of small books.

use crate::common::{fresh_with, posted_to_zeros, report_on, unordered_pairs};
use second::analysis::{bound, records, Rules};
use second::books;
use second::explore::{explore, Explored};
use second::generate;
use second::machine::{eligible, run, stepped, State};
use second::sets::members;
use second::table::Table;

/// So many cleared books are tried in which some rule may trigger another,
/// some rule goes before another, something waits and there is more than one
/// order.
const TRIED: usize = 10_000;

/// Follows every order to its end; the step bound is never exceeded.
fn every_order(table: &Table, state: &State) -> Explored {
    let (_, _, steps) = bound(table, state.waiting);
    let explored = explore(table, state, steps, 1_000_000);
    assert!(explored.complete, "an order takes more than {steps} steps");
    assert!(!explored.stuck, "rules wait and none is eligible");
    explored
}

/// Demand 3 for one cleared book and one state.
fn one_end(table: &Table, state: &State) -> Explored {
    let explored = every_order(table, state);
    assert_eq!(explored.ends.len(), 1, "{table:?}\n{state:?}");
    let (_, _, budget) = bound(table, state.waiting);
    let (number, _, end, steps) = run(table, state, budget);
    assert_eq!((number, end.waiting), (0, 0));
    assert!(explored.ends.contains(&(end.cells, end.faults)));
    // Both ways round a pair that passes step the same rules, so all orders
    // are equally long.
    assert_eq!([explored.shortest, explored.longest], [steps; 2]);
    explored
}

#[derive(Default)]
struct Counts {
    books: usize,
    grown: usize,
    faults: usize,
    woken: usize,
}

impl Counts {
    fn add(&mut self, rules: &Rules, state: &State, explored: &Explored) {
        let grows = |(i, j)| {
            let (r1, r2) = rules.grown(i, j);
            r1.len() + r2.len() > 2
        };
        let waiting = members(state.waiting).len();
        self.books += 1;
        self.grown += usize::from(unordered_pairs(rules).into_iter().any(grows));
        self.faults += usize::from(explored.ends.iter().any(|end| end.1 != state.faults));
        self.woken += usize::from(explored.longest as usize > waiting);
    }
}

#[test]
fn cleared_books_have_one_end() {
    let mut counts = Counts::default();
    for seed in 0..200_000 {
        let table = generate::small_table(seed);
        let rules = Rules::of(&records(&table));
        let triggers = rules.triggers.iter().any(|set| !set.is_empty());
        let priorities = rules.before.iter().any(|set| !set.is_empty());
        if !triggers || !priorities || !report_on(&table).cleared {
            continue;
        }
        let state = generate::state(seed, &table);
        let explored = one_end(&table, &state);
        if state.waiting != 0 && explored.choice {
            counts.add(&rules, &state, &explored);
        }
        if counts.books == TRIED {
            break;
        }
    }
    // What makes the claim worth trying has to occur: pairs whose sets grow,
    // fault marks set on the way, rules woken on the way.
    assert_eq!(counts.books, TRIED);
    assert!(counts.woken >= 4_000, "{} woken", counts.woken);
    assert!(counts.faults >= 2_000, "{} faults", counts.faults);
    assert!(counts.grown >= 500, "{} grown", counts.grown);
}

/// The explorer tells a wrong analysis from the right one: among the books
/// that would pass if R1 and R2 never grew, it finds some with two ends.
#[test]
fn books_that_only_the_shortcut_clears_have_two_ends() {
    let passes_ungrown = |table: &Table| {
        let rules = Rules::of(&records(table));
        let mut pairs = unordered_pairs(&rules).into_iter();
        pairs.all(|(i, j)| rules.commute(i, j))
    };
    let (mut books, mut two_ends) = (0, 0);
    for seed in 0..10_000 {
        let table = generate::small_table(seed);
        if passes_ungrown(&table) && !report_on(&table).cleared {
            let ends = every_order(&table, &generate::state(seed, &table)).ends;
            books += 1;
            two_ends += usize::from(ends.len() > 1);
        }
    }
    assert!(books >= 200, "{books} books");
    assert!(two_ends >= 10, "{two_ends} of {books} books");
}

#[test]
fn some_books_that_are_not_cleared_have_two_ends() {
    let differs = |seed: &u64| {
        let table = generate::small_table(*seed);
        let state = generate::state(*seed, &table);
        !report_on(&table).cleared && every_order(&table, &state).ends.len() > 1
    };
    assert!((0..2_000).filter(differs).count() >= 20);
}

#[test]
fn night_book_has_two_ends_after_three_steps_each() {
    let night = books::night();
    let explored = every_order(&night, &posted_to_zeros(&night, 0, 5));
    let last: Vec<i64> = explored.ends.iter().map(|end| end.0[2]).collect();
    assert_eq!(last, [7, 9]);
    assert_eq!((explored.shortest, explored.longest), (3, 3));
}

#[test]
fn example_4_2_ends_with_76_or_77() {
    let raise = books::raise();
    let mut state = fresh_with(&raise, &[101, 60, 14]);
    state.waiting = 0b011;
    let explored = every_order(&raise, &state);
    let salaries: Vec<i64> = explored.ends.iter().map(|end| end.0[1]).collect();
    assert_eq!(salaries, [76, 77]);
}

#[test]
fn examples_4_3_and_4_4_have_one_end() {
    let display = books::display();
    let mut state = fresh_with(&display, &[51, 60, 15]);
    state.waiting = 0b111;
    let explored = one_end(&display, &state);
    assert_eq!(explored.ends.first().map(|end| end.0[1]), Some(76));
    let bonus = books::bonus();
    let mut state = fresh_with(&bonus, &[51, 60, 14, 101]);
    state.waiting = 0b011;
    let explored = one_end(&bonus, &state);
    assert!(explored.choice);
    let end = explored.ends.first().map(|end| end.0[1..3].to_vec());
    assert_eq!(end, Some(vec![70, 15]));
}

#[test]
fn the_step_bound_is_reached() {
    let stairs = books::stairs(5);
    let mut state = fresh_with(&stairs, &[]);
    state.waiting = 0b11111;
    let explored = every_order(&stairs, &state);
    assert_eq!((explored.longest, bound(&stairs, 0b11111).2), (31, 31));
    assert_eq!(explored.shortest, 5);
}

#[test]
fn run_takes_the_lowest_eligible_rule() {
    for seed in 0..2_000 {
        let table = generate::table(seed);
        let state = generate::state(seed, &table);
        let (number, place, reached, steps) = run(&table, &state, 10);
        let mut expected = state.clone();
        for _ in 0..steps {
            let rules = eligible(&table.goes_before(), &expected);
            let lowest = rules.first().expect("a step with nothing eligible");
            expected = stepped(&table, &expected, *lowest);
        }
        assert_eq!(reached, expected);
        let number_due = if reached.waiting == 0 { 0 } else { 15 };
        assert_eq!((number, place), (number_due, 255));
        assert!(steps == 10 || number == 0);
    }
}
