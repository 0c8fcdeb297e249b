//! Fresh states, steps, postings and runs: states that fit and states that
//! don't, amounts near both limits, tables that are refused.

use crate::tally::Tally;
use compare::answers::Answers;
use compare::tables::OnTable;
use second::books::night;
use second::generate::{calls, small_table, spoil, state, table, unfitting_state, Calls, Random};
use second::machine::State;
use second::sets::members;
use second::table::Table;
use std::cell::RefCell;

const SCENES: u64 = 20_000;
const STEPS_EACH: usize = 5;

/// Mostly a small table, now and then one of any size or one that is refused.
fn any_table(random: &mut Random) -> Table {
    match random.below(10) {
        0 => table(random.bits()),
        1 => {
            let mut spoiled = small_table(random.bits());
            spoil(random, &mut spoiled);
            spoiled
        }
        _ => small_table(random.bits()),
    }
}

fn any_state(random: &mut Random, table: &Table) -> State {
    match random.below(10) {
        0 => unfitting_state(random.bits(), table),
        _ => state(random.bits(), table),
    }
}

/// A table, a state and what to call with, from a seed.
pub fn scene(seed: u64) -> (Random, Table, State, Calls) {
    let mut random = Random::new(seed);
    let table = any_table(&mut random);
    let state = any_state(&mut random, &table);
    let calls = calls(random.bits(), &table);
    (random, table, state, calls)
}

#[test]
fn fresh_states() {
    let mut tally = Tally::new("fresh states");
    compare_fresh(None, &mut tally, SCENES);
    tally.close(20_000, &[0, 6, 7, 11], 50);
}

pub fn compare_fresh(answers: Option<&RefCell<Answers>>, tally: &mut Tally, scenes: u64) {
    for seed in 0..scenes {
        let (_, table, state, _) = scene(seed);
        tally.add(OnTable::new(&table, answers).fresh(&state.cells));
    }
}

#[test]
fn steps() {
    let mut tally = Tally::new("steps");
    compare_steps(None, &mut tally, SCENES);
    tally.close(100_000, &[0, 6, 7, 11, 12, 13, 14], 100);
}

/// Some steps one after another, mostly on a waiting rule; a new state where
/// none waits.
pub fn compare_steps(answers: Option<&RefCell<Answers>>, tally: &mut Tally, scenes: u64) {
    for seed in 0..scenes {
        let (mut random, table, mut state, _) = scene(seed);
        let both = OnTable::new(&table, answers);
        for _ in 0..STEPS_EACH {
            if state.waiting == 0 {
                state = any_state(&mut random, &table);
            }
            let waiting: Vec<usize> = members(state.waiting).into_iter().collect();
            let rule = match waiting.is_empty() || random.chance(30) {
                true => calls(random.bits(), &table).rule,
                false => random.pick(&waiting) as u32,
            };
            let (given, after) = both.step(&state, rule);
            tally.add(given);
            state = after;
        }
    }
}

#[test]
fn postings() {
    let mut tally = Tally::new("postings");
    compare_postings(None, &mut tally, SCENES);
    tally.close(20_000, &[0, 6, 7, 11, 16], 50);
}

pub fn compare_postings(answers: Option<&RefCell<Answers>>, tally: &mut Tally, scenes: u64) {
    for seed in 0..scenes {
        let (_, table, state, calls) = scene(seed);
        let (given, _) = OnTable::new(&table, answers).post(&state, calls.cell, calls.value);
        tally.add(given);
    }
}

#[test]
fn runs() {
    let mut tally = Tally::new("runs");
    compare_runs(None, &mut tally, SCENES);
    tally.close(20_000, &[0, 6, 7, 11, 15], 50);
}

/// A table that ends may have the largest budget.
pub fn compare_runs(answers: Option<&RefCell<Answers>>, tally: &mut Tally, scenes: u64) {
    for seed in 0..scenes {
        let (mut random, table, state, calls) = scene(seed);
        let ends = second::analysis::bound(&table, 0).0 == 0;
        let budget = match random.below(4) {
            0 if ends => u32::MAX,
            1 => random.below(300) as u32,
            _ => calls.budget,
        };
        let (given, _) = OnTable::new(&table, answers).run(&state, budget);
        tally.add(given);
    }
}

/// "From zeros, post 5 to cell 0: starting with 0, cell 2 ends 9; starting with
/// 1, it ends 7. Three steps each."
#[test]
fn the_night_book() {
    let night = night();
    let both = OnTable::new(&night, None);
    let (_, posted) = both.post(&State::default(), 0, 5);
    for (first, ends) in [(0, 9), (1, 7)] {
        let (_, after) = both.step(&posted, first);
        let (given, reached) = both.run(&after, 2);
        assert_eq!((given, reached.cells[2]), ((0, 255), ends));
    }
    // "Stepping a rule that isn't waiting: 13, even if a waiting rule goes before it."
    let (_, held) = both.step(&posted, 0);
    assert_eq!(both.step(&held, 0).0, (13, 255));
    assert_eq!(both.step(&held, 1).0, (14, 255));
    assert_eq!(both.run(&posted, 2).0, (15, 255));
    assert_eq!(both.step(&posted, 256).0, (12, 255));
    assert_eq!(both.post(&posted, 256, 1).0, (16, 255));
}
