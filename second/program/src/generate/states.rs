//! States that fit a table and states that don't, and what to call with.

use super::random::Random;
use super::sound::amount;
use crate::machine::State;
use crate::sets::{mask_below, with};
use crate::table::{Table, MOST_AMOUNT, MOST_CELLS, MOST_RULES};

/// A state that fits the table; where n or k is out of bounds, one that would
/// fit the largest book.
pub fn state(seed: u64, table: &Table) -> State {
    let random = &mut Random::new(seed);
    let rules = mask_below(table.used_rules().len());
    let mut state = State::default();
    for cell in 0..usize::from(table.k).min(MOST_CELLS) {
        state.cells[cell] = amount(random);
    }
    state.waiting = rules & some_mask(random);
    state.faults = rules & some_mask(random);
    state
}

fn some_mask(random: &mut Random) -> u32 {
    let percent = random.pick(&[0, 5, 50, 100]);
    let numbers = random.some_below(32, percent);
    numbers.into_iter().fold(0, with)
}

/// A state with one thing wrong, where the table leaves room for it: a cell, a
/// waiting bit or a fault mark.
pub fn unfitting_state(seed: u64, table: &Table) -> State {
    let mut state = state(seed, table);
    let random = &mut Random::new(!seed);
    let (n, k) = (usize::from(table.n), usize::from(table.k));
    match random.below(3) {
        0 if n < MOST_RULES => state.waiting = with(state.waiting, random.between(n, 31)),
        1 if n < MOST_RULES => state.faults = with(state.faults, random.between(n, 31)),
        _ => {
            let cell = random.below(MOST_CELLS);
            let outside = [MOST_AMOUNT + 1, -MOST_AMOUNT - 1, i64::MAX, i64::MIN];
            let filled = [1, -1, MOST_AMOUNT, i64::MIN];
            state.cells[cell] = random.pick(if cell < k { &outside } else { &filled });
        }
    }
    state
}

/// What the calls on a table take beside it and a state.
#[derive(Clone, Copy, PartialEq, Eq, Debug)]
pub struct Calls {
    /// A rule to step.
    pub rule: u32,
    /// A cell and a value to post.
    pub cell: u32,
    pub value: i64,
    /// A budget to run with.
    pub budget: u32,
    /// A set to ask the step bound of.
    pub set: u32,
}

/// Calls that mostly fit the table, and the nearest that don't.
pub fn calls(seed: u64, table: &Table) -> Calls {
    let random = &mut Random::new(seed);
    let (n, k) = (usize::from(table.n), usize::from(table.k));
    let number = |random: &mut Random, count: usize| match random.below(8) {
        0 => count as u32,
        1 => random.pick(&[31, 32, 33, 255, 256, u32::MAX]),
        _ => random.below(count.max(1)) as u32,
    };
    let rules = mask_below(table.used_rules().len());
    let free = some_mask(random);
    let within = free & rules;
    Calls {
        rule: number(random, n),
        cell: number(random, k),
        value: match random.below(8) {
            0 => random.pick(&[MOST_AMOUNT + 1, -MOST_AMOUNT - 1, i64::MAX, i64::MIN]),
            _ => amount(random),
        },
        budget: random.pick(&[0, 1, 2, 3, 5, 10, 30, 100]),
        set: random.pick(&[within, within, rules, 0, free]),
    }
}
