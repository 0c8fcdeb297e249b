//! The machine: fresh state, step, posting and run; numbers 11 to 16.

use crate::check::table_is_sound;
use crate::refusal::{given, refuse_when, Refusal, DONE, NO_PLACE};
use crate::sets::{members, with, without, Graph, Set};
use crate::table::{in_range, Assign, Table, Test, MOST_CELLS};

/// "A state is the cells, a mask of waiting rules and a mask of fault marks."
#[derive(Clone, Default, PartialEq, Eq, PartialOrd, Ord, Debug)]
pub struct State {
    pub cells: [i64; MOST_CELLS],
    pub waiting: u32,
    pub faults: u32,
}

/// "A fresh state has any amounts in range, nothing waiting and no fault
/// marks." Refused, a state of zeros.
pub fn fresh(table: &Table, amounts: &[i64; MOST_CELLS]) -> (u8, u8, State) {
    let state = State {
        cells: *amounts,
        waiting: 0,
        faults: 0,
    };
    given(ready(table, &state).map(|()| state), State::default())
}

/// A step on one rule: 11, 12, 13, 14. "A refused step, posting or run gives
/// back the state it was given".
pub fn step(table: &Table, state: &State, rule: u32) -> (u8, u8, State) {
    given(checked_step(table, state, rule as usize), state.clone())
}

/// A posting: 11, 16.
pub fn post(table: &Table, state: &State, cell: u32, value: i64) -> (u8, u8, State) {
    given(
        checked_post(table, state, cell as usize, value),
        state.clone(),
    )
}

/// A run: 11, 15. "Number 15 is no refusal: it gives the state reached and the
/// steps taken." Gives number, place, state and steps.
pub fn run(table: &Table, state: &State, budget: u32) -> (u8, u8, State, u32) {
    if let Err(refusal) = ready(table, state) {
        return (refusal.number, refusal.place, state.clone(), 0);
    }
    let (reached, steps) = run_until(table, state, budget);
    let (number, place) = match reached.waiting {
        0 => DONE,
        _ => (15, NO_PLACE),
    };
    (number, place, reached, steps)
}

/// "A call on a book gives the book's refusal first", then 11.
fn ready(table: &Table, state: &State) -> Result<(), Refusal> {
    table_is_sound(table)?;
    refuse_when(!state_fits(table, state), Refusal::whole(11))
}

/// "Cells from k up are 0. Mask bits from n (the number of rules) up are 0."
/// The cells below k are in range.
pub fn state_fits(table: &Table, state: &State) -> bool {
    let (n, k) = (usize::from(table.n), usize::from(table.k));
    let (used, rest) = state.cells.split_at(k);
    used.iter().all(|&amount| in_range(amount.into()))
        && rest.iter().all(|&amount| amount == 0)
        && members(state.waiting).iter().all(|&rule| rule < n)
        && members(state.faults).iter().all(|&rule| rule < n)
}

fn checked_step(table: &Table, state: &State, rule: usize) -> Result<State, Refusal> {
    ready(table, state)?;
    refuse_when(rule >= usize::from(table.n), Refusal::whole(12))?;
    let waits = members(state.waiting).contains(&rule);
    refuse_when(!waits, Refusal::whole(13))?;
    let may_step = eligible(&table.goes_before(), state).contains(&rule);
    refuse_when(!may_step, Refusal::whole(14))?;
    Ok(stepped(table, state, rule))
}

/// "Posting sets one cell; rules that watch it wait if its value differs from
/// before."
fn checked_post(table: &Table, state: &State, cell: usize, value: i64) -> Result<State, Refusal> {
    ready(table, state)?;
    let accepted = cell < usize::from(table.k) && in_range(value.into());
    refuse_when(!accepted, Refusal::whole(16))?;
    let mut after = state.clone();
    after.cells[cell] = value;
    wake(table, state, &mut after);
    Ok(after)
}

/// "Run takes the lowest-numbered eligible rule until none waits or the budget
/// is used; it reports the steps taken." Of a sound table and a fitting state.
fn run_until(table: &Table, state: &State, budget: u32) -> (State, u32) {
    let before = table.goes_before();
    let mut reached = state.clone();
    let mut steps = 0;
    while steps < budget {
        match eligible(&before, &reached).first() {
            Some(&rule) => reached = stepped(table, &reached, rule),
            None => break,
        }
        steps += 1;
    }
    (reached, steps)
}

/// "A rule is eligible when it waits and no waiting rule goes before it."
/// `before` says for each rule which rules it goes before.
pub fn eligible(before: &Graph, state: &State) -> Set {
    let waiting = members(state.waiting);
    let goes_before = |other: &usize, rule: &usize| before[*other].contains(rule);
    let first = |rule: &usize| !waiting.iter().any(|other| goes_before(other, rule));
    waiting.iter().copied().filter(first).collect()
}

/// "r stops waiting. If any test is false, that is all. Otherwise every right
/// side is worked out from the amounts before the step. If any is out of
/// range, r gets a fault mark and no cell changes. Otherwise all targets are
/// stored together". Of a sound table and a fitting state.
pub fn stepped(table: &Table, state: &State, r: usize) -> State {
    let rule = &table.rules[r];
    let mut after = state.clone();
    after.waiting = without(state.waiting, r);
    let holds = |test: &Test| test_holds(test, &state.cells);
    if !rule.used_tests().iter().all(holds) {
        return after;
    }
    let assigns = rule.used_assigns();
    let work_out = |assign: &Assign| right_side(assign, &state.cells);
    let values: Vec<i128> = assigns.iter().map(work_out).collect();
    if !values.iter().all(|&value| in_range(value)) {
        after.faults = with(state.faults, r);
        return after;
    }
    for (assign, value) in assigns.iter().zip(values) {
        after.cells[usize::from(assign.target)] = value as i64;
    }
    wake(table, state, &mut after);
    after
}

/// "0 equal, 1 unequal, 2 less, 3 at most, 4 more, 5 at least"
fn test_holds(test: &Test, cells: &[i64; MOST_CELLS]) -> bool {
    let left = cells[usize::from(test.left)];
    let right = match test.kind {
        0 => test.constant,
        _ => cells[usize::from(test.right)],
    };
    match test.comparison {
        0 => left == right,
        1 => left != right,
        2 => left < right,
        3 => left <= right,
        4 => left > right,
        _ => left >= right,
    }
}

/// "0 gives K; 1 gives A + K; 2 gives A + B; 3 gives A - B; 4 gives A x p / q,
/// cut toward zero". Exact: amounts and shares are far from the limits of 128
/// bits, and Rust's division cuts toward zero.
fn right_side(assign: &Assign, cells: &[i64; MOST_CELLS]) -> i128 {
    let a = i128::from(cells[usize::from(assign.a)]);
    let b = i128::from(cells[usize::from(assign.b)]);
    let k = i128::from(assign.k);
    match assign.operation {
        0 => k,
        1 => a + k,
        2 => a + b,
        3 => a - b,
        _ => a * i128::from(assign.p) / i128::from(assign.q),
    }
}

/// "each rule that watches a cell whose value now differs from before waits"
fn wake(table: &Table, before: &State, after: &mut State) {
    for (number, rule) in table.used_rules().iter().enumerate() {
        let differs = |cell: &usize| before.cells[*cell] != after.cells[*cell];
        if members(rule.watch).iter().any(differs) {
            after.waiting = with(after.waiting, number);
        }
    }
}
