//! All permitted orders of a small book, one after another: what demand 3
//! speaks of, tried out instead of proved.

use crate::machine::{eligible, stepped, State};
use crate::table::{Table, MOST_CELLS};
use std::collections::BTreeSet;

/// How an order ends: the cells and the fault marks.
pub type End = ([i64; MOST_CELLS], u32);

/// What all permitted orders from one state come to.
#[derive(Clone, Default, PartialEq, Eq, Debug)]
pub struct Explored {
    /// The ends of all orders that end.
    pub ends: BTreeSet<End>,
    /// The steps of the shortest and of the longest order.
    pub shortest: u32,
    pub longest: u32,
    /// Some state has rules waiting and none eligible.
    pub stuck: bool,
    /// Some state has more than one eligible rule.
    pub choice: bool,
    /// Every order was followed to its end, within the limits given.
    pub complete: bool,
}

/// Follows every order at once: the states that some order reaches after 0,
/// 1, 2 .. steps. Of a sound table and a fitting state; stops unfinished after
/// `most_steps` steps or when more than `most_states` states were seen.
pub fn explore(table: &Table, state: &State, most_steps: u32, most_states: usize) -> Explored {
    let before = table.goes_before();
    let mut explored = Explored::default();
    let mut level = BTreeSet::from([state.clone()]);
    let mut seen = 0;
    for steps in 0..=most_steps {
        let mut next = BTreeSet::new();
        for state in &level {
            let rules = eligible(&before, state);
            explored.stuck |= rules.is_empty() && state.waiting != 0;
            explored.choice |= rules.len() > 1;
            if state.waiting == 0 {
                explored.end(state, steps);
            }
            next.extend(rules.iter().map(|&rule| stepped(table, state, rule)));
        }
        seen += level.len();
        if next.is_empty() {
            explored.complete = true;
        }
        if next.is_empty() || seen > most_states {
            break;
        }
        level = next;
    }
    explored
}

impl Explored {
    fn end(&mut self, state: &State, steps: u32) {
        if self.ends.is_empty() {
            self.shortest = steps;
        }
        self.longest = steps;
        self.ends.insert((state.cells, state.faults));
    }
}
