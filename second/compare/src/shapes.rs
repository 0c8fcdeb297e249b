//! Tables of so many rules, on which times are taken and long runs compared.

use crate::full::full_table;
use second::compose::{add, mask, rule, table};
use second::sets::mask_below;
use second::table::{Rule, Table};

/// The largest table, cut to its first rules.
pub fn full(count: usize) -> Table {
    let mut table = full_table();
    table.n = count as u8;
    table.rules[count..].fill(Rule::default());
    for rule in &mut table.rules {
        rule.precedes &= mask_below(count);
    }
    table
}

/// The same with other priorities: a rule goes before those half of the rules
/// and more after it, so that most pairs are unordered and grow.
pub fn dense(count: usize) -> Table {
    let mut table = full(count);
    for (number, rule) in table.rules[..count].iter_mut().enumerate() {
        let later: Vec<usize> = (number + count / 2..count).collect();
        rule.precedes = mask(&later);
    }
    table
}

/// Each rule but the last watches a cell and adds to the next one, so that it
/// wakes the next rule; the last one is never woken.
pub fn chain(count: usize) -> Table {
    let link = |i: usize| {
        let (name, next) = (format!("link-{i}"), i as u8 + 1);
        match i + 1 == count {
            true => rule(&name, &[], &[], &[]),
            false => rule(&name, &[i], &[], &[add(next, next, 1)]),
        }
    };
    let rules: Vec<Rule> = (0..count).map(link).collect();
    table(count as u8, &rules)
}

/// The staircase upside down: rule i adds to cell i and watches all higher
/// cells, so that the lowest rule is woken again and again. From all rules
/// waiting a run takes as many steps as the bound says.
pub fn upside_down(count: usize) -> Table {
    let stair = |i: usize| {
        let higher: Vec<usize> = (i + 1..count).collect();
        let cell = i as u8;
        rule(&format!("stair-{i}"), &higher, &[], &[add(cell, cell, 1)])
    };
    let rules: Vec<Rule> = (0..count).map(stair).collect();
    table(count as u8, &rules)
}

/// The table in which each rule goes before the next one.
pub fn with_priorities(mut table: Table) -> Table {
    let count = usize::from(table.n);
    for (number, rule) in table.rules[..count].iter_mut().enumerate() {
        let next: Vec<usize> = (number + 1..count).take(1).collect();
        rule.precedes = mask(&next);
    }
    table
}

/// The table whose last rule watches cell 0 too: turned round like this, a
/// staircase has no end.
pub fn without_end(mut table: Table) -> Table {
    let last = usize::from(table.n) - 1;
    table.rules[last].watch |= 1;
    table
}
