//! The largest table and its book of 9,220 bytes.

use second::compose::{
    add, difference, give, rule, share, sum, table, tested, with_cell, with_constant,
};
use second::table::{Assign, Rule, Table, Test, MOST_AMOUNT, MOST_SHARE};
use second::write::bytes_of;

/// 32 rules over 32 cells, each with 8 tests, 8 assignments and 16 letters: all
/// comparisons, both kinds and all operations. Rule i goes before the later
/// ones; the names differ in their last letters.
pub fn full_table() -> Table {
    let rules: Vec<Rule> = (0..32).map(full_rule).collect();
    table(32, &rules)
}

pub fn full_book() -> Vec<u8> {
    bytes_of(&full_table())
}

fn full_rule(number: usize) -> Rule {
    let name = format!("the-full-rule-{number:02}");
    let watch: Vec<usize> = (0..32).collect();
    let later: Vec<usize> = (number + 1..32).collect();
    let assigns: Vec<Assign> = (0..8).map(|slot| assign(number, slot)).collect();
    let tests: Vec<Test> = (0..8).map(|slot| test(number, slot)).collect();
    tested(rule(&name, &watch, &later, &assigns), &tests)
}

fn test(number: usize, slot: usize) -> Test {
    let (left, right) = (number as u8, slot as u8);
    match slot % 2 {
        0 => with_constant(left, right % 6, MOST_AMOUNT - 1 - number as i64),
        _ => with_cell(left, right % 6, right),
    }
}

fn assign(number: usize, slot: usize) -> Assign {
    let target = ((number + slot) % 32) as u8;
    let (a, b) = (number as u8, slot as u8);
    match slot % 5 {
        0 => give(target, -MOST_AMOUNT),
        1 => add(target, a, number as i64),
        2 => sum(target, a, b),
        3 => difference(target, a, b),
        _ => share(target, a, MOST_SHARE, 1 + number as u32),
    }
}
