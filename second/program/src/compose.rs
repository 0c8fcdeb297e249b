//! Putting tables together by hand: one word for each thing the paper names.

use crate::sets::{mask_of, Set};
use crate::table::{Assign, Rule, Table, Test};

/// The numbers of the six comparisons.
pub const EQUAL: u8 = 0;
pub const UNEQUAL: u8 = 1;
pub const LESS: u8 = 2;
pub const AT_MOST: u8 = 3;
pub const MORE: u8 = 4;
pub const AT_LEAST: u8 = 5;

/// A table of these rules over k cells.
pub fn table(k: u8, rules: &[Rule]) -> Table {
    let mut table = Table::empty();
    table.n = rules.len() as u8;
    table.k = k;
    table.rules[..rules.len()].clone_from_slice(rules);
    table
}

/// A rule that watches these cells, goes before these rules and makes these
/// assignments.
pub fn rule(name: &str, watch: &[usize], precedes: &[usize], assigns: &[Assign]) -> Rule {
    let mut rule = Rule {
        watch: mask(watch),
        precedes: mask(precedes),
        assigns: assigns.len() as u8,
        letters: name.len() as u8,
        ..Rule::default()
    };
    rule.assign[..assigns.len()].copy_from_slice(assigns);
    rule.name[..name.len()].copy_from_slice(name.as_bytes());
    rule
}

/// The rule with these tests.
pub fn tested(mut rule: Rule, tests: &[Test]) -> Rule {
    rule.tests = tests.len() as u8;
    rule.test[..tests.len()].copy_from_slice(tests);
    rule
}

/// The mask of these numbers.
pub fn mask(numbers: &[usize]) -> u32 {
    mask_of(&numbers.iter().copied().collect::<Set>())
}

/// Compares a cell with a constant.
pub fn with_constant(left: u8, comparison: u8, constant: i64) -> Test {
    Test {
        left,
        comparison,
        kind: 0,
        right: 0,
        constant,
    }
}

/// Compares a cell with a cell.
pub fn with_cell(left: u8, comparison: u8, right: u8) -> Test {
    Test {
        left,
        comparison,
        kind: 1,
        right,
        constant: 0,
    }
}

/// "0 gives K"
pub fn give(target: u8, k: i64) -> Assign {
    Assign {
        target,
        k,
        ..Assign::default()
    }
}

/// "1 gives A + K"
pub fn add(target: u8, a: u8, k: i64) -> Assign {
    Assign {
        target,
        operation: 1,
        a,
        k,
        ..Assign::default()
    }
}

/// "2 gives A + B"
pub fn sum(target: u8, a: u8, b: u8) -> Assign {
    Assign {
        target,
        operation: 2,
        a,
        b,
        ..Assign::default()
    }
}

/// "3 gives A - B"
pub fn difference(target: u8, a: u8, b: u8) -> Assign {
    Assign {
        target,
        operation: 3,
        a,
        b,
        ..Assign::default()
    }
}

/// "4 gives A x p / q"
pub fn share(target: u8, a: u8, p: u32, q: u32) -> Assign {
    Assign {
        target,
        operation: 4,
        a,
        p,
        q,
        ..Assign::default()
    }
}
