//! A rule book in memory. A table can hold whatever memory can hold, also
//! counts, codes and slots that no book may have; `check` tells them apart.

use crate::sets::{members, through_others, Graph, Set};

pub const MOST_RULES: usize = 32;
pub const MOST_CELLS: usize = 32;
pub const MOST_TESTS: usize = 8;
pub const MOST_ASSIGNS: usize = 8;
pub const MOST_LETTERS: usize = 16;
/// "The largest book is 9,220 bytes."
pub const MOST_BYTES: usize = 9_220;
/// "whole pence from -1,000,000,000,000 to 1,000,000,000,000"
pub const MOST_AMOUNT: i64 = 1_000_000_000_000;
/// "with p 0 to 1,000,000 and q 1 to 1,000,000"
pub const MOST_SHARE: u32 = 1_000_000;

/// "left cell, comparison, right kind, right cell, constant"
#[derive(Clone, Copy, Default, PartialEq, Eq, Debug)]
pub struct Test {
    pub left: u8,
    pub comparison: u8,
    pub kind: u8,
    pub right: u8,
    pub constant: i64,
}

/// "target, operation, cell A, cell B, constant K, p, q"
#[derive(Clone, Copy, Default, PartialEq, Eq, Debug)]
pub struct Assign {
    pub target: u8,
    pub operation: u8,
    pub a: u8,
    pub b: u8,
    pub k: i64,
    pub p: u32,
    pub q: u32,
}

/// A rule: its two masks, the four count bytes (t, a, m and the zero byte),
/// and the slots that the counts speak of.
#[derive(Clone, Default, PartialEq, Eq, Debug)]
pub struct Rule {
    pub watch: u32,
    pub precedes: u32,
    pub tests: u8,
    pub assigns: u8,
    pub letters: u8,
    pub fourth: u8,
    pub test: [Test; MOST_TESTS],
    pub assign: [Assign; MOST_ASSIGNS],
    pub name: [u8; MOST_LETTERS],
}

/// n rules over k cells.
#[derive(Clone, Default, PartialEq, Eq, Debug)]
pub struct Table {
    pub n: u8,
    pub k: u8,
    pub rules: [Rule; MOST_RULES],
}

/// "A cell holds whole pence from -1,000,000,000,000 to 1,000,000,000,000
/// ("in range")."
pub fn in_range(amount: i128) -> bool {
    let most = i128::from(MOST_AMOUNT);
    -most <= amount && amount <= most
}

impl Test {
    /// "A test's left cell [is] always used; the other cells only as a known
    /// code says": the right cell when the right kind is 1.
    pub fn cells(&self) -> Set {
        let mut cells = Set::from([usize::from(self.left)]);
        if self.kind == 1 {
            cells.insert(usize::from(self.right));
        }
        cells
    }
}

impl Assign {
    /// The cells used on the right side: "0 gives K; 1 gives A + K; 2 gives
    /// A + B; 3 gives A - B; 4 gives A x p / q"; an unknown code uses none.
    pub fn right_side_cells(&self) -> Set {
        let (a, b) = (usize::from(self.a), usize::from(self.b));
        match self.operation {
            1 | 4 => Set::from([a]),
            2 | 3 => Set::from([a, b]),
            _ => Set::new(),
        }
    }
}

impl Rule {
    /// The tests that count. Where t is out of bounds, all slots.
    pub fn used_tests(&self) -> &[Test] {
        &self.test[..usize::from(self.tests).min(MOST_TESTS)]
    }

    /// The assignments that count. Where a is out of bounds, all slots.
    pub fn used_assigns(&self) -> &[Assign] {
        &self.assign[..usize::from(self.assigns).min(MOST_ASSIGNS)]
    }

    /// The letters that count. Where m is out of bounds, all slots.
    pub fn used_letters(&self) -> &[u8] {
        &self.name[..usize::from(self.letters).min(MOST_LETTERS)]
    }

    /// "Reads: all cells used in tests and on right sides."
    pub fn reads(&self) -> Set {
        let tested = self.used_tests().iter().flat_map(Test::cells);
        let taken = self
            .used_assigns()
            .iter()
            .flat_map(Assign::right_side_cells);
        tested.chain(taken).collect()
    }

    /// "Writes: all targets."
    pub fn writes(&self) -> Set {
        let targets = self.used_assigns().iter().map(|assign| assign.target);
        targets.map(usize::from).collect()
    }
}

impl Table {
    /// "an empty table of zeros"
    pub fn empty() -> Table {
        Table::default()
    }

    /// The rules that count. Where n is out of bounds, all slots.
    pub fn used_rules(&self) -> &[Rule] {
        &self.rules[..usize::from(self.n).min(MOST_RULES)]
    }

    /// For each rule, the rules that its precedes mask names.
    pub fn precedes(&self) -> Graph {
        let masks = self.used_rules().iter().map(|rule| rule.precedes);
        masks.map(members).collect()
    }

    /// "r goes before s when r's precedes mask names s, directly or through
    /// others."
    pub fn goes_before(&self) -> Graph {
        through_others(&self.precedes())
    }
}
