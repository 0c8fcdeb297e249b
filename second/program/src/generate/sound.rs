//! Sound tables: sparse and dense, with cycles and without, cleared and not.

use super::random::Random;
use crate::analysis::{pairs, records, report, Rules};
use crate::compose::{add, difference, give, mask, share, sum, with_cell, with_constant};
use crate::sets::with;
use crate::table::{
    Assign, Rule, Table, Test, MOST_AMOUNT, MOST_ASSIGNS, MOST_CELLS, MOST_LETTERS, MOST_RULES,
    MOST_SHARE, MOST_TESTS,
};

/// What a table shall look like: counts from fewest to most, chances in a
/// hundred.
struct Shape {
    rules: usize,
    cells: usize,
    tests: (usize, usize),
    assigns: (usize, usize),
    letters: &'static [usize],
    watch: usize,
    precedes: usize,
    /// The trigger graph gets no cycle.
    ends: bool,
    ordering: Ordering,
}

/// Which pairs get an order beside those that chance gave one.
#[derive(Clone, Copy, PartialEq)]
enum Ordering {
    Chance,
    /// Pairs that don't commute: books like the night book, where only grown
    /// R1 and R2 tell.
    Clashing,
    /// Failing pairs, until none is left.
    Failing,
}

/// A hidden order of rules and cells. With `ends`, a rule watches only cells
/// below it and writes only others, so triggering leads upward; a rule goes
/// before only rules of a later turn, so the priorities have no cycle.
struct Ranks {
    rule: Vec<usize>,
    cell: Vec<usize>,
    turn: Vec<usize>,
}

/// A sound table of any size.
pub fn table(seed: u64) -> Table {
    let random = &mut Random::new(seed);
    let shape = if random.chance(3) {
        full_shape(random)
    } else {
        any_shape(random)
    };
    shaped(random, &shape)
}

/// A sound table without a cycle, small enough that all its orders can be
/// tried.
pub fn small_table(seed: u64) -> Table {
    let random = &mut Random::new(seed);
    let shape = Shape {
        rules: random.between(3, 6),
        cells: random.between(3, 14),
        tests: (0, random.pick(&[0, 0, 1, 2])),
        assigns: (1, random.pick(&[1, 1, 2, 3])),
        letters: ANY_LENGTH,
        watch: random.pick(&[25, 50, 75]),
        precedes: random.pick(&[0, 20, 40, 60]),
        ends: true,
        ordering: any_ordering(random),
    };
    shaped(random, &shape)
}

fn any_shape(random: &mut Random) -> Shape {
    Shape {
        rules: random.pick(&[0, 1, 2, 3, 4, 5, 6, 8, 12, 20, 31, MOST_RULES]),
        cells: random.pick(&[1, 2, 3, 5, 8, 13, 21, 31, MOST_CELLS, MOST_CELLS]),
        tests: (0, random.pick(&[0, 1, 2, MOST_TESTS])),
        assigns: random.pick(&[(0, 1), (1, 1), (1, 2), (0, MOST_ASSIGNS)]),
        letters: ANY_LENGTH,
        watch: random.pick(&[2, 5, 10, 30, 70, 100]),
        precedes: random.pick(&[0, 2, 5, 20, 60, 100]),
        ends: random.chance(75),
        ordering: any_ordering(random),
    }
}

/// Every count at its most, for the largest books.
fn full_shape(random: &mut Random) -> Shape {
    Shape {
        rules: MOST_RULES,
        cells: random.between(MOST_ASSIGNS, MOST_CELLS),
        tests: (MOST_TESTS, MOST_TESTS),
        assigns: (MOST_ASSIGNS, MOST_ASSIGNS),
        letters: &[MOST_LETTERS],
        ends: false,
        ..any_shape(random)
    }
}

const ANY_LENGTH: &[usize] = &[1, 2, 3, 8, MOST_LETTERS];

fn shaped(random: &mut Random, shape: &Shape) -> Table {
    let ranks = Ranks {
        rule: random.order(shape.rules),
        cell: (0..shape.cells)
            .map(|_| random.below(shape.rules + 1))
            .collect(),
        turn: random.order(shape.rules),
    };
    let mut table = Table::empty();
    table.n = shape.rules as u8;
    table.k = shape.cells as u8;
    for number in 0..shape.rules {
        let mut rule = shaped_rule(random, shape, &ranks, number);
        new_name(random, shape, &table.rules[..number], &mut rule);
        table.rules[number] = rule;
    }
    match shape.ordering {
        Ordering::Chance => {}
        Ordering::Clashing => order_clashing_pairs(&mut table, &ranks.turn),
        Ordering::Failing => order_failing_pairs(&mut table, &ranks.turn),
    }
    table
}

fn any_ordering(random: &mut Random) -> Ordering {
    random.pick(&[Ordering::Chance, Ordering::Clashing, Ordering::Failing])
}

fn shaped_rule(random: &mut Random, shape: &Shape, ranks: &Ranks, number: usize) -> Rule {
    let rank = ranks.rule[number];
    let may_watch = |cell: &usize| !shape.ends || ranks.cell[*cell] < rank;
    let may_write = |cell: &usize| !shape.ends || ranks.cell[*cell] >= rank;
    let is_later = |rule: &usize| ranks.turn[*rule] > ranks.turn[number];
    let mut watch = random.some_below(shape.cells, shape.watch);
    watch.retain(may_watch);
    let mut precedes = random.some_below(shape.rules, shape.precedes);
    precedes.retain(is_later);
    let mut targets = random.order(shape.cells);
    targets.retain(may_write);
    targets.truncate(random.between(shape.assigns.0, shape.assigns.1));
    let tests = random.between(shape.tests.0, shape.tests.1);
    let mut rule = Rule {
        watch: mask(&watch),
        precedes: mask(&precedes),
        tests: tests as u8,
        assigns: targets.len() as u8,
        ..Rule::default()
    };
    for slot in 0..tests {
        rule.test[slot] = any_test(random, shape.cells);
    }
    for (slot, &target) in targets.iter().enumerate() {
        rule.assign[slot] = any_assign(random, shape.cells, target as u8);
    }
    rule
}

fn any_test(random: &mut Random, cells: usize) -> Test {
    let left = random.below(cells) as u8;
    let comparison = random.below(6) as u8;
    if random.chance(50) {
        with_constant(left, comparison, amount(random))
    } else {
        with_cell(left, comparison, random.below(cells) as u8)
    }
}

fn any_assign(random: &mut Random, cells: usize, target: u8) -> Assign {
    let a = random.below(cells) as u8;
    let b = random.below(cells) as u8;
    match random.below(5) {
        0 => give(target, amount(random)),
        1 => add(target, a, amount(random)),
        2 => sum(target, a, b),
        3 => difference(target, a, b),
        _ => {
            let p = random.pick(&[0, 1, 1, 2, 7, MOST_SHARE - 1, MOST_SHARE]);
            let q = random.pick(&[1, 1, 2, 3, 8, MOST_SHARE - 1, MOST_SHARE]);
            share(target, a, p, q)
        }
    }
}

/// An amount in range: mostly small, often near a limit.
pub fn amount(random: &mut Random) -> i64 {
    match random.below(8) {
        0 => MOST_AMOUNT - random.below(3) as i64,
        1 => random.below(3) as i64 - MOST_AMOUNT,
        2 => (random.bits() % MOST_AMOUNT as u64) as i64,
        3 => -((random.bits() % MOST_AMOUNT as u64) as i64),
        _ => random.below(19) as i64 - 9,
    }
}

/// Gives the rule a name that no earlier rule has.
fn new_name(random: &mut Random, shape: &Shape, earlier: &[Rule], rule: &mut Rule) {
    const LETTERS: &[u8] = b"abcdefghijklmnopqrstuvwxyz0123456789-";
    let taken = |rule: &Rule| {
        let mut names = earlier.iter().map(Rule::used_letters);
        names.any(|name| name == rule.used_letters())
    };
    while rule.letters == 0 || taken(rule) {
        let letters = random.pick(shape.letters);
        rule.letters = letters as u8;
        rule.name = [0; MOST_LETTERS];
        for slot in 0..letters {
            rule.name[slot] = random.pick(LETTERS);
        }
    }
}

/// Orders by turn the pairs that don't commute.
fn order_clashing_pairs(table: &mut Table, turn: &[usize]) {
    let rules = Rules::of(&records(table));
    for (i, j) in pairs() {
        if j < rules.count() && !rules.commute(i, j) {
            order(table, turn, (i, j));
        }
    }
}

/// Orders failing pairs by turn until no pair fails: what source document 003
/// advises to do with a book that is not cleared.
fn order_failing_pairs(table: &mut Table, turn: &[usize]) {
    loop {
        let report = report(table);
        if report.failing == 0 {
            return;
        }
        for (pair, mark) in pairs().into_iter().zip(report.marks) {
            if mark == 2 {
                order(table, turn, pair);
            }
        }
    }
}

fn order(table: &mut Table, turn: &[usize], (i, j): (usize, usize)) {
    let (first, then) = if turn[i] < turn[j] { (i, j) } else { (j, i) };
    let precedes = &mut table.rules[first].precedes;
    *precedes = with(*precedes, then);
}
