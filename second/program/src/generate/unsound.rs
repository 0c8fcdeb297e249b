//! Tables that memory can hold and a book can't: one thing wrong, many things
//! wrong, and noise.

use super::random::Random;
use super::sound::table;
use crate::sets::{with, without};
use crate::table::{Assign, Rule, Table, Test, MOST_AMOUNT, MOST_SHARE};

/// A sound table with one field changed, or up to eight. Few are sound still.
pub fn unsound_table(seed: u64) -> Table {
    let random = &mut Random::new(seed);
    let mut table = table(random.bits());
    for _ in 0..random.pick(&[1, 1, 1, 2, 8]) {
        spoil(random, &mut table);
    }
    table
}

/// Changes one field, in a rule, in a slot past a count or past n.
pub fn spoil(random: &mut Random, table: &mut Table) {
    let n = usize::from(table.n).clamp(1, 32);
    let slot = random.below(8);
    let number = match random.below(10) {
        0 => random.below(32),
        _ => random.below(n),
    };
    let letter = random.below(16);
    let other = random.below(n);
    let other_name = (table.rules[other].letters, table.rules[other].name);
    let rule = &mut table.rules[number];
    match random.below(14) {
        0 => spoil_counts(random, table),
        1 => rule.tests = near(random, rule.tests, &[8, 9, 200, 255]),
        2 => rule.assigns = near(random, rule.assigns, &[8, 9, 200, 255]),
        3 => rule.letters = near(random, rule.letters, &[0, 16, 17, 255]),
        4 => rule.fourth = random.pick(&[1, 2, 128, 255]),
        5 => rule.watch = flipped(random, rule.watch),
        6 => rule.precedes = flipped(random, rule.precedes),
        7 => rule.precedes = with(rule.precedes, number),
        8 | 9 => spoil_test(random, &mut rule.test[slot]),
        10 | 11 => spoil_assign(random, &mut rule.assign[slot]),
        12 => rule.name[letter] = random.pick(b"a-9z/:`{@AZ \0\xff"),
        _ => (rule.letters, rule.name) = other_name,
    }
}

fn spoil_counts(random: &mut Random, table: &mut Table) {
    if random.chance(50) {
        table.n = near(random, table.n, &[0, 31, 32, 33, 64, 255]);
    } else {
        table.k = near(random, table.k, &[0, 1, 32, 33, 64, 255]);
    }
}

/// One more, one less, or one of the bounds.
fn near(random: &mut Random, count: u8, bounds: &[u8]) -> u8 {
    match random.below(3) {
        0 => count.wrapping_add(1),
        1 => count.wrapping_sub(1),
        _ => random.pick(bounds),
    }
}

fn flipped(random: &mut Random, mask: u32) -> u32 {
    let number = random.below(32);
    if with(mask, number) == mask {
        without(mask, number)
    } else {
        with(mask, number)
    }
}

fn spoil_test(random: &mut Random, test: &mut Test) {
    match random.below(5) {
        0 => test.left = near(random, test.left, &[0, 31, 32, 255]),
        1 => test.comparison = near(random, test.comparison, &[0, 5, 6, 255]),
        2 => test.kind = near(random, test.kind, &[0, 1, 2, 255]),
        3 => test.right = near(random, test.right, &[0, 31, 32, 255]),
        _ => test.constant = any_constant(random),
    }
}

fn spoil_assign(random: &mut Random, assign: &mut Assign) {
    match random.below(7) {
        0 => assign.target = near(random, assign.target, &[0, 31, 32, 255]),
        1 => assign.operation = near(random, assign.operation, &[0, 4, 5, 255]),
        2 => assign.a = near(random, assign.a, &[0, 31, 32, 255]),
        3 => assign.b = near(random, assign.b, &[0, 31, 32, 255]),
        4 => assign.k = any_constant(random),
        5 => assign.p = random.pick(&[0, 1, MOST_SHARE, MOST_SHARE + 1, u32::MAX]),
        _ => assign.q = random.pick(&[0, 1, MOST_SHARE, MOST_SHARE + 1, u32::MAX]),
    }
}

fn any_constant(random: &mut Random) -> i64 {
    let far = [0, 1, -1, i64::MAX, i64::MIN];
    let edge = MOST_AMOUNT + random.below(2) as i64;
    match random.below(3) {
        0 => edge,
        1 => -edge,
        _ => random.pick(&far),
    }
}

/// A table in which no field knows of another.
pub fn noise_table(seed: u64) -> Table {
    let random = &mut Random::new(seed);
    let mut table = Table::empty();
    table.n = random.pick(&[0, 1, 2, 5, 31, 32, 33, 255]);
    table.k = random.pick(&[0, 1, 2, 5, 31, 32, 33, 255]);
    let filled = random.pick(&[0, 1, 2, 5, 32]);
    for number in 0..filled {
        table.rules[number] = noise_rule(random);
    }
    table
}

fn noise_rule(random: &mut Random) -> Rule {
    let mut rule = Rule {
        watch: random.bits() as u32 & random.bits() as u32,
        precedes: random.bits() as u32 & random.bits() as u32,
        tests: random.pick(&[0, 1, 8, 9, 255]),
        assigns: random.pick(&[0, 1, 8, 9, 255]),
        letters: random.pick(&[0, 1, 16, 17, 255]),
        fourth: random.pick(&[0, 0, 0, 1, 255]),
        ..Rule::default()
    };
    for slot in 0..8 {
        for _ in 0..random.below(6) {
            spoil_test(random, &mut rule.test[slot]);
            spoil_assign(random, &mut rule.assign[slot]);
        }
    }
    let letters: [u8; 16] = std::array::from_fn(|_| random.pick(b"ab-09zA\0"));
    rule.name = letters;
    rule
}
