//! Unordered pairs: R1 and R2, and whether they commute.

use crate::analysis::Rules;
use crate::masks::members;

impl Rules {
    /// Which of these pairs with i fail. R1 and R2 only grow, so a pair that
    /// doesn't commute fails, and one whose sets stay as they are passes
    /// otherwise.
    pub fn failing(&self, i: usize, unordered: u32) -> u32 {
        let mut growing = 0;
        for j in 0..32 {
            let joins = self.triggers[i] & self.ahead[j] | self.triggers[j] & self.ahead[i];
            growing |= u32::from(joins != 0) << j;
        }
        let mut fails = unordered & self.clashes[i];
        for j in members(unordered & growing & !fails) {
            fails |= u32::from(self.culprits(i, j).is_some()) << j;
        }
        fails
    }

    /// Of an unordered pair that fails: the lowest rule of R1 that doesn't
    /// commute with some rule of R2, and the lowest such of R2.
    pub fn culprits(&self, i: usize, j: usize) -> Option<(usize, usize)> {
        let (r1, r2) = self.grown(i, j);
        let first = members(r1).find(|&rule| self.clashes[rule] & r2 != 0)?;
        let second = (self.clashes[first] & r2).trailing_zeros();
        Some((first, second as usize))
    }

    /// R1 and R2 of a pair.
    fn grown(&self, i: usize, j: usize) -> (u32, u32) {
        let mut one = Side::of(self, i);
        let mut two = Side::of(self, j);
        loop {
            let (more_1, more_2) = (one.joining(&two), two.joining(&one));
            if more_1 | more_2 == 0 {
                return (one.rules, two.rules);
            }
            one.add(self, more_1);
            two.add(self, more_2);
        }
    }
}

/// R1 or R2, with what its rules together may trigger and what goes before one
/// of them.
struct Side {
    rules: u32,
    triggered: u32,
    ahead: u32,
}

impl Side {
    fn of(rules: &Rules, rule: usize) -> Side {
        Side {
            rules: 1 << rule,
            triggered: rules.triggers[rule],
            ahead: rules.ahead[rule],
        }
    }

    /// "each rule that one in R1 may trigger and that goes before one in R2"
    fn joining(&self, other: &Side) -> u32 {
        self.triggered & other.ahead & !self.rules
    }

    fn add(&mut self, rules: &Rules, more: u32) {
        for rule in members(more) {
            self.triggered |= rules.triggers[rule];
            self.ahead |= rules.ahead[rule];
        }
        self.rules |= more;
    }
}
