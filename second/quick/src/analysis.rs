//! The report and the step bound, of a table and of the editor's rows.

use crate::check::sound;
use crate::image::{number_32, rules};
use crate::masks::{below, close, members, on_cycle, turned, Row};
use crate::{code, of_rule, refuse_when, whole, ReportBytes, TableBytes};

pub fn report(table: &TableBytes, out: &mut ReportBytes) -> u32 {
    given(
        sound(table).map(|before| Rules::of_table(table, before)),
        out,
    )
}

/// 3 (over 32 records), 6 (a precedes bit beyond the row) and 10.
pub fn rows(rows: &[u8], out: &mut ReportBytes) -> u32 {
    given(Rules::of_rows(rows.as_chunks().0), out)
}

fn given(rules: Result<Rules, u32>, out: &mut ReportBytes) -> u32 {
    out.fill(0);
    match rules {
        Ok(rules) => {
            rules.judge(out);
            0
        }
        Err(refused) => {
            out[..2].copy_from_slice(&refused.to_le_bytes()[..2]);
            refused
        }
    }
}

/// 11, then 17. "A refused step bound is 0."
pub fn bound(table: &TableBytes, set: u32, bound: &mut u32) -> u32 {
    let bounded = || -> Result<u32, u32> {
        let rules = Rules::of_table(table, sound(table)?);
        refuse_when(set & !below(rules.n) != 0, whole(11))?;
        refuse_when(rules.faulty() != 0, whole(17))?;
        Ok(rules.bound(set))
    };
    let answer = bounded();
    *bound = answer.unwrap_or(0);
    code(answer.map(|_| ()))
}

/// Who may trigger whom, who goes before whom, and who doesn't commute.
pub struct Rules {
    n: usize,
    pub triggers: Row,
    /// For each rule, the rules that it goes before, and those that go before it.
    before: Row,
    pub ahead: Row,
    pub clashes: Row,
}

impl Rules {
    pub fn of_table(table: &TableBytes, before: Row) -> Rules {
        let (mut watch, mut reads, mut writes) = ([0; 32], [0; 32], [0; 32]);
        for (i, rule) in rules(table).enumerate() {
            watch[i] = rule.watch();
            for test in rule.tests() {
                reads[i] |= 1 << test.left | u32::from(test.kind == 1) << test.right;
            }
            for assign in rule.assigns() {
                writes[i] |= 1 << assign.target;
                reads[i] |= match assign.operation {
                    0 => 0,
                    1 | 4 => 1 << assign.a,
                    _ => 1 << assign.a | 1 << assign.b,
                };
            }
        }
        Rules::of(table[1].into(), &watch, &reads, &writes, before)
    }

    fn of_rows(rows: &[[u8; 16]]) -> Result<Rules, u32> {
        let n = rows.len();
        refuse_when(n > 32, whole(3))?;
        let masks = |place: usize| {
            let mut masks = [0; 32];
            for (mask, row) in masks.iter_mut().zip(rows) {
                *mask = number_32(row, place);
            }
            masks
        };
        let mut before = masks(12);
        if let Some(rule) = before.iter().position(|mask| mask & !below(n) != 0) {
            return Err(of_rule(6, rule));
        }
        close(&mut before[..n]);
        refuse_when(on_cycle(&before) != 0, whole(10))?;
        Ok(Rules::of(n, &masks(0), &masks(4), &masks(8), before))
    }

    fn of(n: usize, watch: &Row, reads: &Row, writes: &Row, before: Row) -> Rules {
        let uses: Row = std::array::from_fn(|r| watch[r] | reads[r] | writes[r]);
        let (mut triggers, mut clashes) = ([0; 32], [0; 32]);
        for s in 0..n {
            for r in 0..32 {
                let disturbed = writes[r] & uses[s] | writes[s] & uses[r];
                triggers[r] |= u32::from(writes[r] & watch[s] != 0) << s;
                clashes[r] |= u32::from(disturbed != 0) << s;
            }
        }
        for (r, clash) in clashes.iter_mut().enumerate() {
            *clash &= !(1 << r);
        }
        Rules {
            n,
            triggers,
            ahead: turned(&before[..n]),
            before,
            clashes,
        }
    }

    /// The rules that reach themselves.
    pub fn faulty(&self) -> u32 {
        let mut reached = self.triggers;
        close(&mut reached[..self.n]);
        on_cycle(&reached)
    }

    /// The step bound of a set, where no rule is faulty: each round weighs the
    /// rules whose triggered rules are all weighed.
    pub fn bound(&self, set: u32) -> u32 {
        let mut weights = [0; 32];
        let mut left = below(self.n);
        while left != 0 {
            for rule in members(left) {
                let triggered = self.triggers[rule];
                if triggered & left == 0 {
                    weights[rule] = 1 + members(triggered).map(|s| weights[s]).sum::<u32>();
                    left &= !(1 << rule);
                }
            }
        }
        members(set).map(|rule| weights[rule]).sum()
    }

    /// The report, into zeros.
    pub fn judge(&self, out: &mut ReportBytes) {
        let (head, mut marks) = out.split_at_mut(16);
        let mut failing = 0;
        for i in 0..self.n {
            let later = below(self.n) & !below(i + 1);
            let unordered = later & !self.before[i] & !self.ahead[i];
            let fails = self.failing(i, unordered);
            if failing == 0 && fails != 0 {
                let j = fails.trailing_zeros() as usize;
                let (first, second) = self.culprits(i, j).expect("the pair fails");
                let told = [i, j, first, second].map(|rule| rule as u8);
                head[10..14].copy_from_slice(&told);
            }
            failing += fails.count_ones() as u16;
            let (row, rest) = marks.split_at_mut(31 - i);
            for (mark, j) in row.iter_mut().zip(i + 1..) {
                *mark = (unordered >> j & 1) as u8 + (fails >> j & 1) as u8;
            }
            marks = rest;
        }
        let faulty = self.faulty();
        head[1] = 255;
        head[2] = u8::from(faulty == 0 && failing == 0);
        head[4..8].copy_from_slice(&faulty.to_le_bytes());
        head[8..10].copy_from_slice(&failing.to_le_bytes());
    }
}
