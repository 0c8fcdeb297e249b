//! The analysis: who may trigger whom, faulty rules, weights and step bound,
//! pairs, the report; number 17.

use crate::check::{priorities_have_no_cycle, table_is_sound};
use crate::refusal::{given, refuse_when, Refusal, DONE};
use crate::sets::{mask_of, meets, members, reaching_themselves, through_others, Graph, Set};
use crate::table::{Rule, Table, MOST_RULES};
use std::collections::BTreeMap;

/// "496 marks, one for each pair (0,1), (0,2) .. (30,31), row by row"
pub const MARKS: usize = 496;

/// "four masks a rule (watch, reads, writes, precedes)"
#[derive(Clone, Copy, Default, PartialEq, Eq, Debug)]
pub struct Record {
    pub watch: u32,
    pub reads: u32,
    pub writes: u32,
    pub precedes: u32,
}

/// The verdict, the faulty rules, the marks, "the count of failing pairs, and
/// the first failing pair with two culprits".
#[derive(Clone, PartialEq, Eq, Debug)]
pub struct Report {
    pub number: u8,
    pub place: u8,
    pub cleared: bool,
    pub faulty: u32,
    pub marks: [u8; MARKS],
    pub failing: u16,
    pub first: (u8, u8),
    pub culprits: (u8, u8),
}

impl Report {
    /// "A refused report has only zeros beside number and place."
    fn zeros(number: u8, place: u8) -> Report {
        Report {
            number,
            place,
            cleared: false,
            faulty: 0,
            marks: [0; MARKS],
            failing: 0,
            first: (0, 0),
            culprits: (0, 0),
        }
    }
}

/// The report on a table.
pub fn report(table: &Table) -> Report {
    match table_is_sound(table) {
        Ok(()) => judge(&Rules::of(&records(table))),
        Err(refusal) => Report::zeros(refusal.number, refusal.place),
    }
}

/// "the analysis also accepts a lent row of such records and gives the same
/// report"
pub fn report_of_records(row: &[Record]) -> Report {
    match row_is_sound(row) {
        Ok(()) => judge(&Rules::of(row)),
        Err(refusal) => Report::zeros(refusal.number, refusal.place),
    }
}

/// "there only 3 (over 32 records), 6 (a precedes bit beyond the row) and 10
/// occur"
fn row_is_sound(row: &[Record]) -> Result<(), Refusal> {
    refuse_when(row.len() > MOST_RULES, Refusal::whole(3))?;
    let precedes: Graph = row.iter().map(|record| members(record.precedes)).collect();
    for (number, named) in precedes.iter().enumerate() {
        let beyond = named.iter().any(|&rule| rule >= row.len());
        refuse_when(beyond, Refusal::of_rule(6, number))?;
    }
    priorities_have_no_cycle(&precedes)
}

/// "The step bound of a set is the sum of its weights." The table's refusal,
/// 11 for a bit from n up, 17; "A refused step bound is 0."
pub fn bound(table: &Table, set: u32) -> (u8, u8, u32) {
    given(checked_bound(table, set), 0)
}

fn checked_bound(table: &Table, set: u32) -> Result<u32, Refusal> {
    table_is_sound(table)?;
    let rules = Rules::of(&records(table));
    let set = members(set);
    let fits = set.iter().all(|&rule| rule < rules.count());
    refuse_when(!fits, Refusal::whole(11))?;
    let weights = rules.weights().ok_or(Refusal::whole(17))?;
    Ok(set.iter().map(|&rule| weights[rule]).sum())
}

/// The four masks of each rule of a table.
pub fn records(table: &Table) -> Vec<Record> {
    let record = |rule: &Rule| Record {
        watch: rule.watch,
        reads: mask_of(&rule.reads()),
        writes: mask_of(&rule.writes()),
        precedes: rule.precedes,
    };
    table.used_rules().iter().map(record).collect()
}

/// What the analysis knows of the rules, as sets.
pub struct Rules {
    pub reads: Vec<Set>,
    pub writes: Vec<Set>,
    /// For each rule, the rules that it may trigger.
    pub triggers: Graph,
    /// For each rule, the rules that it goes before.
    pub before: Graph,
}

impl Rules {
    /// "r may trigger s when s watches a cell that r writes; s may be r."
    pub fn of(row: &[Record]) -> Rules {
        let watch: Vec<Set> = row.iter().map(|record| members(record.watch)).collect();
        let writes: Vec<Set> = row.iter().map(|record| members(record.writes)).collect();
        let watchers = |written: &Set| {
            let numbers = 0..row.len();
            numbers.filter(|&s| meets(&watch[s], written)).collect()
        };
        Rules {
            reads: row.iter().map(|record| members(record.reads)).collect(),
            triggers: writes.iter().map(watchers).collect(),
            before: through_others(&row.iter().map(|r| members(r.precedes)).collect()),
            writes,
        }
    }

    pub fn count(&self) -> usize {
        self.writes.len()
    }

    /// "a rule weighs one more than all the rules it may trigger together".
    /// None where the graph has a cycle.
    pub fn weights(&self) -> Option<Vec<u32>> {
        if !reaching_themselves(&self.triggers).is_empty() {
            return None;
        }
        let mut weights = BTreeMap::new();
        while weights.len() < self.count() {
            for rule in 0..self.count() {
                let triggered = self.triggers[rule].iter().map(|s| weights.get(s));
                // None as long as one of them has no weight yet.
                if let Some(together) = triggered.sum::<Option<u32>>() {
                    weights.insert(rule, 1 + together);
                }
            }
        }
        Some(weights.into_values().collect())
    }

    /// "Two different rules commute when neither may trigger the other, and
    /// neither writes a cell that the other reads or writes. A rule commutes
    /// with itself."
    pub fn commute(&self, r: usize, s: usize) -> bool {
        let disturbs = |r: usize, s: usize| {
            self.triggers[r].contains(&s)
                || meets(&self.writes[r], &self.reads[s])
                || meets(&self.writes[r], &self.writes[s])
        };
        r == s || (!disturbs(r, s) && !disturbs(s, r))
    }

    /// "unordered i and j (neither goes before the other)"
    pub fn unordered(&self, i: usize, j: usize) -> bool {
        !self.before[i].contains(&j) && !self.before[j].contains(&i)
    }

    /// "R1 starts as {i}, R2 as {j}. Until nothing changes: add to R1 each rule
    /// that one in R1 may trigger and that goes before one in R2; add to R2 the
    /// same with the sets exchanged."
    pub fn grown(&self, i: usize, j: usize) -> (Set, Set) {
        let (mut r1, mut r2) = (Set::from([i]), Set::from([j]));
        loop {
            let more_1 = self.joining(&r1, &r2);
            let more_2 = self.joining(&r2, &r1);
            if more_1.is_subset(&r1) && more_2.is_subset(&r2) {
                return (r1, r2);
            }
            r1.extend(more_1);
            r2.extend(more_2);
        }
    }

    /// "each rule that one in R1 may trigger and that goes before one in R2"
    fn joining(&self, r1: &Set, r2: &Set) -> Set {
        let triggered: Set = r1
            .iter()
            .flat_map(|&rule| self.triggers[rule].clone())
            .collect();
        let goes_before = |rule: &usize| meets(&self.before[*rule], r2);
        triggered.into_iter().filter(goes_before).collect()
    }

    /// "The pair passes when each rule of R1 commutes with each of R2."
    /// Otherwise the culprits: "the lowest rule of R1 that fails to commute with
    /// some rule of R2, then the lowest rule of R2 that doesn't commute with
    /// that one".
    pub fn culprits(&self, r1: &Set, r2: &Set) -> Option<(usize, usize)> {
        for &first in r1 {
            for &second in r2 {
                if !self.commute(first, second) {
                    return Some((first, second));
                }
            }
        }
        None
    }
}

/// "each pair (0,1), (0,2) .. (30,31), row by row"
pub fn pairs() -> Vec<(usize, usize)> {
    let row = |i: usize| (i + 1..MOST_RULES).map(move |j| (i, j));
    (0..MOST_RULES).flat_map(row).collect()
}

/// "Cleared: the book ends and every unordered pair passes." "Pairs are judged
/// also when the graph has a cycle."
fn judge(rules: &Rules) -> Report {
    let mut report = Report::zeros(DONE.0, DONE.1);
    report.faulty = mask_of(&reaching_themselves(&rules.triggers));
    for (pair, (i, j)) in pairs().into_iter().enumerate() {
        if j < rules.count() && rules.unordered(i, j) {
            judge_pair(rules, (i, j), pair, &mut report);
        }
    }
    report.cleared = report.faulty == 0 && report.failing == 0;
    report
}

/// "0 ordered or absent, 1 passes, 2 fails"; the first failing pair is kept
/// with its culprits.
fn judge_pair(rules: &Rules, (i, j): (usize, usize), pair: usize, report: &mut Report) {
    let (r1, r2) = rules.grown(i, j);
    let Some((first, second)) = rules.culprits(&r1, &r2) else {
        report.marks[pair] = 1;
        return;
    };
    report.marks[pair] = 2;
    if report.failing == 0 {
        report.first = (i as u8, j as u8);
        report.culprits = (first as u8, second as u8);
    }
    report.failing += 1;
}
