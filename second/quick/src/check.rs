//! The checks on a table: 3, the rules by 5 to 9, the slots past n by 7, 10.

use crate::image::{in_range, is_zero, slots, Assign, Rule, Test};
use crate::masks::{below, close, on_cycle, Row};
use crate::{code, of_rule, refuse_when, whole, TableBytes};

pub fn check(table: &TableBytes) -> u32 {
    code(sound(table).map(|_| ()))
}

/// For a sound table: what each rule goes before, directly or through others.
pub fn sound(table: &TableBytes) -> Result<Row, u32> {
    let mut book = Judged::new(table[1], table[2])?;
    let (rules, rest) = slots(table).split_at(book.n);
    for rule in rules {
        book.add(Rule(rule))?;
    }
    if !is_zero(rest.as_flattened()) {
        let empty = rest.iter().take_while(|slot| is_zero(*slot)).count();
        return Err(of_rule(7, rules.len() + empty));
    }
    book.closed()
}

/// What the rules judged so far leave for the next one: names and priorities.
pub struct Judged {
    pub n: usize,
    k: usize,
    count: usize,
    names: [u128; 32],
    precedes: Row,
}

impl Judged {
    /// 3: "n over 32, k 0 or over 32"
    pub fn new(n: u8, k: u8) -> Result<Judged, u32> {
        refuse_when(n > 32 || k == 0 || k > 32, whole(3))?;
        Ok(Judged {
            n: n.into(),
            k: k.into(),
            count: 0,
            names: [0; 32],
            precedes: [0; 32],
        })
    }

    /// The next rule, by 5 to 9.
    pub fn add(&mut self, rule: Rule) -> Result<(), u32> {
        let number = self.rule_number(rule);
        refuse_when(number != 0, of_rule(number, self.count))?;
        self.names[self.count] = u128::from_le_bytes(*rule.letters());
        self.precedes[self.count] = rule.precedes();
        self.count += 1;
        Ok(())
    }

    /// 10: "the priorities have a cycle (a rule naming itself too)"
    pub fn closed(mut self) -> Result<Row, u32> {
        let graph = &mut self.precedes[..self.n];
        close(graph);
        refuse_when(on_cycle(graph) != 0, whole(10))?;
        Ok(self.precedes)
    }

    fn rule_number(&self, rule: Rule) -> u32 {
        let (t, a, m) = rule.counts();
        if t > 8 || a > 8 || m == 0 || m > 16 || rule.0[11] != 0 {
            return 5;
        }
        let mut beyond = rule.watch() & !below(self.k) | rule.precedes() & !below(self.n) != 0;
        let mut bad = !is_zero(&rule.0[12 + 12 * t..108])
            || !is_zero(&rule.0[108 + 20 * a..268])
            || !is_zero(&rule.letters()[m..]);
        for test in rule.tests() {
            beyond |= test.left >= self.k || test.kind == 1 && test.right >= self.k;
            bad |= !test_is_sound(&test);
        }
        let (mut targets, mut twice) = (0u32, false);
        for assign in rule.assigns() {
            beyond |= assign.target >= self.k || reads_beyond(&assign, self.k);
            bad |= !assign_is_sound(&assign);
            let target = 1u32.wrapping_shl(assign.target as u32);
            twice |= targets & target != 0;
            targets |= target;
        }
        match (beyond, bad, twice) {
            (true, _, _) => 6,
            (_, true, _) => 7,
            (_, _, true) => 8,
            _ if self.name_is_refused(rule.letters(), m) => 9,
            _ => 0,
        }
    }

    /// "bad letter in a name, or the name of an earlier rule". The letters past
    /// m are 0 and no letter is, so the 16 bytes tell the length too.
    fn name_is_refused(&self, letters: &[u8; 16], m: usize) -> bool {
        let good = |letter: &u8| matches!(letter, b'a'..=b'z' | b'0'..=b'9' | b'-');
        let name = u128::from_le_bytes(*letters);
        !letters[..m].iter().all(good) || self.names[..self.count].contains(&name)
    }
}

fn test_is_sound(test: &Test) -> bool {
    let right = match test.kind {
        0 => test.right == 0 && in_range(test.constant),
        1 => test.constant == 0,
        _ => false,
    };
    test.comparison <= 5 && right
}

fn reads_beyond(assign: &Assign, k: usize) -> bool {
    match assign.operation {
        1 | 4 => assign.a >= k,
        2 | 3 => assign.a >= k || assign.b >= k,
        _ => false,
    }
}

fn assign_is_sound(assign: &Assign) -> bool {
    let Assign { a, b, k, p, q, .. } = *assign;
    match assign.operation {
        0 => in_range(k) && a | b == 0 && p | q == 0,
        1 => in_range(k) && b == 0 && p | q == 0,
        2 | 3 => k == 0 && p | q == 0,
        4 => b == 0 && k == 0 && p <= 1_000_000 && (1..=1_000_000).contains(&q),
        _ => false,
    }
}
