//! The reader: bytes to table, numbers 1 to 10.

use crate::check::{counts_are_in_bounds, counts_fit, priorities_have_no_cycle, rule_is_sound};
use crate::refusal::{given, refuse_when, Refusal};
use crate::table::{Assign, Rule, Table, Test, MOST_BYTES};

/// "A refused read gives an empty table of zeros."
pub fn read(book: &[u8]) -> (u8, u8, Table) {
    given(read_book(book), Table::empty())
}

/// "Order: 1 to 4 for the whole book, then rule by rule 5 to 9, then 10"
fn read_book(book: &[u8]) -> Result<Table, Refusal> {
    let size_fits = (4..=MOST_BYTES).contains(&book.len());
    refuse_when(!size_fits, Refusal::whole(1))?;
    refuse_when(book[0] != 1 || book[3] != 0, Refusal::whole(2))?;
    let mut table = Table::empty();
    table.n = book[1];
    table.k = book[2];
    counts_fit(table.n, table.k)?;
    let bodies = contents(book).ok_or(Refusal::whole(4))?;
    for (number, body) in bodies.into_iter().enumerate() {
        table.rules[number] = read_body(body).ok_or(Refusal::of_rule(5, number))?;
        rule_is_sound(&table, number)?;
    }
    priorities_have_no_cycle(&table.precedes())?;
    Ok(table)
}

/// "The first start is 4 + 4n. Each next start is the previous start plus the
/// previous length. The last body ends at the book's end; with n = 0 the book
/// is 4 bytes." Gives the bodies, or nothing where the contents don't fit.
fn contents(book: &[u8]) -> Option<Vec<&[u8]>> {
    let n = usize::from(book[1]);
    let mut expected = 4 + 4 * n;
    let mut entries = Fields(book.get(4..expected)?);
    let mut bodies = Vec::new();
    for _ in 0..n {
        let start = usize::from(entries.number_16());
        let length = usize::from(entries.number_16());
        if start != expected {
            return None;
        }
        expected = start + length;
        bodies.push(book.get(start..expected)?);
    }
    (expected == book.len()).then_some(bodies)
}

/// "Its length is 12 + 12t + 20a + m." Gives nothing where 5 applies; a body
/// under 12 bytes has a wrong length whatever its counts would be.
fn read_body(body: &[u8]) -> Option<Rule> {
    if body.len() < 12 {
        return None;
    }
    let mut fields = Fields(body);
    let mut rule = Rule {
        watch: fields.number_32(),
        precedes: fields.number_32(),
        tests: fields.number_8(),
        assigns: fields.number_8(),
        letters: fields.number_8(),
        fourth: fields.number_8(),
        ..Rule::default()
    };
    if !counts_are_in_bounds(&rule) || body.len() != body_length(&rule) {
        return None;
    }
    for slot in 0..usize::from(rule.tests) {
        rule.test[slot] = read_test(&mut fields);
    }
    for slot in 0..usize::from(rule.assigns) {
        rule.assign[slot] = read_assign(&mut fields);
    }
    for slot in 0..usize::from(rule.letters) {
        rule.name[slot] = fields.number_8();
    }
    Some(rule)
}

/// "12 + 12t + 20a + m"
pub fn body_length(rule: &Rule) -> usize {
    let (t, a, m) = (rule.tests, rule.assigns, rule.letters);
    12 + 12 * usize::from(t) + 20 * usize::from(a) + usize::from(m)
}

/// "Test, 12 bytes: left cell, comparison, right kind, right cell, constant."
fn read_test(fields: &mut Fields) -> Test {
    Test {
        left: fields.number_8(),
        comparison: fields.number_8(),
        kind: fields.number_8(),
        right: fields.number_8(),
        constant: fields.constant(),
    }
}

/// "Assignment, 20 bytes: target, operation, cell A, cell B, constant K (8),
/// p (4), q (4)."
fn read_assign(fields: &mut Fields) -> Assign {
    Assign {
        target: fields.number_8(),
        operation: fields.number_8(),
        a: fields.number_8(),
        b: fields.number_8(),
        k: fields.constant(),
        p: fields.number_32(),
        q: fields.number_32(),
    }
}

/// The bytes not yet taken. "Numbers are little-endian; constants are 64-bit
/// two's complement."
struct Fields<'a>(&'a [u8]);

impl Fields<'_> {
    fn take<const SIZE: usize>(&mut self) -> [u8; SIZE] {
        let (field, rest) = self.0.split_at(SIZE);
        self.0 = rest;
        std::array::from_fn(|i| field[i])
    }

    fn number_8(&mut self) -> u8 {
        self.take::<1>()[0]
    }

    fn number_16(&mut self) -> u16 {
        u16::from_le_bytes(self.take())
    }

    fn number_32(&mut self) -> u32 {
        u32::from_le_bytes(self.take())
    }

    fn constant(&mut self) -> i64 {
        i64::from_le_bytes(self.take())
    }
}
