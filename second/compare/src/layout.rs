//! A table of the second program as the border's bytes and back: "byte 0 and
//! byte 3 not looked at (callers set 0), byte 1 n, byte 2 k, then 32 rules of
//! 284 bytes each, laid out like a body with every slot present". A report, a
//! state and the editor's rows as bytes.

use crate::border::{AmountsBytes, ReportBytes, StateBytes, TableBytes};
use crate::border::{AMOUNTS_BYTES, REPORT_BYTES, STATE_BYTES, TABLE_BYTES};
use second::analysis::{Record, Report};
use second::machine::State;
use second::table::{Assign, Rule, Table, Test};

/// The bytes of one rule.
pub const RULE_BYTES: usize = 284;

/// The first byte of a rule.
pub fn rule_start(rule: usize) -> usize {
    4 + RULE_BYTES * rule
}

pub fn bytes_of(table: &Table) -> TableBytes {
    let mut bytes = [0; TABLE_BYTES];
    bytes[1] = table.n;
    bytes[2] = table.k;
    for (number, rule) in table.rules.iter().enumerate() {
        let start = rule_start(number);
        put_rule(&mut bytes[start..start + RULE_BYTES], rule);
    }
    bytes
}

pub fn table_of(bytes: &TableBytes) -> Table {
    let mut table = Table::empty();
    table.n = bytes[1];
    table.k = bytes[2];
    for (number, rule) in table.rules.iter_mut().enumerate() {
        let start = rule_start(number);
        *rule = rule_of(&bytes[start..start + RULE_BYTES]);
    }
    table
}

/// "0 number, 1 place, 2 verdict, 3 zero, 4 to 7 faulty mask, 8 to 9 count of
/// failing pairs, 10 and 11 first pair, 12 and 13 culprits, 14 and 15 zero, 16
/// to 511 the marks"
pub fn report_bytes(report: &Report) -> ReportBytes {
    let mut bytes = [0; REPORT_BYTES];
    bytes[0..3].copy_from_slice(&[report.number, report.place, u8::from(report.cleared)]);
    bytes[4..8].copy_from_slice(&report.faulty.to_le_bytes());
    bytes[8..10].copy_from_slice(&report.failing.to_le_bytes());
    let ((i, j), (first, second)) = (report.first, report.culprits);
    bytes[10..14].copy_from_slice(&[i, j, first, second]);
    bytes[16..].copy_from_slice(&report.marks);
    bytes
}

/// "the masks watch, reads, writes and precedes of 4 bytes each"
pub fn row_bytes(row: &[Record]) -> Vec<u8> {
    row.iter()
        .flat_map(|r| [r.watch, r.reads, r.writes, r.precedes])
        .flat_map(|mask| mask.to_le_bytes())
        .collect()
}

/// "32 cells of 8"
pub fn amounts_bytes(cells: &[i64; 32]) -> AmountsBytes {
    let mut bytes = [0; AMOUNTS_BYTES];
    for (cell, amount) in cells.iter().enumerate() {
        bytes[8 * cell..8 * cell + 8].copy_from_slice(&amount.to_le_bytes());
    }
    bytes
}

/// "32 cells of 8, the waiting mask, the fault marks"
pub fn state_bytes(state: &State) -> StateBytes {
    let mut bytes = [0; STATE_BYTES];
    bytes[..AMOUNTS_BYTES].copy_from_slice(&amounts_bytes(&state.cells));
    bytes[256..260].copy_from_slice(&state.waiting.to_le_bytes());
    bytes[260..264].copy_from_slice(&state.faults.to_le_bytes());
    bytes
}

fn put_rule(bytes: &mut [u8], rule: &Rule) {
    bytes[0..4].copy_from_slice(&rule.watch.to_le_bytes());
    bytes[4..8].copy_from_slice(&rule.precedes.to_le_bytes());
    bytes[8..12].copy_from_slice(&[rule.tests, rule.assigns, rule.letters, rule.fourth]);
    for (slot, test) in rule.test.iter().enumerate() {
        put_test(&mut bytes[12 + 12 * slot..24 + 12 * slot], test);
    }
    for (slot, assign) in rule.assign.iter().enumerate() {
        put_assign(&mut bytes[108 + 20 * slot..128 + 20 * slot], assign);
    }
    bytes[268..284].copy_from_slice(&rule.name);
}

fn put_test(bytes: &mut [u8], test: &Test) {
    bytes[0..4].copy_from_slice(&[test.left, test.comparison, test.kind, test.right]);
    bytes[4..12].copy_from_slice(&test.constant.to_le_bytes());
}

fn put_assign(bytes: &mut [u8], assign: &Assign) {
    bytes[0..4].copy_from_slice(&[assign.target, assign.operation, assign.a, assign.b]);
    bytes[4..12].copy_from_slice(&assign.k.to_le_bytes());
    bytes[12..16].copy_from_slice(&assign.p.to_le_bytes());
    bytes[16..20].copy_from_slice(&assign.q.to_le_bytes());
}

fn rule_of(bytes: &[u8]) -> Rule {
    Rule {
        watch: u32::from_le_bytes(part(bytes, 0)),
        precedes: u32::from_le_bytes(part(bytes, 4)),
        tests: bytes[8],
        assigns: bytes[9],
        letters: bytes[10],
        fourth: bytes[11],
        test: std::array::from_fn(|slot| test_of(&bytes[12 + 12 * slot..])),
        assign: std::array::from_fn(|slot| assign_of(&bytes[108 + 20 * slot..])),
        name: part(bytes, 268),
    }
}

fn test_of(bytes: &[u8]) -> Test {
    Test {
        left: bytes[0],
        comparison: bytes[1],
        kind: bytes[2],
        right: bytes[3],
        constant: i64::from_le_bytes(part(bytes, 4)),
    }
}

fn assign_of(bytes: &[u8]) -> Assign {
    Assign {
        target: bytes[0],
        operation: bytes[1],
        a: bytes[2],
        b: bytes[3],
        k: i64::from_le_bytes(part(bytes, 4)),
        p: u32::from_le_bytes(part(bytes, 12)),
        q: u32::from_le_bytes(part(bytes, 16)),
    }
}

fn part<const SIZE: usize>(bytes: &[u8], start: usize) -> [u8; SIZE] {
    std::array::from_fn(|i| bytes[start + i])
}
