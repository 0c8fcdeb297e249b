//! The writer: table to bytes, number 18.

use crate::check::table_is_sound;
use crate::read::body_length;
use crate::refusal::{given, refuse_when, Refusal};
use crate::table::{Assign, Rule, Table, Test};

/// "A refused write leaves the buffer untouched; a done write leaves the bytes
/// after the book untouched." Gives the book's length, refused 0.
pub fn write(table: &Table, buffer: &mut [u8]) -> (u8, u8, usize) {
    given(write_book(table, buffer), 0)
}

/// The length of the table's book, refused 0.
pub fn size(table: &Table) -> (u8, u8, usize) {
    given(table_is_sound(table).map(|()| bytes_of(table).len()), 0)
}

/// The book of a sound table, of its own length. Gives the empty book of no
/// bytes where the table is refused.
pub fn book(table: &Table) -> (u8, u8, Vec<u8>) {
    given(table_is_sound(table).map(|()| bytes_of(table)), Vec::new())
}

/// "The writer checks 3, the rules by 5 to 9, the rule slots past n by 7
/// (place: that slot), 10, then 18."
fn write_book(table: &Table, buffer: &mut [u8]) -> Result<usize, Refusal> {
    table_is_sound(table)?;
    let book = bytes_of(table);
    refuse_when(buffer.len() < book.len(), Refusal::whole(18))?;
    buffer[..book.len()].copy_from_slice(&book);
    Ok(book.len())
}

/// "The contents come first, the bodies after." Asks nothing of the table but
/// counts that its slots can fill, so that books to be refused can be made.
pub fn bytes_of(table: &Table) -> Vec<u8> {
    let mut book = vec![1, table.n, table.k, 0];
    let mut start = 4 + 4 * table.used_rules().len();
    for rule in table.used_rules() {
        let length = body_length(rule);
        book.extend((start as u16).to_le_bytes());
        book.extend((length as u16).to_le_bytes());
        start += length;
    }
    for rule in table.used_rules() {
        book.extend(body(rule));
    }
    book
}

/// "watch mask (4 bytes, cells), precedes mask (4, rules), number of tests t,
/// number of assignments a, name length m, a zero byte; then the tests, the
/// assignments, the name"
fn body(rule: &Rule) -> Vec<u8> {
    let mut body = Vec::new();
    body.extend(rule.watch.to_le_bytes());
    body.extend(rule.precedes.to_le_bytes());
    body.extend([rule.tests, rule.assigns, rule.letters, rule.fourth]);
    body.extend(rule.used_tests().iter().flat_map(test_bytes));
    body.extend(rule.used_assigns().iter().flat_map(assign_bytes));
    body.extend(rule.used_letters());
    body
}

/// "Test, 12 bytes: left cell, comparison, right kind, right cell, constant."
fn test_bytes(test: &Test) -> Vec<u8> {
    let mut bytes = vec![test.left, test.comparison, test.kind, test.right];
    bytes.extend(test.constant.to_le_bytes());
    bytes
}

/// "Assignment, 20 bytes: target, operation, cell A, cell B, constant K (8),
/// p (4), q (4)."
fn assign_bytes(assign: &Assign) -> Vec<u8> {
    let mut bytes = vec![assign.target, assign.operation, assign.a, assign.b];
    bytes.extend(assign.k.to_le_bytes());
    bytes.extend(assign.p.to_le_bytes());
    bytes.extend(assign.q.to_le_bytes());
    bytes
}
