//! The reader and the writer: bodies spread into slots, and slots cut to bodies.

use crate::check::{sound, Judged};
use crate::image::{rules, Rule, RULE_BYTES};
use crate::masks::Row;
use crate::{code, of_rule, refuse_when, whole, TableBytes};

/// "A refused read gives an empty table of zeros."
pub fn read(book: &[u8], table: &mut TableBytes) -> u32 {
    let answer = read_sound(book, table).map(|_| ());
    if answer.is_err() {
        table.fill(0);
    }
    code(answer)
}

/// 1 to 4 for the whole book, then rule by rule 5 to 9, then 10. Gives what
/// each rule goes before.
pub fn read_sound(book: &[u8], table: &mut TableBytes) -> Result<Row, u32> {
    refuse_when(!(4..=9_220).contains(&book.len()), whole(1))?;
    refuse_when(book[0] != 1 || book[3] != 0, whole(2))?;
    let mut judged = Judged::new(book[1], book[2])?;
    let contents = contents(book, judged.n).ok_or(whole(4))?;
    table.fill(0);
    (table[1], table[2]) = (book[1], book[2]);
    let slots: &mut [[u8; RULE_BYTES]] = table[4..].as_chunks_mut().0;
    let mut rest = &book[4 + 4 * judged.n..];
    for (rule, entry) in contents.iter().enumerate() {
        let (body, after) = rest.split_at(entry_length(entry));
        spread(body, &mut slots[rule]).ok_or(of_rule(5, rule))?;
        judged.add(Rule(&slots[rule]))?;
        rest = after;
    }
    judged.closed()
}

/// The entries, where they fit the book: "Each next start is the previous start
/// plus the previous length. The last body ends at the book's end".
fn contents(book: &[u8], n: usize) -> Option<&[[u8; 4]]> {
    let mut start = 4 + 4 * n;
    let entries: &[[u8; 4]] = book.get(4..start)?.as_chunks().0;
    for entry in entries {
        if usize::from(u16::from_le_bytes([entry[0], entry[1]])) != start {
            return None;
        }
        start += entry_length(entry);
    }
    (start == book.len()).then_some(entries)
}

fn entry_length(entry: &[u8; 4]) -> usize {
    u16::from_le_bytes([entry[2], entry[3]]).into()
}

/// A body into an empty slot; nothing where its counts can't be or don't make
/// its length.
fn spread(body: &[u8], slot: &mut [u8; RULE_BYTES]) -> Option<()> {
    let (head, parts) = body.split_at_checked(12)?;
    slot[..12].copy_from_slice(head);
    let (t, a, m) = Rule(slot).counts();
    if t > 8 || a > 8 || m > 16 || parts.len() != 12 * t + 20 * a + m {
        return None;
    }
    let (tests, parts) = parts.split_at(12 * t);
    let (assigns, letters) = parts.split_at(20 * a);
    slot[12..][..tests.len()].copy_from_slice(tests);
    slot[108..][..assigns.len()].copy_from_slice(assigns);
    slot[268..][..letters.len()].copy_from_slice(letters);
    Some(())
}

/// "A refused write leaves the buffer untouched; a done write leaves the bytes
/// after the book untouched."
pub fn write(table: &TableBytes, out: &mut [u8], written: &mut u32) -> u32 {
    *written = 0;
    let refused = size(table, written);
    if refused != 0 {
        return refused;
    }
    let Some(book) = out.get_mut(..*written as usize) else {
        *written = 0;
        return whole(18);
    };
    book[..4].copy_from_slice(&[1, table[1], table[2], 0]);
    let (contents, mut bodies) = book[4..].split_at_mut(4 * usize::from(table[1]));
    let entries: &mut [[u8; 4]] = contents.as_chunks_mut().0;
    let mut start = 4 + 4 * entries.len();
    for (entry, rule) in entries.iter_mut().zip(rules(table)) {
        let length = body_length(rule);
        let [[s, t], [l, m]] = [start, length].map(|number| (number as u16).to_le_bytes());
        *entry = [s, t, l, m];
        let (body, after) = bodies.split_at_mut(length);
        gather(rule, body);
        (start, bodies) = (start + length, after);
    }
    0
}

pub fn size(table: &TableBytes, size: &mut u32) -> u32 {
    let entry = |rule: Rule| 4 + body_length(rule) as u32;
    let answer = sound(table).map(|_| 4 + rules(table).map(entry).sum::<u32>());
    *size = answer.unwrap_or(0);
    code(answer.map(|_| ()))
}

/// "12 + 12t + 20a + m"
fn body_length(rule: Rule) -> usize {
    let (t, a, m) = rule.counts();
    12 + 12 * t + 20 * a + m
}

/// A slot's body, into bytes of its length.
fn gather(rule: Rule, body: &mut [u8]) {
    let (t, a, m) = rule.counts();
    let (head, letters) = body.split_at_mut(12 + 12 * t + 20 * a);
    let (head, assigns) = head.split_at_mut(12 + 12 * t);
    head.copy_from_slice(&rule.0[..12 + 12 * t]);
    assigns.copy_from_slice(&rule.0[108..108 + 20 * a]);
    letters.copy_from_slice(&rule.letters()[..m]);
}
