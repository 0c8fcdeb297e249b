//! A table's bytes, looked at where they lie.

use crate::TableBytes;

pub const RULE_BYTES: usize = 284;
pub const MOST_AMOUNT: u64 = 1_000_000_000_000;

pub fn number_32(bytes: &[u8], start: usize) -> u32 {
    u32::from_le_bytes(*bytes[start..].first_chunk().expect("4 bytes"))
}

pub fn number_64(bytes: &[u8], start: usize) -> i64 {
    i64::from_le_bytes(*bytes[start..].first_chunk().expect("8 bytes"))
}

pub fn in_range(amount: i64) -> bool {
    amount.unsigned_abs() <= MOST_AMOUNT
}

pub fn is_zero(bytes: &[u8]) -> bool {
    let (words, rest) = bytes.as_chunks();
    let word = words
        .iter()
        .fold(0, |all, word| all | u64::from_ne_bytes(*word));
    word == 0 && rest.iter().all(|&byte| byte == 0)
}

/// The 32 slots of a table.
pub fn slots(table: &TableBytes) -> &[[u8; RULE_BYTES]] {
    table[4..].as_chunks().0
}

/// The rules that count, of a table whose n fits.
pub fn rules(table: &TableBytes) -> impl Iterator<Item = Rule<'_>> {
    slots(table)[..usize::from(table[1])].iter().map(Rule)
}

/// One rule, its masks, counts and parts.
#[derive(Clone, Copy)]
pub struct Rule<'a>(pub &'a [u8; RULE_BYTES]);

impl<'a> Rule<'a> {
    pub fn watch(self) -> u32 {
        number_32(self.0, 0)
    }

    pub fn precedes(self) -> u32 {
        number_32(self.0, 4)
    }

    /// t, a and m.
    pub fn counts(self) -> (usize, usize, usize) {
        let count = |place: usize| usize::from(self.0[place]);
        (count(8), count(9), count(10))
    }

    pub fn tests(self) -> impl Iterator<Item = Test> + 'a {
        let slots: &[[u8; 12]] = self.0[12..108].as_chunks().0;
        slots[..self.counts().0].iter().map(Test::of)
    }

    pub fn assigns(self) -> impl Iterator<Item = Assign> + 'a {
        let slots: &[[u8; 20]] = self.0[108..268].as_chunks().0;
        slots[..self.counts().1].iter().map(Assign::of)
    }

    pub fn letters(self) -> &'a [u8; 16] {
        self.0.last_chunk().expect("16 letters")
    }
}

pub struct Test {
    pub left: usize,
    pub comparison: u8,
    pub kind: u8,
    pub right: usize,
    pub constant: i64,
}

impl Test {
    fn of(bytes: &[u8; 12]) -> Test {
        Test {
            left: bytes[0].into(),
            comparison: bytes[1],
            kind: bytes[2],
            right: bytes[3].into(),
            constant: number_64(bytes, 4),
        }
    }
}

pub struct Assign {
    pub target: usize,
    pub operation: u8,
    pub a: usize,
    pub b: usize,
    pub k: i64,
    pub p: u32,
    pub q: u32,
}

impl Assign {
    fn of(bytes: &[u8; 20]) -> Assign {
        Assign {
            target: bytes[0].into(),
            operation: bytes[1],
            a: bytes[2].into(),
            b: bytes[3].into(),
            k: number_64(bytes, 4),
            p: number_32(bytes, 12),
            q: number_32(bytes, 16),
        }
    }
}
