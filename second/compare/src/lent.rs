//! Memory lent to a call, with guard bytes on both sides.

const GUARD: usize = 64;
const GUARD_BYTE: u8 = 0x5A;

/// Bytes between guards. `check_guards` fails where a call wrote beside them.
pub struct Lent(Vec<u8>);

impl Lent {
    /// These bytes, lent.
    pub fn new(bytes: &[u8]) -> Lent {
        let mut lent = Lent(Vec::with_capacity(GUARD + bytes.len() + GUARD));
        lent.fill(bytes);
        lent
    }

    /// These bytes instead, between fresh guards.
    pub fn fill(&mut self, bytes: &[u8]) {
        self.0.clear();
        self.0.extend([GUARD_BYTE; GUARD]);
        self.0.extend(bytes);
        self.0.extend([GUARD_BYTE; GUARD]);
    }

    pub fn bytes(&self) -> &[u8] {
        &self.0[GUARD..self.0.len() - GUARD]
    }

    pub fn bytes_mut(&mut self) -> &mut [u8] {
        let end = self.0.len() - GUARD;
        &mut self.0[GUARD..end]
    }

    pub fn guards_are_whole(&self) -> bool {
        let (before, rest) = self.0.split_at(GUARD);
        let after = &rest[rest.len() - GUARD..];
        before.iter().chain(after).all(|&byte| byte == GUARD_BYTE)
    }
}

/// What a lent number is before a call; no call gives it back by chance.
pub const OLD_NUMBER: u32 = 0xA5A5_A5A5;

/// A 32-bit number between guard words.
pub struct Word([u32; 3]);

impl Word {
    pub fn new() -> Word {
        let guard = u32::from_ne_bytes([GUARD_BYTE; 4]);
        Word([guard, OLD_NUMBER, guard])
    }

    pub fn number_mut(&mut self) -> &mut u32 {
        &mut self.0[1]
    }

    /// The number; fails where a call wrote beside it.
    pub fn number(&self) -> u32 {
        let fresh = Word::new().0;
        let whole = self.0[0] == fresh[0] && self.0[2] == fresh[2];
        assert!(whole, "written beside a number");
        self.0[1]
    }
}

impl Default for Word {
    fn default() -> Word {
        Word::new()
    }
}
