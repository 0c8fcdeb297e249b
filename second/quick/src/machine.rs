//! Fresh states, steps, postings and runs; numbers 11 to 16.

use crate::check::sound;
use crate::image::{in_range, number_32, number_64, rules, slots, Assign, Rule, Test};
use crate::masks::{below, has, members, turned, Row};
use crate::{code, refuse_when, whole, AmountsBytes, StateBytes, TableBytes, DONE};

pub fn fresh(table: &TableBytes, amounts: &AmountsBytes, state: &mut StateBytes) -> u32 {
    state.fill(0);
    state[..256].copy_from_slice(amounts);
    let answer = sound(table).and_then(|_| State::fitting(table, state));
    if answer.is_err() {
        state.fill(0);
    }
    code(answer.map(|_| ()))
}

/// A step: 11, 12, 13, 14.
pub fn step(table: &TableBytes, state: &mut StateBytes, rule: u32) -> u32 {
    let stepped = || -> Result<State, u32> {
        let before = sound(table)?;
        let mut live = State::fitting(table, state)?;
        refuse_when(rule >= table[1].into(), whole(12))?;
        let rule = rule as usize;
        refuse_when(!has(live.waiting, rule), whole(13))?;
        let held = members(live.waiting).any(|other| has(before[other], rule));
        refuse_when(held, whole(14))?;
        let changed = live.step(Rule(&slots(table)[rule]), rule);
        live.waiting |= watching(table, changed);
        Ok(live)
    };
    code(stepped().map(|live| live.store(state)))
}

/// A posting: 11, 16.
pub fn post(table: &TableBytes, state: &mut StateBytes, cell: u32, value: i64) -> u32 {
    let posted = || -> Result<State, u32> {
        sound(table)?;
        let mut live = State::fitting(table, state)?;
        let taken = cell < table[2].into() && in_range(value);
        refuse_when(!taken, whole(16))?;
        let changed = u32::from(live.cells[cell as usize] != value) << cell;
        live.cells[cell as usize] = value;
        live.waiting |= watching(table, changed);
        Ok(live)
    };
    code(posted().map(|live| live.store(state)))
}

/// A run: 11, then 15 with the state reached and the steps taken.
pub fn run(table: &TableBytes, state: &mut StateBytes, budget: u32, steps: &mut u32) -> u32 {
    *steps = 0;
    let ready = sound(table).and_then(|before| Ok((before, State::fitting(table, state)?)));
    let (before, mut live) = match ready {
        Ok(ready) => ready,
        Err(refused) => return refused,
    };
    let ahead = turned(&before[..table[1].into()]);
    *steps = live.run(table, &ahead, budget);
    live.store(state);
    match live.waiting {
        0 => DONE,
        _ => whole(15),
    }
}

/// The rules that watch one of these cells.
fn watching(table: &TableBytes, changed: u32) -> u32 {
    let wakes = |(number, rule): (usize, Rule)| u32::from(rule.watch() & changed != 0) << number;
    rules(table).enumerate().map(wakes).sum()
}

/// "A state is the cells, a mask of waiting rules and a mask of fault marks."
struct State {
    cells: [i64; 32],
    waiting: u32,
    faults: u32,
}

impl State {
    /// 11: "the state or mask doesn't fit the book"
    fn fitting(table: &TableBytes, bytes: &StateBytes) -> Result<State, u32> {
        let state = State {
            cells: std::array::from_fn(|cell| number_64(bytes, 8 * cell)),
            waiting: number_32(bytes, 256),
            faults: number_32(bytes, 260),
        };
        let (used, rest) = state.cells.split_at(table[2].into());
        let masks = state.waiting | state.faults;
        let fits = masks & !below(table[1].into()) == 0
            && used.iter().all(|&amount| in_range(amount))
            && rest.iter().all(|&amount| amount == 0);
        refuse_when(!fits, whole(11))?;
        Ok(state)
    }

    fn store(&self, bytes: &mut StateBytes) {
        let amounts: &mut [[u8; 8]] = bytes[..256].as_chunks_mut().0;
        for (amount, cell) in amounts.iter_mut().zip(self.cells) {
            *amount = cell.to_le_bytes();
        }
        bytes[256..260].copy_from_slice(&self.waiting.to_le_bytes());
        bytes[260..].copy_from_slice(&self.faults.to_le_bytes());
    }

    /// The steps taken. `ahead` says for each rule which rules go before it.
    fn run(&mut self, table: &TableBytes, ahead: &Row, budget: u32) -> u32 {
        let mut watch = [0; 32];
        for (mask, rule) in watch.iter_mut().zip(rules(table)) {
            *mask = rule.watch();
        }
        let watchers = turned(&watch[..table[1].into()]);
        let slots = slots(table);
        for steps in 0..budget {
            let first = |rule: &usize| ahead[*rule] & self.waiting == 0;
            let Some(rule) = members(self.waiting).find(first) else {
                return steps;
            };
            let changed = self.step(Rule(&slots[rule]), rule);
            for cell in members(changed) {
                self.waiting |= watchers[cell];
            }
        }
        budget
    }

    /// A step on rule r but for waking: gives the cells whose value now differs.
    fn step(&mut self, rule: Rule, r: usize) -> u32 {
        self.waiting &= !(1 << r);
        if !rule.tests().all(|test| self.holds(&test)) {
            return 0;
        }
        let mut values = [0; 8];
        for (value, assign) in values.iter_mut().zip(rule.assigns()) {
            *value = self.right_side(&assign);
            if !in_range(*value) {
                self.faults |= 1 << r;
                return 0;
            }
        }
        let mut changed = 0;
        for (value, assign) in values.into_iter().zip(rule.assigns()) {
            let cell = &mut self.cells[assign.target];
            changed |= u32::from(*cell != value) << assign.target;
            *cell = value;
        }
        changed
    }

    fn holds(&self, test: &Test) -> bool {
        let left = self.cells[test.left];
        let right = match test.kind {
            0 => test.constant,
            _ => self.cells[test.right],
        };
        match test.comparison {
            0 => left == right,
            1 => left != right,
            2 => left < right,
            3 => left <= right,
            4 => left > right,
            _ => left >= right,
        }
    }

    /// An amount times p is at most 10^18, so that 64 bits are enough.
    fn right_side(&self, assign: &Assign) -> i64 {
        let a = self.cells[assign.a];
        match assign.operation {
            0 => assign.k,
            1 => a + assign.k,
            2 => a + self.cells[assign.b],
            3 => a - self.cells[assign.b],
            _ => a * i64::from(assign.p) / i64::from(assign.q),
        }
    }
}
