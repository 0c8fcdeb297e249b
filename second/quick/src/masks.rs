//! Masks of 32 bits, and rows of them: a graph of rules.

pub type Row = [u32; 32];

/// The bits below `count`, at most 32.
pub fn below(count: usize) -> u32 {
    ((1u64 << count) - 1) as u32
}

pub fn has(mask: u32, number: usize) -> bool {
    mask >> number & 1 == 1
}

/// The numbers in the mask, upward.
pub fn members(mut mask: u32) -> impl Iterator<Item = usize> {
    std::iter::from_fn(move || {
        let lowest = mask.trailing_zeros();
        mask &= mask.wrapping_sub(1);
        (lowest < 32).then_some(lowest as usize)
    })
}

/// "directly or through others"
pub fn close(graph: &mut [u32]) {
    for through in 0..graph.len() {
        let reached = graph[through];
        for row in &mut *graph {
            *row |= reached & (*row >> through & 1).wrapping_neg();
        }
    }
}

/// Those that reach themselves, of a closed graph.
pub fn on_cycle(closed: &[u32]) -> u32 {
    let own = |(number, row): (usize, &u32)| row & 1 << number;
    closed.iter().enumerate().map(own).sum()
}

/// Bit i of row j is bit j of row i.
pub fn turned(rows: &[u32]) -> Row {
    let mut out = [0; 32];
    for (i, row) in rows.iter().enumerate() {
        for (j, turned) in out.iter_mut().enumerate() {
            *turned |= (row >> j & 1) << i;
        }
    }
    out
}
