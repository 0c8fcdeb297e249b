//! Masks as sets, and graphs of rules. A mask is turned into a set as soon as
//! it comes in.

use std::collections::BTreeSet;

pub type Set = BTreeSet<usize>;

/// For each rule, the rules to which an edge leads.
pub type Graph = Vec<Set>;

/// The numbers whose bit is in the mask.
pub fn members(mask: u32) -> Set {
    (0..32).filter(|i| (mask >> i) % 2 == 1).collect()
}

/// The mask with exactly these bits.
pub fn mask_of(set: &Set) -> u32 {
    set.iter().map(|i| 1 << i).sum()
}

/// The mask of the numbers below `count`, at most 32.
pub fn mask_below(count: usize) -> u32 {
    mask_of(&(0..count).collect())
}

/// The mask with one number more.
pub fn with(mask: u32, number: usize) -> u32 {
    let mut set = members(mask);
    set.insert(number);
    mask_of(&set)
}

/// The mask with one number less.
pub fn without(mask: u32, number: usize) -> u32 {
    let mut set = members(mask);
    set.remove(&number);
    mask_of(&set)
}

/// Whether some number is in both.
pub fn meets(left: &Set, right: &Set) -> bool {
    left.iter().any(|member| right.contains(member))
}

/// All rules that can be reached from `start` over one edge or more.
pub fn reached(graph: &Graph, start: usize) -> Set {
    let mut found = Set::new();
    let mut pending: Vec<usize> = graph[start].iter().copied().collect();
    while let Some(rule) = pending.pop() {
        if found.insert(rule) {
            pending.extend(&graph[rule]);
        }
    }
    found
}

/// "directly or through others"
pub fn through_others(graph: &Graph) -> Graph {
    (0..graph.len()).map(|rule| reached(graph, rule)).collect()
}

/// "those that reach themselves"; empty exactly when the graph has no cycle.
pub fn reaching_themselves(graph: &Graph) -> Set {
    (0..graph.len())
        .filter(|&rule| reached(graph, rule).contains(&rule))
        .collect()
}
