//! What the generator gives is what comparisons need: every number, every
//! verdict, every code occurs, and the same seed gives the same.

use crate::common::{assert_only_zeros, report_on, DONE};
use second::analysis::{bound, report};
use second::check::check;
use second::generate;
use second::machine::{fresh, post, run, step};
use second::table::{Rule, Table};
use second::write::{bytes_of, write};
use std::collections::{BTreeMap, BTreeSet};

#[test]
fn the_same_seed_gives_the_same() {
    let mut books = BTreeSet::new();
    for seed in 0..200 {
        let table = generate::table(seed);
        assert_eq!(table, generate::table(seed));
        assert_eq!(generate::unsound_table(seed), generate::unsound_table(seed));
        assert_eq!(generate::torn_book(seed), generate::torn_book(seed));
        assert_eq!(generate::records(seed), generate::records(seed));
        assert_eq!(generate::state(seed, &table), generate::state(seed, &table));
        books.insert(bytes_of(&table));
    }
    assert!(books.len() >= 150, "{} different books", books.len());
}

#[test]
fn sound_tables_of_every_kind() {
    let mut kinds: BTreeMap<&str, usize> = BTreeMap::new();
    let mut sizes = BTreeSet::new();
    for seed in 0..1_000 {
        let table = generate::table(seed);
        assert_eq!(check(&table), DONE, "seed {seed}");
        let report = report_on(&table);
        let passes = report.marks.contains(&1);
        let ordered = table.rules.iter().any(|rule| rule.precedes != 0);
        for (kind, occurs) in [
            ("cleared, 8 rules or more", report.cleared && table.n >= 8),
            ("with a cycle", report.faulty != 0),
            (
                "failing pairs without a cycle",
                !report.cleared && report.faulty == 0,
            ),
            ("passing pairs", passes),
            ("failing and passing pairs", passes && report.failing > 0),
            ("priorities", ordered),
            ("the largest book", bytes_of(&table).len() == 9_220),
        ] {
            *kinds.entry(kind).or_default() += usize::from(occurs);
        }
        sizes.insert((table.n, table.k));
    }
    assert!(kinds.values().all(|&count| count >= 10), "{kinds:?}");
    for bound in [0, 32] {
        assert!(sizes.iter().any(|&(n, _)| n == bound));
        assert!(sizes.iter().any(|&(_, k)| k == bound.max(1)));
    }
}

#[test]
fn every_code_occurs() {
    let mut codes = BTreeSet::new();
    for seed in 0..300 {
        let table = generate::table(seed);
        for rule in table.used_rules() {
            let tests = rule.used_tests().iter();
            codes.extend(tests.map(|test| ("test", 10 * test.kind + test.comparison)));
            let assigns = rule.used_assigns().iter();
            codes.extend(assigns.map(|assign| ("assign", assign.operation)));
        }
    }
    assert_eq!(codes.len(), 2 * 6 + 5, "{codes:?}");
}

#[test]
fn unsound_tables_give_every_number_and_nothing_panics() {
    let mut numbers: BTreeMap<u8, usize> = BTreeMap::new();
    for seed in 0..8_000 {
        let table = match seed % 4 {
            0 => generate::noise_table(seed),
            _ => generate::unsound_table(seed),
        };
        let number = check(&table);
        *numbers.entry(number.0).or_default() += 1;
        every_call_gives(&table, seed, number);
    }
    for number in [0, 3, 5, 6, 7, 8, 9, 10] {
        assert!(numbers.get(&number) >= Some(&20), "{numbers:?}");
    }
    assert!(numbers[&0] < 2_000, "{numbers:?}");
}

/// Every call on an unsound table gives the table's number and nothing else.
fn every_call_gives(table: &Table, seed: u64, (number, place): (u8, u8)) {
    let state = generate::state(seed, table);
    let wrong = generate::unfitting_state(seed, table);
    let calls = generate::calls(seed, table);
    for state in [state, wrong] {
        let stepping = step(table, &state, calls.rule);
        let posting = post(table, &state, calls.cell, calls.value);
        let running = run(table, &state, calls.budget);
        let starting = fresh(table, &state.cells);
        if number != 0 {
            assert_eq!(stepping, (number, place, state.clone()));
            assert_eq!(posting, (number, place, state.clone()));
            assert_eq!(running, (number, place, state.clone(), 0));
            assert_eq!(starting, (number, place, Default::default()));
        }
    }
    let mut buffer = vec![7; 9_220];
    let report = report(table);
    let bound = bound(table, calls.set);
    let writing = write(table, &mut buffer);
    if number != 0 {
        assert_eq!((report.number, report.place), (number, place));
        assert_only_zeros(&report);
        assert_eq!(bound, (number, place, 0));
        assert_eq!(writing, (number, place, 0));
        assert!(buffer.iter().all(|&byte| byte == 7));
    }
}

#[test]
fn states_fit_or_not_and_calls_give_every_number() {
    let mut numbers = BTreeSet::new();
    for seed in 0..3_000 {
        let table = generate::table(seed);
        let state = generate::state(seed, &table);
        let wrong = generate::unfitting_state(seed, &table);
        let calls = generate::calls(seed, &table);
        assert_eq!(post(&table, &state, 0, 0).0, 0);
        assert_eq!(post(&table, &wrong, 0, 0).0, 11);
        numbers.insert(step(&table, &state, calls.rule).0);
        numbers.insert(post(&table, &state, calls.cell, calls.value).0);
        numbers.insert(run(&table, &state, calls.budget).0);
        numbers.insert(bound(&table, calls.set).0);
    }
    assert_eq!(numbers, [0, 11, 12, 13, 14, 15, 16, 17].into());
}

#[test]
fn slots_past_n_are_spoiled_too() {
    let filled = |seed: &u64| {
        let table = generate::unsound_table(*seed);
        let slots = &table.rules[table.used_rules().len()..];
        check(&table).0 == 7 && slots.iter().any(|rule| *rule != Rule::default())
    };
    assert!((0..3_000).filter(filled).count() >= 20);
}
