//! The analysis piece by piece, on rows of four-mask records.

use crate::common::unordered_pairs;
use second::analysis::{pairs, records, report_of_records, Record, Rules};
use second::compose::mask;
use second::generate;
use second::sets::Set;

/// A record that watches, writes and precedes these.
fn record(watch: &[usize], writes: &[usize], precedes: &[usize]) -> Record {
    Record {
        watch: mask(watch),
        reads: 0,
        writes: mask(writes),
        precedes: mask(precedes),
    }
}

#[test]
fn faulty_rules_are_those_on_a_cycle() {
    // 0 leads to the cycle of 1 and 2, which leads to 3; 4 stands alone.
    let row = [
        record(&[], &[0], &[]),
        record(&[0, 2], &[1], &[]),
        record(&[1], &[2, 3], &[]),
        record(&[3], &[], &[]),
        record(&[4], &[4], &[]),
    ];
    let report = report_of_records(&row);
    assert_eq!((report.faulty, report.cleared), (0b10110, false));
    assert!(report.marks.contains(&1) && report.failing > 0);
    assert_eq!(report_of_records(&row[3..4]).faulty, 0);
}

#[test]
fn a_cycle_alone_keeps_a_book_from_being_cleared() {
    let report = report_of_records(&[record(&[0], &[0], &[])]);
    assert_eq!(
        (report.faulty, report.failing, report.cleared),
        (1, 0, false)
    );
    let report = report_of_records(&[record(&[0], &[1], &[])]);
    assert_eq!(
        (report.faulty, report.failing, report.cleared),
        (0, 0, true)
    );
}

#[test]
fn weights_add_up_along_every_way() {
    // 0 may trigger 1 and 2, each of which may trigger 3.
    let row = [
        record(&[], &[0], &[]),
        record(&[0], &[1], &[]),
        record(&[0], &[2], &[]),
        record(&[1, 2], &[], &[]),
    ];
    assert_eq!(Rules::of(&row).weights(), Some(vec![5, 2, 2, 1]));
}

#[test]
fn what_keeps_two_rules_from_commuting() {
    let first = record(&[], &[0], &[]);
    let reader = Record {
        reads: 1,
        ..Record::default()
    };
    for (second, expected) in [
        (record(&[0], &[], &[]), false),
        (reader, false),
        (record(&[], &[0], &[]), false),
        (record(&[1], &[1], &[]), true),
        (Record::default(), true),
    ] {
        for row in [[first, second], [second, first]] {
            assert_eq!(Rules::of(&row).commute(0, 1), expected);
        }
    }
    // Reading or watching the same cell disturbs nobody.
    let watcher = record(&[0], &[], &[]);
    assert!(Rules::of(&[watcher, reader]).commute(0, 1));
    assert!(Rules::of(&[watcher, watcher]).commute(0, 1));
    assert!(Rules::of(&[record(&[0], &[0], &[])]).commute(0, 0));
}

#[test]
fn the_sets_grow_from_one_another() {
    // 0 may trigger 2 and 4, 1 may trigger 3 and 5. 2 goes before 1, so R1
    // gets it; then 3, which goes before 2, joins R2; then 4, which goes
    // before 3, joins R1. 5 goes before nobody.
    let row = [
        record(&[], &[0], &[]),
        record(&[], &[1], &[]),
        record(&[0], &[], &[1]),
        record(&[1], &[], &[2]),
        record(&[0], &[], &[3]),
        record(&[1], &[], &[]),
    ];
    let grown = Rules::of(&row).grown(0, 1);
    assert_eq!(grown, (Set::from([0, 2, 4]), Set::from([1, 3])));
    let grown = Rules::of(&row).grown(1, 0);
    assert_eq!(grown, (Set::from([1, 3]), Set::from([0, 2, 4])));
}

#[test]
fn growing_goes_from_rule_to_rule() {
    // 0 may trigger 2, which may trigger 3; both go before 1.
    let row = |second: &[usize]| {
        [
            record(&[], &[0], &[]),
            record(&[], &[9], &[]),
            record(&[0], &[1], second),
            record(&[1], &[9], &[1]),
        ]
    };
    let grown = Rules::of(&row(&[1])).grown(0, 1);
    assert_eq!(grown, (Set::from([0, 2, 3]), Set::from([1])));
    assert_eq!(report_of_records(&row(&[1])).culprits, (3, 1));
    // Where 2 goes before nobody, it doesn't join, and so 3 doesn't either.
    let grown = Rules::of(&row(&[])).grown(0, 1);
    assert_eq!(grown, (Set::from([0]), Set::from([1])));
}

/// Source document 003 keeps j out of R1 and i out of R2. The paper needn't:
/// each rule that joins goes before one of the other set, and so, from rule to
/// rule, before i or j; j doing so would be ordered before i, or before itself.
#[test]
fn neither_rule_of_a_pair_joins_the_other_set() {
    let mut grown = 0;
    for seed in 0..300 {
        let rules = Rules::of(&records(&generate::table(seed)));
        for (i, j) in unordered_pairs(&rules) {
            let (r1, r2) = rules.grown(i, j);
            assert!(!r1.contains(&j) && !r2.contains(&i), "seed {seed}");
            grown += usize::from(r1.len() + r2.len() > 2);
        }
    }
    assert!(grown >= 100, "{grown} pairs grew");
}

/// R1 is {0, 3, 4}, R2 is {1, 2, 5}; 3 clashes with `third`, 4 with `fourth`.
fn culprits_of(third: &[usize], fourth: &[usize]) -> ((u8, u8), (u8, u8)) {
    let mut row = [
        record(&[], &[0], &[]),
        record(&[], &[1], &[]),
        record(&[1], &[], &[0]),
        record(&[0], &[], &[1]),
        record(&[0], &[], &[1]),
        record(&[1], &[], &[0]),
    ];
    for (rule, clashing) in [(3, third), (4, fourth)] {
        for &other in clashing {
            let cell = 1 << (10 + 6 * rule + other - 18);
            row[rule].writes |= cell;
            row[other].reads |= cell;
        }
    }
    let grown = Rules::of(&row).grown(0, 1);
    assert_eq!(grown, (Set::from([0, 3, 4]), Set::from([1, 2, 5])));
    let report = report_of_records(&row);
    (report.first, report.culprits)
}

#[test]
fn the_culprits_are_the_lowest_of_r1_and_then_of_r2() {
    assert_eq!(culprits_of(&[5], &[1, 2]), ((0, 1), (3, 5)));
    assert_eq!(culprits_of(&[2, 5], &[1]), ((0, 1), (3, 2)));
    assert_eq!(culprits_of(&[], &[2, 5]), ((0, 1), (4, 2)));
}

#[test]
fn one_mark_for_each_pair() {
    assert_eq!(pairs().len(), 496);
    assert_eq!(
        (pairs()[0], pairs()[30], pairs()[31]),
        ((0, 1), (0, 31), (1, 2))
    );
    for (pair, (i, j)) in pairs().into_iter().enumerate() {
        let mut row = [Record::default(); 32];
        row[i].writes = 1;
        row[j].writes = 1;
        let report = report_of_records(&row);
        let mut expected = [1; 496];
        expected[pair] = 2;
        assert_eq!((report.marks, report.failing), (expected, 1));
        let both = (i as u8, j as u8);
        assert_eq!((report.first, report.culprits), (both, both));
    }
}

#[test]
fn ordered_and_absent_pairs_have_no_mark() {
    let report = report_of_records(&[
        record(&[], &[0], &[1]),
        record(&[], &[0], &[2]),
        record(&[], &[0], &[]),
        record(&[], &[1], &[]),
    ]);
    let mut expected = [0; 496];
    for (pair, (i, j)) in pairs().into_iter().enumerate() {
        expected[pair] = u8::from(j == 3 && i < 3);
    }
    assert_eq!((report.marks, report.cleared), (expected, true));
}
