//! "The first that applies is given": wherever two numbers apply at once, the
//! earlier one wins. Every claim is made for all pairs of a list of single
//! faults, each of which gives its own number when alone.

use crate::common::{book_of_bodies, fresh_with, read_number, sample, Change, DONE};
use second::analysis::bound;
use second::books;
use second::check::check;
use second::machine::{fresh, post, run, step, State};
use second::write::{bytes_of, write};

type Number = (u8, u8);

/// A fault of a whole table, with the number that it gives alone.
type TableFault = (Number, Change);

/// A fault of a book's bytes.
type ByteFault = (Number, fn(&mut Vec<u8>));

/// The faults of rules in their order: rule 0 by 5 to 9, then rule 1. For each
/// two numbers some fault of the higher one stands in an earlier field than
/// some fault of the lower one, so that judging field by field would give
/// another answer; only the name is always last.
fn rule_faults() -> Vec<TableFault> {
    vec![
        ((5, 0), |t| t.rules[0].fourth = 1),
        ((6, 0), |t| t.rules[0].watch = 1 << 31),
        ((6, 0), |t| t.rules[0].assign[4].a = 5),
        ((7, 0), |t| t.rules[0].test[0].right = 1),
        ((7, 0), |t| t.rules[0].assign[4].q = 0),
        ((8, 0), |t| t.rules[0].assign[1].target = 0),
        ((9, 0), |t| t.rules[0].name[4] = b'T'),
        ((5, 1), |t| t.rules[1].fourth = 9),
        ((6, 1), |t| t.rules[1].precedes |= 1 << 2),
        ((7, 1), |t| t.rules[1].assign[0].q = 1),
        ((8, 1), |t| {
            t.rules[1].assigns = 2;
            t.rules[1].assign[1] = t.rules[1].assign[0];
        }),
        ((9, 1), |t| t.rules[1].name[0] = b'S'),
    ]
}

const BAD_K: TableFault = ((3, 255), |t| t.k = 33);
const CYCLE: TableFault = ((10, 255), |t| t.rules[1].precedes |= 0b10);
const SLOTS: [TableFault; 2] = [
    ((7, 2), |t| t.rules[2].name[15] = b'x'),
    ((7, 31), |t| t.rules[31].precedes = 1),
];

/// All faults of a table in memory, the first that applies first.
fn table_faults() -> Vec<TableFault> {
    let mut faults = vec![BAD_K];
    faults.extend(rule_faults());
    faults.extend(SLOTS);
    faults.push(CYCLE);
    faults
}

#[test]
fn in_memory() {
    let faults = table_faults();
    for (earlier, (number, first)) in faults.iter().enumerate() {
        let mut table = sample();
        first(&mut table);
        assert_eq!(check(&table), *number, "alone");
        for (later, second) in &faults[earlier + 1..] {
            let mut table = sample();
            second(&mut table);
            first(&mut table);
            assert_eq!(check(&table), *number, "with {later:?}");
        }
    }
}

#[test]
fn in_a_book() {
    let none: Change = |_| {};
    let untouched: fn(&mut Vec<u8>) = |_| {};
    let bytes: [ByteFault; 4] = [
        ((1, 255), |book| book.resize(9_221, 0)),
        ((2, 255), |book| book[3] = 1),
        ((3, 255), |book| book[2] = 0),
        ((4, 255), |book| book[8] += 1),
    ];
    let mut faults: Vec<_> = bytes.map(|(number, tear)| (number, none, tear)).into();
    let in_rules = rule_faults().into_iter().chain([CYCLE]);
    faults.extend(in_rules.map(|(number, spoil)| (number, spoil, untouched)));
    assert_eq!(read_number(&bytes_of(&sample())), DONE);
    for (earlier, first) in faults.iter().enumerate() {
        for second in &faults[earlier..] {
            let mut table = sample();
            (second.1)(&mut table);
            (first.1)(&mut table);
            let mut book = bytes_of(&table);
            (second.2)(&mut book);
            (first.2)(&mut book);
            let given = read_number(&book);
            assert_eq!(given, first.0, "{:?} with {:?}", first.0, second.0);
        }
    }
}

#[test]
fn rule_0_by_9_before_a_short_body_of_rule_1() {
    let named = |letter| [&[0; 10][..], &[1, 0, letter]].concat();
    let short = vec![0; 11];
    let book = |first: Vec<u8>| book_of_bodies(1, &[first, short.clone()]);
    assert_eq!(read_number(&book(named(b'A'))), (9, 0));
    assert_eq!(read_number(&book(named(b'a'))), (5, 1));
}

#[test]
fn the_tables_refusal_before_the_calls_own() {
    let mut unfitting = fresh_with(&sample(), &[]);
    unfitting.cells[0] = i64::MAX;
    let cells = unfitting.cells;
    for (number, spoil) in table_faults() {
        let mut table = sample();
        spoil(&mut table);
        let (n, p) = number;
        assert_eq!(fresh(&table, &cells), (n, p, State::default()));
        assert_eq!(step(&table, &unfitting, 99), (n, p, unfitting.clone()));
        assert_eq!(post(&table, &unfitting, 99, 0), (n, p, unfitting.clone()));
        assert_eq!(run(&table, &unfitting, 0), (n, p, unfitting.clone(), 0));
        assert_eq!(bound(&table, u32::MAX), (n, p, 0));
        assert_eq!(write(&table, &mut [0; 1]), (n, p, 0));
    }
    // Alone, each of these calls has a number of its own.
    let sample = sample();
    assert_eq!(fresh(&sample, &cells).0, 11);
    assert_eq!(step(&sample, &unfitting, 99).0, 11);
    assert_eq!(post(&sample, &unfitting, 99, 0).0, 11);
    assert_eq!(run(&sample, &unfitting, 0).0, 11);
    assert_eq!(bound(&sample, u32::MAX).0, 11);
    assert_eq!(write(&sample, &mut [0; 1]).0, 18);
}

#[test]
fn step_11_12_13_14() {
    let night = books::night();
    let fitting = fresh_with(&night, &[]);
    let mut unfitting = fitting.clone();
    unfitting.faults = 1 << 3;
    assert_eq!(step(&night, &fitting, 3).0, 12);
    assert_eq!(step(&night, &unfitting, 3).0, 11);
    assert_eq!(step(&night, &fitting, 0).0, 13);
    assert_eq!(step(&night, &unfitting, 0).0, 11);
    // A waiting bit of rule 3 makes it neither a rule nor one that waits.
    let mut waiting_beyond = fitting.clone();
    waiting_beyond.waiting = 1 << 3;
    assert_eq!(step(&night, &waiting_beyond, 3).0, 11);
    let mut blocked = fitting.clone();
    blocked.waiting = 0b101;
    assert_eq!(step(&night, &blocked, 0).0, 14);
    assert_eq!(step(&night, &blocked, 1).0, 13);
    blocked.cells[3] = 1;
    assert_eq!(step(&night, &blocked, 0).0, 11);
}

#[test]
fn post_11_16_and_bound_11_17() {
    let circle = books::circle();
    let mut state = fresh_with(&circle, &[]);
    assert_eq!(post(&circle, &state, 1, 0).0, 16);
    state.waiting = 0b10;
    assert_eq!(post(&circle, &state, 0, 0).0, 11);
    assert_eq!(post(&circle, &state, 1, 0).0, 11);
    assert_eq!(bound(&circle, 0b1), (17, 255, 0));
    assert_eq!(bound(&books::tax(), 0b10), (11, 255, 0));
    assert_eq!(bound(&circle, 0b10), (11, 255, 0));
}

#[test]
fn run_11_15() {
    let night = books::night();
    let mut state = fresh_with(&night, &[]);
    state.waiting = 0b001;
    assert_eq!(run(&night, &state, 0), (15, 255, state.clone(), 0));
    state.cells[0] = i64::MIN;
    assert_eq!(run(&night, &state, 0), (11, 255, state.clone(), 0));
}
