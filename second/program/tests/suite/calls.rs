//! Numbers 11 to 18: each with the nearest call that is done.

use crate::common::{fresh_with, posted_to_zeros, sample, DONE, TRILLION};
use second::analysis::bound;
use second::books;
use second::compose::{add, rule, table};
use second::machine::{fresh, post, run, step, State};
use second::table::Table;
use second::write::{size, write};

/// The number of a posting, a step and a run from this state; each gives the
/// state back where it is refused.
fn numbers_from(table: &Table, state: &State) -> [(u8, u8); 3] {
    let posting = post(table, state, 0, state.cells[0]);
    let stepping = step(table, state, 0);
    let running = run(table, state, 0);
    for (number, given_back) in [(posting.0, &posting.2), (stepping.0, &stepping.2)] {
        assert!(number == 0 || given_back == state);
    }
    assert!(running.0 == 0 || (&running.2, running.3) == (state, 0));
    [
        (posting.0, posting.1),
        (stepping.0, stepping.1),
        (running.0, running.1),
    ]
}

fn expect_from(table: &Table, change: impl Fn(&mut State), fits: bool) {
    let mut state = fresh_with(table, &[]);
    change(&mut state);
    let numbers = numbers_from(table, &state);
    if fits {
        assert!(numbers.iter().all(|number| *number != (11, 255)));
        assert_eq!(numbers[0], DONE);
    } else {
        assert_eq!(numbers, [(11, 255); 3]);
    }
}

#[test]
fn number_11_for_cells() {
    let sample = sample();
    for limit in [TRILLION, -TRILLION] {
        for cell in [0, 4] {
            let beyond = limit + limit.signum();
            expect_from(&sample, |state| state.cells[cell] = limit, true);
            expect_from(&sample, |state| state.cells[cell] = beyond, false);
        }
    }
    for far in [i64::MAX, i64::MIN] {
        expect_from(&sample, |state| state.cells[2] = far, false);
    }
    for cell in [5, 31] {
        expect_from(&sample, |state| state.cells[cell] = 1, false);
        expect_from(&sample, |state| state.cells[cell] = 0, true);
    }
}

#[test]
fn number_11_for_masks() {
    let sample = sample();
    for (mask, fits) in [(0b10, true), (0b100, false), (1 << 31, false)] {
        expect_from(&sample, |state| state.waiting = mask, fits);
        expect_from(&sample, |state| state.faults = mask, fits);
    }
    let stairs = books::staircase();
    expect_from(&stairs, |state| state.waiting = u32::MAX, true);
}

#[test]
fn number_11_for_a_fresh_state() {
    let tax = books::tax();
    let mut amounts = [0; 32];
    amounts[..2].copy_from_slice(&[TRILLION, -TRILLION]);
    let (number, place, state) = fresh(&tax, &amounts);
    assert_eq!((number, place), DONE);
    assert_eq!((state.cells, state.waiting, state.faults), (amounts, 0, 0));
    for (cell, amount) in [
        (0, TRILLION + 1),
        (1, -TRILLION - 1),
        (2, 1),
        (31, i64::MIN),
    ] {
        let mut wrong = amounts;
        wrong[cell] = amount;
        assert_eq!(fresh(&tax, &wrong), (11, 255, State::default()));
    }
}

#[test]
fn number_11_for_a_set() {
    let ordered = books::ordered();
    assert_eq!(bound(&ordered, 0b10), (0, 255, 1));
    assert_eq!(bound(&ordered, 0b100), (11, 255, 0));
    assert_eq!(bound(&ordered, u32::MAX), (11, 255, 0));
    assert_eq!(bound(&books::empty(), 0), (0, 255, 0));
    assert_eq!(bound(&books::empty(), 1), (11, 255, 0));
}

#[test]
fn number_12() {
    let night = books::night();
    let mut state = fresh_with(&night, &[]);
    state.waiting = 0b111;
    assert_eq!(step(&night, &state, 2).0, 0);
    for rule in [3, 31, 32, 255, 256, u32::MAX] {
        assert_eq!(step(&night, &state, rule), (12, 255, state.clone()));
    }
    let nothing = fresh_with(&books::empty(), &[]);
    assert_eq!(step(&books::empty(), &nothing, 0).0, 12);
}

#[test]
fn number_13() {
    let night = books::night();
    for rule in 0..3 {
        let mut state = fresh_with(&night, &[]);
        assert_eq!(step(&night, &state, rule), (13, 255, state.clone()));
        state.waiting = 1 << rule;
        assert_eq!(step(&night, &state, rule).0, 0);
    }
}

#[test]
fn number_14() {
    let night = books::night();
    let mut state = fresh_with(&night, &[]);
    for rule in 0..2 {
        state.waiting = 0b111;
        assert_eq!(step(&night, &state, rule), (14, 255, state.clone()));
        state.waiting = 0b011;
        assert_eq!(step(&night, &state, rule).0, 0);
    }
    let plain = |i: usize, precedes: &[usize]| rule(&format!("r{i}"), &[], precedes, &[]);
    let chain = table(1, &[plain(0, &[1]), plain(1, &[2]), plain(2, &[])]);
    let mut state = fresh_with(&chain, &[]);
    state.waiting = 0b101;
    assert_eq!(step(&chain, &state, 2), (14, 255, state.clone()));
    assert_eq!(step(&chain, &state, 0).0, 0);
}

#[test]
fn number_15() {
    let night = books::night();
    let start = posted_to_zeros(&night, 0, 5);
    for budget in 0..3 {
        let (number, place, reached, steps) = run(&night, &start, budget);
        assert_eq!((number, place, steps), (15, 255, budget));
        assert_ne!(reached.waiting, 0);
        assert_eq!(reached == start, budget == 0);
    }
    for budget in [3, 4, u32::MAX] {
        let (number, place, reached, steps) = run(&night, &start, budget);
        assert_eq!((number, place, steps), (0, 255, 3));
        assert_eq!((reached.waiting, reached.cells[2]), (0, 9));
    }
    let nothing = fresh_with(&night, &[5, 6, 9]);
    assert_eq!(run(&night, &nothing, 0), (0, 255, nothing.clone(), 0));
}

#[test]
fn number_15_of_a_book_that_never_ends() {
    let circle = books::circle();
    let start = posted_to_zeros(&circle, 0, 1);
    let (number, place, reached, steps) = run(&circle, &start, 1_000);
    assert_eq!((number, place, steps), (15, 255, 1_000));
    assert_eq!((reached.cells[0], reached.waiting), (1_001, 1));
}

#[test]
fn number_16() {
    let tax = books::tax();
    let start = fresh_with(&tax, &[7, 8]);
    for (cell, value, number) in [
        (1, TRILLION, 0),
        (1, -TRILLION, 0),
        (1, TRILLION + 1, 16),
        (1, -TRILLION - 1, 16),
        (0, i64::MAX, 16),
        (0, i64::MIN, 16),
        (2, 0, 16),
        (32, 0, 16),
        (256, 0, 16),
        (u32::MAX, 0, 16),
    ] {
        let (given, place, after) = post(&tax, &start, cell, value);
        assert_eq!((given, place), (number, 255), "{value} to {cell}");
        match number {
            0 => assert_eq!(after.cells[cell as usize], value),
            _ => assert_eq!(after, start),
        }
    }
}

#[test]
fn number_17() {
    assert_eq!(bound(&books::circle(), 1), (17, 255, 0));
    assert_eq!(bound(&books::tax(), 1), (0, 255, 1));
    // Rules 0 and 1 trigger one another; the set asked about has neither.
    let second = |cell| {
        let first = rule("a", &[0], &[], &[add(1, 1, 1)]);
        let back = rule("b", &[1], &[], &[add(cell, cell, 1)]);
        table(3, &[first, back, rule("c", &[2], &[], &[])])
    };
    assert_eq!(bound(&second(0), 0b100), (17, 255, 0));
    assert_eq!(bound(&second(0), 0), (17, 255, 0));
    assert_eq!(bound(&second(2), 0b100), (0, 255, 1));
    assert_eq!(bound(&second(2), 0b111), (0, 255, 6));
}

#[test]
fn number_18() {
    for book in [books::tax(), books::night(), books::empty()] {
        let (number, place, length) = size(&book);
        assert_eq!((number, place), DONE);
        for short in [0, length - 1] {
            let mut buffer = vec![0xAA; short];
            assert_eq!(write(&book, &mut buffer), (18, 255, 0));
            assert!(buffer.iter().all(|&byte| byte == 0xAA));
        }
        for extra in [0, 5] {
            let mut buffer = vec![0xAA; length + extra];
            assert_eq!(write(&book, &mut buffer), (0, 255, length));
            assert_eq!(buffer[..3], [1, book.n, book.k]);
            assert!(buffer[length..].iter().all(|&byte| byte == 0xAA));
        }
    }
    assert_eq!(size(&books::tax()), (0, 255, 43));
    assert_eq!(size(&Table::empty()), (3, 255, 0));
}
