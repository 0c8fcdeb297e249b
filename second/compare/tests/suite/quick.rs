//! The quick program and the proved library: each call on equal memory, which
//! must be equal afterwards. What the library gives on such inputs is compared
//! with the second program in the other files.

use crate::machine::scene;
use crate::tally::Tally;
use compare::border::{
    number_and_place, TableBytes, AMOUNTS_BYTES, REPORT_BYTES, STATE_BYTES, TABLE_BYTES,
};
use compare::calls::{Calls, LIBRARY, QUICK};
use compare::full::full_book;
use compare::layout::{amounts_bytes, bytes_of, row_bytes, state_bytes};
use compare::lent::OLD_NUMBER;
use compare::same::hex;
use compare::shapes::{chain, dense, upside_down, with_priorities};
use second::analysis::{pairs, Record};
use second::books;
use second::generate::{
    book, calls, noise_table, records, small_table, spoil, state, table, tear, Random,
};
use second::machine::State;
use second::table::Table;

const BOOKS: u64 = 16_000;
const TABLES: u64 = 16_000;
const SMALL: u64 = 25_000;
const SCENES: u64 = 30_000;
const ROWS: u64 = 16_000;
/// What a book can be given, and what a table can.
const OF_BOOKS: [usize; 11] = [0, 1, 2, 3, 4, 5, 6, 7, 8, 9, 10];
const OF_TABLES: [usize; 8] = [0, 3, 5, 6, 7, 8, 9, 10];

/// Makes a call on both. Gives number and place.
fn same<Left: PartialEq>(
    what: &str,
    input: &[u8],
    call: impl Fn(&Calls) -> (u32, Left),
) -> (u32, u32) {
    let (library, quick) = (call(&LIBRARY), call(&QUICK));
    let told = || format!("{what}; {}", hex(input));
    assert_eq!(quick.0, library.0, "number and place of {}", told());
    assert!(quick.1 == library.1, "memory differs after {}", told());
    number_and_place(library.0)
}

fn same_read(book: &[u8]) -> (u32, u32) {
    same("read", book, |calls| {
        let mut table = [0xA5; TABLE_BYTES];
        ((calls.read)(book, &mut table), table)
    })
}

fn same_lines(book: &[u8], room: usize) -> (u32, u32) {
    same("lines", book, |calls| {
        let (mut out, mut length) = (vec![0xA5; room], OLD_NUMBER);
        let code = (calls.lines)(book, &mut out, &mut length);
        (code, (out, length))
    })
}

fn same_check(table: &TableBytes) -> (u32, u32) {
    same("check", table, |calls| ((calls.check)(table), ()))
}

fn same_rows(row: &[u8]) -> (u32, u32) {
    same("rows", row, |calls| {
        let mut out = [0xA5; REPORT_BYTES];
        ((calls.rows)(row, &mut out), out)
    })
}

fn same_run(table: &Table, start: &State, budget: u32) -> (u32, u32) {
    let bytes = bytes_of(table);
    same(&format!("run by {budget}"), &bytes, |calls| {
        let (mut state, mut steps) = (state_bytes(start), OLD_NUMBER);
        let code = (calls.run)(&bytes, &mut state, budget, &mut steps);
        (code, (state, steps))
    })
}

/// The report's bytes of the library, for what it says.
fn same_report(table: &TableBytes) -> [u8; REPORT_BYTES] {
    let report = |calls: &Calls| {
        let mut out = [0xA5; REPORT_BYTES];
        ((calls.report)(table, &mut out), out)
    };
    same("report", table, report);
    report(&LIBRARY).1
}

#[test]
fn books_and_lines() {
    let mut tally = Tally::new("quick: books, whole and torn");
    let mut lines = Tally::new("quick: their lines");
    for seed in 0..BOOKS {
        let random = &mut Random::new(!seed);
        let mut book = book(seed);
        for _ in 0..5 {
            tally.add(same_read(&book));
            lines.add(same_lines(
                &book,
                random.pick(&[512, 512, 0, 30, 33, 36, 40]),
            ));
            tear(random, &mut book);
        }
    }
    tally.close(80_000, &OF_BOOKS, 50);
    lines.close(80_000, &OF_BOOKS, 50);
}

/// Every length of the largest book, and every byte of it changed.
#[test]
fn lengths_and_changes() {
    let mut tally = Tally::new("quick: lengths and changes of the largest book");
    let mut book = full_book();
    for length in 0..book.len() {
        tally.add(same_read(&book[..length]));
        let kept = book[length];
        book[length] = kept.wrapping_add(if length % 2 == 0 { 1 } else { 128 });
        tally.add(same_read(&book));
        book[length] = kept;
    }
    book.resize(9_300, 0);
    for length in 9_220..=9_300 {
        tally.add(same_read(&book[..length]));
    }
    tally.close(18_000, &[0, 1, 2, 3, 4, 5, 6, 7, 8, 9], 1);
}

/// How many calls on tables got which number, and what the reports said.
struct Tables {
    checks: Tally,
    bounds: Tally,
    writes: Tally,
    cleared: usize,
    cyclic: usize,
    failing: usize,
}

impl Tables {
    fn new(what: &'static str) -> Tables {
        Tables {
            checks: Tally::new(what),
            bounds: Tally::new("quick: step bounds of the same"),
            writes: Tally::new("quick: writes of the same"),
            cleared: 0,
            cyclic: 0,
            failing: 0,
        }
    }

    /// The calls that take no state.
    fn add(&mut self, seed: u64, table: &Table) {
        let bytes = &bytes_of(table);
        self.checks.add(same_check(bytes));
        let report = same_report(bytes);
        self.cleared += usize::from(report[2] == 1);
        self.cyclic += usize::from(report[4..8] != [0; 4]);
        self.failing += usize::from(report[8..10] != [0; 2]);
        let set = calls(seed, table).set;
        self.bounds.add(same("bound", bytes, |calls| {
            let mut bound = OLD_NUMBER;
            ((calls.bound)(bytes, set, &mut bound), bound)
        }));
        let size = |calls: &Calls| {
            let mut size = OLD_NUMBER;
            ((calls.size)(bytes, &mut size), size)
        };
        same("size", bytes, size);
        let room = (size(&LIBRARY).1 as usize + 2).saturating_sub(seed as usize % 5);
        self.writes.add(same("write", bytes, |calls| {
            let (mut out, mut length) = (vec![0xA5; room], OLD_NUMBER);
            let code = (calls.write)(bytes, &mut out, &mut length);
            (code, (out, length))
        }));
    }

    /// At least so many, the refusals and each verdict so many times.
    fn close(self, least: usize, refusals: &[usize], each: usize) {
        let (cleared, cyclic, failing) = (self.cleared, self.cyclic, self.failing);
        self.checks.close(least, refusals, each);
        self.bounds.close(least, &[0, 11, 17], each);
        self.writes.close(least, &[0, 18], each);
        println!("  cleared {cleared}, with a cycle {cyclic}, with a failing pair {failing}");
        assert!(cleared.min(cyclic).min(failing) >= each, "too much alike");
    }
}

#[test]
fn tables_sound_and_unsound() {
    let mut tables = Tables::new("quick: tables, sound, spoiled and noise");
    for seed in 0..TABLES {
        let mut table = table(seed);
        tables.add(seed, &table);
        let random = &mut Random::new(!seed);
        spoil(random, &mut table);
        tables.add(random.bits(), &table);
        spoil(random, &mut table);
        tables.add(random.bits(), &table);
        tables.add(seed, &noise_table(seed));
    }
    tables.close(64_000, &OF_TABLES, 100);
}

/// Also with a rule that watches one cell more.
#[test]
fn small_tables_and_the_papers() {
    let mut tables = Tables::new("quick: small tables");
    for seed in 0..SMALL {
        let mut small = small_table(seed);
        tables.add(seed, &small);
        let random = &mut Random::new(!seed);
        let rule = random.below(usize::from(small.n));
        small.rules[rule].watch |= 1 << random.below(usize::from(small.k));
        tables.add(random.bits(), &small);
    }
    for (_, book) in books::all() {
        tables.add(0, &book);
    }
    for count in [4, 8, 16, 32] {
        tables.add(0, &chain(count));
        tables.add(0, &dense(count));
        tables.add(0, &upside_down(count));
    }
    tables.close(50_000, &[0], 1_000);
}

/// Every byte of the night book's table, bytes 0 and 3 too, set to 1 and to 255.
#[test]
fn every_byte_of_a_table() {
    let mut tally = Tally::new("quick: every byte of a table");
    let mut bytes = bytes_of(&books::night());
    for place in 0..TABLE_BYTES {
        let kept = bytes[place];
        for byte in [1, 255] {
            bytes[place] = byte;
            tally.add(same_check(&bytes));
        }
        bytes[place] = kept;
    }
    tally.close(2 * TABLE_BYTES, &[0, 3, 5, 6, 7, 9], 1);
}

/// Each two of 32 rules: one name, or each before the other.
#[test]
fn every_two_rules() {
    let mut tally = Tally::new("quick: every two rules");
    for (i, j) in pairs() {
        let mut named = chain(32);
        named.rules[j].name = named.rules[i].name;
        named.rules[j].letters = named.rules[i].letters;
        tally.add(same_check(&bytes_of(&named)));
        let mut ordered = chain(32);
        ordered.rules[i].precedes = 1 << j;
        tally.add(same_check(&bytes_of(&ordered)));
        ordered.rules[j].precedes = 1 << i;
        tally.add(same_check(&bytes_of(&ordered)));
    }
    tally.close(3 * 496, &[0, 9, 10], 496);
}

#[test]
fn states() {
    let mut fresh = Tally::new("quick: fresh states");
    let mut steps = Tally::new("quick: steps");
    let mut posts = Tally::new("quick: postings");
    let mut runs = Tally::new("quick: runs");
    for seed in 0..SCENES {
        let (mut random, table, state, with) = scene(seed);
        let bytes = &bytes_of(&table);
        let amounts: [u8; AMOUNTS_BYTES] = amounts_bytes(&state.cells);
        fresh.add(same("fresh", bytes, |calls| {
            let mut out = [0xA5; STATE_BYTES];
            ((calls.fresh)(bytes, &amounts, &mut out), out)
        }));
        let posted = |calls: &Calls| {
            let mut out = state_bytes(&state);
            let code = (calls.post)(bytes, &mut out, with.cell, with.value);
            (code, out)
        };
        posts.add(same("post", bytes, posted));
        for rule in [with.rule, random.below(6) as u32, random.below(6) as u32] {
            steps.add(same(&format!("step on {rule}"), bytes, |calls| {
                let (_, mut out) = posted(calls);
                ((calls.step)(bytes, &mut out, rule), out)
            }));
        }
        let budget = random.pick(&[with.budget, 300]);
        runs.add(same_run(&table, &state, budget));
    }
    fresh.close(30_000, &[0, 6, 7, 11], 50);
    posts.close(30_000, &[0, 6, 7, 11, 16], 50);
    steps.close(90_000, &[0, 6, 7, 11, 12, 13, 14], 100);
    runs.close(30_000, &[0, 6, 7, 11, 15], 50);
}

/// 100,000 steps: the staircase upside down, and tables of any size.
#[test]
fn long_runs() {
    let mut tally = Tally::new("quick: long runs");
    let all = State {
        waiting: u32::MAX,
        ..State::default()
    };
    for table in [upside_down(32), with_priorities(upside_down(32))] {
        for budget in [31, 100_000] {
            let given = same_run(&table, &all, budget);
            assert_eq!(given.0, 15, "such a run goes on");
            tally.add(given);
        }
    }
    for seed in 0..400 {
        let any = table(seed);
        tally.add(same_run(&any, &state(!seed, &any), 1_000));
    }
    tally.close(400, &[0, 15], 10);
}

#[test]
fn the_editors_rows() {
    let mut tally = Tally::new("quick: the editor's rows");
    for seed in 0..ROWS {
        let random = &mut Random::new(!seed);
        let mut row = records(seed);
        let mut bytes = row_bytes(&row);
        bytes.extend(vec![0xFF; random.below(16)]);
        tally.add(same_rows(&bytes));
        row.resize(random.between(31, 33), Record::default());
        tally.add(same_rows(&row_bytes(&row)));
    }
    tally.close(32_000, &[0, 3, 6, 10], 100);
}
