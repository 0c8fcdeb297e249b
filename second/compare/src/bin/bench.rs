//! How long the proved library takes for the same work beside the second
//! program and the quick program: ratios of the medians of many rounds of one
//! run, the three taking turns. The second program takes its own tables by
//! reference, the other two the border's bytes.
//!
//! cargo run --release --offline -p compare --bin bench

use compare::border::{ReportBytes, REPORT_BYTES, TABLE_BYTES};
use compare::calls::{Calls, LIBRARY, QUICK};
use compare::clock::{Times, Work};
use compare::layout::{bytes_of, row_bytes, state_bytes};
use compare::shapes::{chain, dense, full, upside_down, with_priorities, without_end};
use second::analysis::{records, Report};
use second::books::{empty, night};
use second::generate;
use second::machine::State;
use second::sets::mask_below;
use second::table::Table;
use std::hint::black_box;

/// The goals, as ratios to the quick program.
const CALL: Option<f64> = Some(4.0);
const REPORT: Option<f64> = Some(6.0);
const LONG_RUN: Option<f64> = Some(8.0);
const NO_GOAL: Option<f64> = None;
/// Number and place of a run that goes on.
const GOES_ON: u32 = 15 + 256 * 255;
/// How many random books a line of them has.
const RANDOM: usize = 16;

fn main() {
    println!("The library's time for the same work, divided by that of the second program and by");
    println!("that of the quick program. The ratios mean something; the microseconds, of one call");
    println!("or step of the library on this machine, hardly do.");
    println!();
    println!("| what | to the second program | to the quick program | goal | microseconds |");
    println!("|---|---|---|---|---|");
    for (name, table) in [("full", full(32)), ("night", night()), ("empty", empty())] {
        line(&format!("read, {name}"), CALL, read(&table));
        line(&format!("check, {name}"), CALL, check(&table));
        line(&format!("rewrite, {name}"), CALL, rewrite(&table));
    }
    line("report, sparse", REPORT, report(&[chain(32)]));
    line("report, dense", REPORT, report(&[dense(32)]));
    for rules in [12, 32] {
        let what = format!("report, random books of {rules} rules");
        line(&what, REPORT, report(&random_books(rules)));
    }
    line("step, night", CALL, step(&night()));
    line("step, one rule of 32", CALL, step(&chain(32)));
    let (plain, ordered) = (upside_down(32), with_priorities(upside_down(32)));
    for (steps, goal) in [(31, NO_GOAL), (100_000, LONG_RUN)] {
        for (table, name) in [(&plain, "without"), (&ordered, "with")] {
            let what = format!("a step in a run of {steps}, {name} priorities");
            line(&what, goal, run(table, steps));
        }
    }
    for count in [12, 32] {
        let what = format!("rows, {count} records");
        line(&what, NO_GOAL, rows(&random_books(count)));
    }
    growth();
}

/// A line of the first table. Above its goal it says so.
fn line(what: &str, goal: Option<f64>, times: Times) {
    let (second, quick) = ratios(times);
    let told = match goal {
        None => String::new(),
        Some(most) if quick <= most => format!("at most {most}"),
        Some(most) => format!("at most {most}: **above**"),
    };
    let library = times.library;
    println!("| {what} | {second:.2} | {quick:.2} | {told} | {library:.3} |");
}

fn ratios(times: Times) -> (f64, f64) {
    (times.library / times.second, times.library / times.quick)
}

/// Each call on 4, 8, 16 and 32 rules.
fn growth() {
    println!();
    println!(
        "How each grows: the ratios to the second program and to the quick program on 4, 8, 16"
    );
    println!("and 32 rules; then how many times as long as on 4 rules each program takes on 32.");
    println!();
    println!("| what | 4 rules | 8 | 16 | 32 | library | second | quick |");
    println!("|---|---|---|---|---|---|---|---|");
    grows("read, full rules", |count| read(&full(count)));
    grows("check, full rules", |count| check(&full(count)));
    grows("rewrite, full rules", |count| rewrite(&full(count)));
    grows("report, sparse", |count| report(&[chain(count)]));
    grows("report, dense", |count| report(&[dense(count)]));
    grows("step, chain", |count| step(&chain(count)));
    grows("a step in a run of 1,000, no end", |count| {
        run(&without_end(upside_down(count)), 1_000)
    });
    grows("rows, dense", |count| rows(&[dense(count)]));
}

fn grows(what: &str, times: impl Fn(usize) -> Times) {
    let all = [4, 8, 16, 32].map(times);
    let cells = all.map(|times| {
        let (second, quick) = ratios(times);
        format!("{second:.2}, {quick:.2}")
    });
    let (few, many) = (all[0], all[3]);
    println!(
        "| {what} | {} | {:.1} | {:.1} | {:.1} |",
        cells.join(" | "),
        many.library / few.library,
        many.second / few.second,
        many.quick / few.quick
    );
}

/// The first tables of the generator that have so many rules.
fn random_books(rules: u8) -> Vec<Table> {
    let tables = (0..).map(generate::table);
    tables.filter(|t| t.n == rules).take(RANDOM).collect()
}

/// The same work of all three; `made` says what a program of the border does.
fn work<'a, Call: FnMut() + 'a>(
    made: impl Fn(&'static Calls) -> Call,
    second: impl FnMut() + 'a,
) -> Work<'a> {
    Work {
        library: Box::new(made(&LIBRARY)),
        second: Box::new(second),
        quick: Box::new(made(&QUICK)),
    }
}

/// Every call must be done.
fn done(number: impl Into<u32>) {
    assert_eq!(black_box(number.into()), 0, "a sound book was refused");
}

fn read(table: &Table) -> Times {
    let book = &second::write::bytes_of(table);
    let made = |calls: &'static Calls| {
        let mut bytes = [0; TABLE_BYTES];
        move || done((calls.read)(black_box(book), &mut bytes))
    };
    work(made, || done(second::read::read(black_box(book)).0)).times()
}

fn check(table: &Table) -> Times {
    let bytes = &bytes_of(table);
    let made = |calls: &'static Calls| move || done((calls.check)(black_box(bytes)));
    work(made, || done(second::check::check(black_box(table)).0)).times()
}

/// A book read and written again.
fn rewrite(table: &Table) -> Times {
    let book = &second::write::bytes_of(table);
    let made = |calls: &'static Calls| {
        let (mut bytes, mut out, mut written) = ([0; TABLE_BYTES], book.clone(), 0);
        move || {
            done((calls.read)(black_box(book), &mut bytes));
            done((calls.write)(black_box(&bytes), &mut out, &mut written));
        }
    };
    let mut out = book.clone();
    let second = || {
        let (number, _, table) = second::read::read(black_box(book));
        done(number);
        done(second::write::write(black_box(&table), &mut out).0);
    };
    work(made, second).times()
}

/// A report of each table.
fn report(tables: &[Table]) -> Times {
    let inputs: Vec<_> = tables.iter().map(|t| (bytes_of(t), t.clone())).collect();
    reports(
        &inputs,
        |calls, bytes, out| (calls.report)(bytes, out),
        second::analysis::report,
    )
}

/// A report of each table's rows.
fn rows(tables: &[Table]) -> Times {
    let rows = tables.iter().map(records);
    let inputs: Vec<_> = rows.map(|row| (row_bytes(&row), row)).collect();
    reports(
        &inputs,
        |calls, bytes, out| (calls.rows)(bytes, out),
        |row| second::analysis::report_of_records(row),
    )
}

/// A report of each input: bytes for the border, and what the second program
/// takes.
fn reports<Bytes, Own>(
    inputs: &[(Bytes, Own)],
    border: impl Fn(&Calls, &Bytes, &mut ReportBytes) -> u32 + Copy,
    second: impl Fn(&Own) -> Report,
) -> Times {
    let made = |calls: &'static Calls| {
        let mut out = [0; REPORT_BYTES];
        move || {
            for (bytes, _) in inputs {
                done(border(calls, black_box(bytes), &mut out));
            }
        }
    };
    let second = || {
        for (_, own) in inputs {
            done(second(black_box(own)).number);
        }
    };
    each(work(made, second).times(), inputs.len())
}

/// One step, on rule 0.
fn step(table: &Table) -> Times {
    let bytes = &bytes_of(table);
    let start = &waiting(1);
    let lent = state_bytes(start);
    let made =
        |calls: &'static Calls| move || done((calls.step)(black_box(bytes), &mut lent.clone(), 0));
    let second = || done(second::machine::step(table, black_box(start), 0).0);
    work(made, second).times()
}

/// A step of a run that goes on after so many, all rules waiting.
fn run(table: &Table, budget: u32) -> Times {
    let bytes = &bytes_of(table);
    let start = &waiting(mask_below(table.n.into()));
    let lent = state_bytes(start);
    let made = |calls: &'static Calls| {
        move || {
            let (mut state, mut steps) = (lent, 0);
            let code = (calls.run)(black_box(bytes), &mut state, budget, &mut steps);
            assert_eq!((code, steps), (GOES_ON, budget), "the run ended");
        }
    };
    let second = || {
        let (number, _, _, steps) = second::machine::run(table, black_box(start), budget);
        assert_eq!((number, steps), (15, budget), "the run ended");
    };
    each(work(made, second).times(), budget as usize)
}

/// All amounts 0, and these rules wait.
fn waiting(rules: u32) -> State {
    State {
        waiting: rules,
        ..State::default()
    }
}

/// The times of one of so many.
fn each(times: Times, count: usize) -> Times {
    let one = |time: f64| time / count as f64;
    Times {
        library: one(times.library),
        second: one(times.second),
        quick: one(times.quick),
    }
}
