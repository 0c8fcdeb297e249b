//! The books to try, and the directory that holds them.

use crate::compose::{add, give, rule, share, table, tested, with_constant, EQUAL, MORE};
use crate::table::{Rule, Table, MOST_RULES};
use crate::write::bytes_of;
use std::collections::BTreeSet;
use std::fs;
use std::path::Path;

/// The one file of the directory that is no book.
const README: &str = "README.md";

/// Every book of the directory with its file name.
pub fn all() -> Vec<(&'static str, Table)> {
    vec![
        ("empty", empty()),
        ("tax", tax()),
        ("swap", swap()),
        ("circle", circle()),
        ("unordered", unordered()),
        ("ordered", ordered()),
        ("night", night()),
        ("staircase", staircase()),
        ("raise", raise()),
        ("display", display()),
        ("bonus", bonus()),
    ]
}

/// "bytes 01 00 01 00: no rules"
pub fn empty() -> Table {
    table(1, &[])
}

/// "tax book, 43 bytes"
pub fn tax() -> Table {
    table(2, &[rule("tax", &[0], &[], &[share(1, 0, 1, 8)])])
}

/// "one rule sets cell 0 to cell 1 and cell 1 to cell 0 (each + 0)"
pub fn swap() -> Table {
    let assigns = [add(0, 1, 0), add(1, 0, 0)];
    table(3, &[rule("swap", &[2], &[], &assigns)])
}

/// "a rule that watches and writes cell 0"
pub fn circle() -> Table {
    table(1, &[rule("again", &[0], &[], &[add(0, 0, 1)])])
}

/// "tax watches cell 0 and writes cell 1, post watches and reads cell 1 and
/// writes cell 2, unordered"
pub fn unordered() -> Table {
    tax_and_post(&[])
}

/// "With tax before post"
pub fn ordered() -> Table {
    tax_and_post(&[1])
}

fn tax_and_post(precedes: &[usize]) -> Table {
    let tax = rule("tax", &[0], precedes, &[share(1, 0, 1, 8)]);
    let post = rule("post", &[1], &[], &[add(2, 1, 0)]);
    table(3, &[tax, post])
}

/// "Rule 0 watches cell 0, sets cell 1 to cell 0 + 1. Rule 1 watches cell 0,
/// sets cell 2 to 9. Rule 2 watches cell 1, sets cell 2 to 7, goes before 0
/// and 1."
pub fn night() -> Table {
    let rules = [
        rule("count", &[0], &[], &[add(1, 0, 1)]),
        rule("lamp", &[0], &[], &[give(2, 9)]),
        rule("close", &[1], &[0, 1], &[give(2, 7)]),
    ];
    table(3, &rules)
}

/// "32 rules, rule i writes cell i and watches all lower cells"
pub fn staircase() -> Table {
    stairs(MOST_RULES)
}

/// A staircase of so many rules and cells.
pub fn stairs(count: usize) -> Table {
    let stair = |i: usize| {
        let lower: Vec<usize> = (0..i).collect();
        let cell = i as u8;
        rule(&format!("stair-{i}"), &lower, &[], &[add(cell, cell, 1)])
    };
    let rules: Vec<Rule> = (0..count).map(stair).collect();
    table(count as u8, &rules)
}

/// The cells of the three examples of source document 003, for one employee.
const SALES: u8 = 0;
const SALARY: u8 = 1;
const RANK: u8 = 2;
const BONUS: u8 = 3;

/// Example 4.2 of source document 003.
pub fn raise() -> Table {
    let rules = [good_sales(&[]), great_sales(), rank_raise(&[0, 1])];
    table(3, &rules)
}

/// Example 4.3 of source document 003.
pub fn display() -> Table {
    table(3, &[good_sales(&[]), rank_raise(&[0]), new_rank()])
}

/// Example 4.4 of source document 003.
pub fn bonus() -> Table {
    table(4, &[bonus_rank(&[2]), good_sales(&[2]), new_rank()])
}

/// "increases an employee's salary by 10 whenever that employee posts sales
/// greater than 50"
fn good_sales(precedes: &[usize]) -> Rule {
    let rule = rule("good-sales", &[0], precedes, &[add(SALARY, SALARY, 10)]);
    tested(rule, &[with_constant(SALES, MORE, 50)])
}

/// "increases an employee's rank by 1 whenever that employee posts sales
/// greater than 100"
fn great_sales() -> Rule {
    let rule = rule("great-sales", &[0], &[], &[add(RANK, RANK, 1)]);
    tested(rule, &[with_constant(SALES, MORE, 100)])
}

/// "increases an employee's salary by 10% whenever that employee's rank
/// reaches 15"
fn rank_raise(precedes: &[usize]) -> Rule {
    let raised = share(SALARY, SALARY, 11, 10);
    let rule = rule("rank-raise", &[2], precedes, &[raised]);
    tested(rule, &[with_constant(RANK, EQUAL, 15)])
}

/// "displays an employee's ID, rank, and salary .. whenever that employee's
/// rank is modified": a display is no cell, so no assignment is left.
fn new_rank() -> Rule {
    rule("new-rank", &[2], &[], &[])
}

/// "whenever an employee's bonus is increased by more than 100, that
/// employee's rank is increased by 1": the cell holds the increase.
fn bonus_rank(precedes: &[usize]) -> Rule {
    let rule = rule("bonus-rank", &[3], precedes, &[add(RANK, RANK, 1)]);
    tested(rule, &[with_constant(BONUS, MORE, 100)])
}

/// Writes every book into the directory.
pub fn write_all(directory: &Path) -> Result<(), String> {
    for (name, table) in all() {
        let file = directory.join(name);
        fs::write(&file, bytes_of(&table)).map_err(|error| format!("{name}: {error}"))?;
    }
    Ok(())
}

/// Whether the directory holds exactly these books, beside its README.
pub fn check_all(directory: &Path) -> Result<(), String> {
    let mut expected = BTreeSet::from([README.to_string()]);
    for (name, table) in all() {
        let file = directory.join(name);
        let bytes = fs::read(&file).map_err(|error| format!("{name}: {error}"))?;
        if bytes != bytes_of(&table) {
            return Err(format!("{name}: differs from the book in books.rs"));
        }
        expected.insert(name.to_string());
    }
    let found = file_names(directory)?;
    match found.difference(&expected).next() {
        Some(extra) => Err(format!("{extra}: no such book in books.rs")),
        None => Ok(()),
    }
}

fn file_names(directory: &Path) -> Result<BTreeSet<String>, String> {
    let entries = fs::read_dir(directory).map_err(|error| error.to_string())?;
    let name = |entry: std::io::Result<fs::DirEntry>| match entry {
        Ok(entry) => Ok(entry.file_name().to_string_lossy().into_owned()),
        Err(error) => Err(error.to_string()),
    };
    entries.map(name).collect()
}
