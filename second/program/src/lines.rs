//! The report program's text.

use crate::analysis::{bound, report, Report};
use crate::read::read;
use crate::sets::{mask_below, members};
use crate::table::Table;

/// "It reads a book from standard input (at most 9,221 bytes)": one byte more
/// than the largest book tells a longer input from it.
pub const MOST_INPUT: usize = 9_221;

/// "prints four lines"; "A refused book prints one line: `refused` number
/// place."
pub fn lines(book: &[u8]) -> String {
    let (number, place, table) = read(book);
    if number != 0 {
        return format!("refused {number} {place}\n");
    }
    let report = report(&table);
    let verdict = if report.cleared { "yes" } else { "no" };
    let (ends, pairs) = (ends_line(&table, &report), pairs_line(&report));
    let (n, k) = (table.n, table.k);
    format!("book {n} {k}\n{ends}\n{pairs}\ncleared {verdict}\n")
}

/// "`ends yes` and the step bound of all rules, or `ends no` and the faulty
/// rule numbers upward"
fn ends_line(table: &Table, report: &Report) -> String {
    if report.faulty == 0 {
        let all = mask_below(table.used_rules().len());
        let (_, _, steps) = bound(table, all);
        return format!("ends yes {steps}");
    }
    let faulty = members(report.faulty);
    let numbers: String = faulty.iter().map(|rule| format!(" {rule}")).collect();
    format!("ends no{numbers}")
}

/// "`pairs` and the failing count, and if not 0 the first pair and its two
/// culprits"
fn pairs_line(report: &Report) -> String {
    if report.failing == 0 {
        return "pairs 0".to_string();
    }
    let ((i, j), (r, s)) = (report.first, report.culprits);
    format!("pairs {} {i} {j} {r} {s}", report.failing)
}
