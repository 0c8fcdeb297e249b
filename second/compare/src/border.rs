//! The calls of include/gwaunidor.h, declared here and nowhere else. Nothing
//! checks these lines against the header or the crate `gwaunidor`: keep them alike.

/// The bytes of a table in memory.
pub const TABLE_BYTES: usize = 9_092;
/// The bytes of a report.
pub const REPORT_BYTES: usize = 512;
/// The bytes of 32 amounts.
pub const AMOUNTS_BYTES: usize = 256;
/// The bytes of a state.
pub const STATE_BYTES: usize = 264;

pub type TableBytes = [u8; TABLE_BYTES];
pub type ReportBytes = [u8; REPORT_BYTES];
pub type AmountsBytes = [u8; AMOUNTS_BYTES];
pub type StateBytes = [u8; STATE_BYTES];

mod library {
    use super::{AmountsBytes, ReportBytes, StateBytes, TableBytes};

    extern "C" {
        pub fn gwaunidor_read(book: *const u8, length: usize, table: &mut TableBytes) -> u32;
        pub fn gwaunidor_check(table: &TableBytes) -> u32;
        pub fn gwaunidor_report(table: &TableBytes, out: &mut ReportBytes) -> u32;
        pub fn gwaunidor_bound(table: &TableBytes, set: u32, bound: &mut u32) -> u32;
        pub fn gwaunidor_fresh(
            table: &TableBytes,
            amounts: &AmountsBytes,
            state: &mut StateBytes,
        ) -> u32;
        pub fn gwaunidor_step(table: &TableBytes, state: &mut StateBytes, rule: u32) -> u32;
        pub fn gwaunidor_post(
            table: &TableBytes,
            state: &mut StateBytes,
            cell: u32,
            value: i64,
        ) -> u32;
        pub fn gwaunidor_run(
            table: &TableBytes,
            state: &mut StateBytes,
            budget: u32,
            steps: &mut u32,
        ) -> u32;
        pub fn gwaunidor_write(
            table: &TableBytes,
            out: *mut u8,
            out_len: usize,
            written: &mut u32,
        ) -> u32;
        pub fn gwaunidor_size(table: &TableBytes, size: &mut u32) -> u32;
        pub fn gwaunidor_lines(
            book: *const u8,
            length: usize,
            out: *mut u8,
            out_len: usize,
            written: &mut u32,
        ) -> u32;
        pub fn gwaunidor_rows(rows: *const u8, length: usize, out: &mut ReportBytes) -> u32;
    }
}

/// Number and place of what a call returned: "0 when done, else the paper's
/// number + 256 x place".
pub fn number_and_place(code: u32) -> (u32, u32) {
    match code {
        0 => (0, 255),
        _ => (code % 256, code / 256),
    }
}

/// Reads a book into the table.
pub fn read(book: &[u8], table: &mut TableBytes) -> u32 {
    // SAFETY: the pointer and the length are those of a slice, the table is
    // lent for this call alone.
    unsafe { library::gwaunidor_read(book.as_ptr(), book.len(), table) }
}

/// Checks a table.
pub fn check(table: &TableBytes) -> u32 {
    // SAFETY: the call only reads the table.
    unsafe { library::gwaunidor_check(table) }
}

/// The report on a table.
pub fn report(table: &TableBytes, out: &mut ReportBytes) -> u32 {
    // SAFETY: the call only reads the table; the report is lent for it alone.
    unsafe { library::gwaunidor_report(table, out) }
}

/// The step bound of a set of rules.
pub fn bound(table: &TableBytes, set: u32, bound: &mut u32) -> u32 {
    // SAFETY: the call only reads the table; the number is lent for it alone.
    unsafe { library::gwaunidor_bound(table, set, bound) }
}

/// A fresh state from 32 amounts.
pub fn fresh(table: &TableBytes, amounts: &AmountsBytes, state: &mut StateBytes) -> u32 {
    // SAFETY: the call only reads the table and the amounts; the state is lent
    // for it alone.
    unsafe { library::gwaunidor_fresh(table, amounts, state) }
}

/// One step on a rule.
pub fn step(table: &TableBytes, state: &mut StateBytes, rule: u32) -> u32 {
    // SAFETY: the call only reads the table; the state is lent for it alone.
    unsafe { library::gwaunidor_step(table, state, rule) }
}

/// A value posted to a cell.
pub fn post(table: &TableBytes, state: &mut StateBytes, cell: u32, value: i64) -> u32 {
    // SAFETY: as for a step.
    unsafe { library::gwaunidor_post(table, state, cell, value) }
}

/// A run with a budget of steps.
pub fn run(table: &TableBytes, state: &mut StateBytes, budget: u32, steps: &mut u32) -> u32 {
    // SAFETY: as for a step; the number is lent for this call alone.
    unsafe { library::gwaunidor_run(table, state, budget, steps) }
}

/// Writes a table as a book.
pub fn write(table: &TableBytes, out: &mut [u8], written: &mut u32) -> u32 {
    // SAFETY: the pointer and the length are those of a slice that is lent for
    // this call alone, and so is the number.
    unsafe { library::gwaunidor_write(table, out.as_mut_ptr(), out.len(), written) }
}

/// The length of a table's book.
pub fn size(table: &TableBytes, size: &mut u32) -> u32 {
    // SAFETY: the call only reads the table; the number is lent for it alone.
    unsafe { library::gwaunidor_size(table, size) }
}

/// The report program's lines for a book.
pub fn lines(book: &[u8], out: &mut [u8], written: &mut u32) -> u32 {
    // SAFETY: the pointers and the lengths are those of slices, of which the
    // call only reads the first; the second and the number are lent for it
    // alone.
    unsafe {
        library::gwaunidor_lines(
            book.as_ptr(),
            book.len(),
            out.as_mut_ptr(),
            out.len(),
            written,
        )
    }
}

/// The report on a row of the editor's records.
pub fn rows(rows: &[u8], out: &mut ReportBytes) -> u32 {
    // SAFETY: the pointer and the length are those of a slice, which the call
    // only reads; the report is lent for it alone.
    unsafe { library::gwaunidor_rows(rows.as_ptr(), rows.len(), out) }
}
