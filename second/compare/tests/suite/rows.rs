//! The editor's rows: of the generator, of tables, too long, and cut within a
//! record.

use crate::tally::Tally;
use compare::answers::Answers;
use compare::border::{number_and_place, rows, REPORT_BYTES};
use compare::layout::{report_bytes, row_bytes};
use compare::lent::Lent;
use second::analysis::{records, report_of_records, Record};
use second::generate::{records as generated, table, Random};
use std::cell::RefCell;

const ROWS: u64 = 10_000;

#[test]
fn rows_of_the_generator() {
    let mut tally = Tally::new("the editor's rows");
    compare_rows(None, &mut tally, ROWS);
    tally.close(30_000, &[0, 3, 6, 10], 100);
}

pub fn compare_rows(answers: Option<&RefCell<Answers>>, tally: &mut Tally, rows: u64) {
    for seed in 0..rows {
        let random = &mut Random::new(seed);
        let row = generated(seed);
        tally.add(same_report(answers, &row, random.below(16)));
        tally.add(same_report(answers, &records(&table(seed)), 0));
        let mut long = row;
        while long.len() < 32 {
            long.push(Record::default());
        }
        long.truncate(random.between(31, 32));
        if random.chance(30) {
            long.extend([Record::default(); 2]);
        }
        tally.add(same_report(answers, &long, 0));
    }
}

/// The report and what is returned, with so many bytes of one more record.
fn same_report(answers: Option<&RefCell<Answers>>, row: &[Record], cut: usize) -> (u32, u32) {
    let told = report_of_records(row);
    let mut bytes = row_bytes(row);
    bytes.extend(vec![0xFF; cut]);
    let lent = Lent::new(&bytes);
    let mut out = Lent::new(&[0xA5; REPORT_BYTES]);
    let memory = out.bytes_mut().try_into().expect("a report's bytes");
    let code = match answers {
        None => rows(lent.bytes(), memory),
        Some(c) => c.borrow_mut().rows(lent.bytes(), memory),
    };
    assert_eq!(out.bytes(), report_bytes(&told), "{row:?}");
    assert!(
        out.guards_are_whole(),
        "written beside the report of {row:?}"
    );
    let given = number_and_place(code);
    assert_eq!(given, (told.number.into(), told.place.into()), "{row:?}");
    given
}
