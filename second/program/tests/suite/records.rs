//! The editor's rows of four-mask records.

use crate::common::{assert_only_zeros, report_on};
use second::analysis::{records, report_of_records, Record};
use second::books;
use second::generate;
use std::collections::BTreeMap;

/// Number and place of a row; refused, the report has only zeros beside them.
fn number_of(row: &[Record]) -> (u8, u8) {
    let report = report_of_records(row);
    if report.number != 0 {
        assert_only_zeros(&report);
    }
    (report.number, report.place)
}

#[test]
fn the_same_report_as_the_table() {
    for (_, table) in books::all() {
        assert_eq!(report_of_records(&records(&table)), report_on(&table));
    }
    for seed in 0..500 {
        let table = generate::table(seed);
        assert_eq!(report_of_records(&records(&table)), report_on(&table));
    }
}

#[test]
fn number_3_is_for_a_row_over_32() {
    assert_eq!(number_of(&[Record::default(); 32]), (0, 255));
    assert_eq!(number_of(&[Record::default(); 33]), (3, 255));
    let naming_itself = Record {
        precedes: 1,
        ..Record::default()
    };
    assert_eq!(number_of(&[naming_itself; 33]), (3, 255));
}

#[test]
fn numbers_6_and_10_are_for_precedes() {
    let row = |masks: [u32; 3]| {
        masks.map(|precedes| Record {
            precedes,
            ..Record::default()
        })
    };
    assert_eq!(number_of(&row([0b110, 0b100, 0])), (0, 255));
    assert_eq!(number_of(&row([0b110, 0b1000, 0])), (6, 1));
    assert_eq!(number_of(&row([0b110, 0, 1 << 31])), (6, 2));
    assert_eq!(number_of(&row([0b010, 0b001, 0])), (10, 255));
    assert_eq!(number_of(&row([0, 0, 0b100])), (10, 255));
    assert_eq!(number_of(&row([0b001, 0b1000, 0])), (6, 1));
}

#[test]
fn cells_beyond_any_book_are_cells_all_the_same() {
    let far = Record {
        writes: 1 << 31,
        ..Record::default()
    };
    let near = Record {
        writes: 1 << 30,
        ..Record::default()
    };
    let report = report_of_records(&[far, far, near]);
    assert_eq!((report.failing, report.first), (1, (0, 1)));
    assert_eq!(report.marks[31], 1);
}

#[test]
fn the_generator_gives_every_number() {
    let mut numbers: BTreeMap<u8, usize> = BTreeMap::new();
    for seed in 0..3_000 {
        let (number, _) = number_of(&generate::records(seed));
        *numbers.entry(number).or_default() += 1;
    }
    let given: Vec<u8> = numbers.keys().copied().collect();
    assert_eq!(given, [0, 3, 6, 10], "{numbers:?}");
}
