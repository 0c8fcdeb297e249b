//! Every book read is written back to the same bytes; every sound table
//! written is read back the same.

use crate::common::{book_of, DONE};
use second::books;
use second::generate;
use second::read::read;
use second::table::Table;
use second::write::{size, write};

/// Writes into a larger buffer: the book's bytes, and the rest untouched.
fn written(table: &Table) -> Vec<u8> {
    let mut buffer = vec![0x5A; 9_300];
    let (number, place, length) = write(table, &mut buffer);
    assert_eq!((number, place), DONE);
    assert_eq!(size(table), (0, 255, length));
    assert!(buffer[length..].iter().all(|&byte| byte == 0x5A));
    buffer.truncate(length);
    buffer
}

#[test]
fn read_then_written() {
    let mut done = 0;
    for seed in 0..3_000 {
        let book = generate::book(seed);
        let (number, place, table) = read(&book);
        match number {
            0 => {
                done += 1;
                assert_eq!(written(&table), book);
            }
            _ => assert_eq!((number, place), (10, 255)),
        }
    }
    assert!(done >= 2_500, "{done} done");
    assert!(done < 3_000, "no priorities with a cycle");
}

#[test]
fn written_then_read() {
    for seed in 0..3_000 {
        let table = generate::table(seed);
        assert_eq!(read(&written(&table)), (0, 255, table));
    }
}

#[test]
fn the_books_to_try() {
    for (name, table) in books::all() {
        let book = book_of(&table);
        assert_eq!(read(&book), (0, 255, table.clone()), "{name}");
        assert_eq!(written(&table), book, "{name}");
    }
}
