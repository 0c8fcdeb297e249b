//! The two programs, run as programs.

use crate::common::book_of;
use second::books::{all, night};
use second::lines::lines;
use std::io::{Read, Write};
use std::path::Path;
use std::process::{Child, Command, Stdio};
use std::time::{Duration, Instant};

fn start_report() -> Child {
    Command::new(env!("CARGO_BIN_EXE_second-report"))
        .stdin(Stdio::piped())
        .stdout(Stdio::piped())
        .spawn()
        .expect("the report program")
}

/// What the program prints; it has to end by itself while its input stays
/// open, or after it is closed.
fn printed(input: &[u8], stays_open: bool) -> String {
    let mut child = start_report();
    let mut stdin = child.stdin.take();
    if let Some(pipe) = &mut stdin {
        pipe.write_all(input).expect("room in the pipe");
    }
    if !stays_open {
        drop(stdin.take());
    }
    let patience = Instant::now() + Duration::from_secs(20);
    while child.try_wait().expect("a child").is_none() {
        assert!(Instant::now() < patience, "the program waits for more");
        std::thread::sleep(Duration::from_millis(5));
    }
    let mut text = String::new();
    let mut stdout = child.stdout.take().expect("its output");
    stdout.read_to_string(&mut text).expect("text");
    text
}

#[test]
fn the_report_program_prints_the_lines() {
    for (name, table) in all() {
        let book = book_of(&table);
        assert_eq!(printed(&book, false), lines(&book), "{name}");
    }
    let expected = "book 3 3\nends yes 4\npairs 1 0 1 2 1\ncleared no\n";
    assert_eq!(printed(&book_of(&night()), false), expected);
    assert_eq!(printed(&[], false), "refused 1 255\n");
}

#[test]
fn the_report_program_never_waits_for_more_than_9221_bytes() {
    let mut long = book_of(&night());
    long.resize(9_221, 0);
    assert_eq!(printed(&long, true), "refused 1 255\n");
    assert_eq!(printed(&long[..9_220], false), "refused 4 255\n");
}

#[test]
fn the_books_program_tells_by_its_exit() {
    let run = |words: &[&str]| {
        let program = Command::new(env!("CARGO_BIN_EXE_books"))
            .args(words)
            .output();
        program.expect("the books program").status.success()
    };
    let books = Path::new(env!("CARGO_MANIFEST_DIR")).join("../../books");
    let books = books.to_str().expect("a path");
    let elsewhere = env!("CARGO_TARGET_TMPDIR");
    assert!(run(&["check", books]));
    assert!(!run(&["check", elsewhere]));
    assert!(!run(&["look", books]));
    assert!(!run(&[]));
}
