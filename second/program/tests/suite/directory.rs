//! The directory of books to try, and the text about them.

use crate::common::book_of;
use second::books::{all, check_all, write_all};
use second::lines::lines;
use std::fs;
use std::path::{Path, PathBuf};

fn directory() -> PathBuf {
    Path::new(env!("CARGO_MANIFEST_DIR")).join("../../books")
}

#[test]
fn holds_exactly_the_books() {
    assert_eq!(check_all(&directory()), Ok(()));
}

#[test]
fn its_readme_gives_the_lines_of_every_book() {
    let readme = fs::read_to_string(directory().join("README.md")).expect("README.md");
    for (name, table) in all() {
        let section = format!("## `{name}`");
        let (_, after) = readme.split_once(&section).expect(name);
        let own = after.split("\n## ").next().unwrap_or_default();
        let expected = format!("```\n{}```", lines(&book_of(&table)));
        assert!(own.contains(&expected), "{name} lacks\n{expected}");
    }
}

#[test]
fn a_book_that_differs_is_missing_or_is_extra_is_found() {
    let copy = Path::new(env!("CARGO_TARGET_TMPDIR")).join("books");
    if copy.exists() {
        fs::remove_dir_all(&copy).expect("the copy of an earlier test");
    }
    fs::create_dir_all(&copy).expect("room for a copy");
    let complains_of = |name: &str| {
        let message = check_all(&copy).expect_err("a directory with a fault");
        assert!(message.starts_with(name), "{message}");
    };
    complains_of("empty");
    assert_eq!(write_all(&copy), Ok(()));
    assert_eq!(check_all(&copy), Ok(()));
    fs::write(copy.join("README.md"), "beside them").expect("a readme");
    assert_eq!(check_all(&copy), Ok(()));
    fs::write(copy.join("night"), [1, 0, 1, 0]).expect("another book");
    complains_of("night");
    assert_eq!(write_all(&copy), Ok(()));
    fs::remove_file(copy.join("tax")).expect("a book to remove");
    complains_of("tax");
    assert_eq!(write_all(&copy), Ok(()));
    fs::write(copy.join("another"), [1, 0, 1, 0]).expect("one more book");
    complains_of("another");
}

#[test]
fn a_refused_book_prints_one_line() {
    assert_eq!(lines(&[1, 0, 1]), "refused 1 255\n");
    assert_eq!(lines(&[0; 9_221]), "refused 1 255\n");
    let mut tax = book_of(&second::books::tax());
    tax[40] = b'T';
    assert_eq!(lines(&tax), "refused 9 0\n");
}
