//! `books write DIR` writes the books to try; `books check DIR` says whether
//! the directory still holds exactly those.

use second::books::{check_all, write_all};
use std::path::Path;
use std::process::ExitCode;

fn main() -> ExitCode {
    let words: Vec<String> = std::env::args().skip(1).collect();
    let words: Vec<&str> = words.iter().map(String::as_str).collect();
    let result = match words[..] {
        ["write", directory] => write_all(Path::new(directory)),
        ["check", directory] => check_all(Path::new(directory)),
        _ => Err("usage: books write DIR | books check DIR".to_string()),
    };
    match result {
        Ok(()) => ExitCode::SUCCESS,
        Err(message) => {
            eprintln!("{message}");
            ExitCode::FAILURE
        }
    }
}
