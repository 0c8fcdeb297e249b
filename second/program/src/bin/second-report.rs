//! The second program's report on the book at standard input.

use second::lines::{lines, MOST_INPUT};
use std::io::{self, Read};

fn main() -> io::Result<()> {
    let mut book = Vec::new();
    let input = io::stdin().lock();
    input.take(MOST_INPUT as u64).read_to_end(&mut book)?;
    print!("{}", lines(&book));
    Ok(())
}
