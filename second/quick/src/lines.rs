//! The report program's lines.

use crate::analysis::Rules;
use crate::book::read_sound;
use crate::masks::{below, members};
use crate::DONE;
use std::io::{Result, Write};

/// "A buffer that is too short for all of the lines is left as it was."
pub fn lines(book: &[u8], out: &mut [u8], written: &mut u32) -> u32 {
    let mut text = [0; 512];
    let mut rest = &mut text[..];
    let code = print(book, &mut rest).expect("512 bytes are always enough");
    let left = rest.len();
    let length = text.len() - left;
    *written = 0;
    if let Some(lines) = out.get_mut(..length) {
        lines.copy_from_slice(&text[..length]);
        *written = length as u32;
    }
    code
}

fn print(book: &[u8], text: &mut &mut [u8]) -> Result<u32> {
    let mut table = [0; 9_092];
    let before = match read_sound(book, &mut table) {
        Ok(before) => before,
        Err(refused) => {
            writeln!(text, "refused {} {}", refused % 256, refused / 256)?;
            return Ok(refused);
        }
    };
    let rules = Rules::of_table(&table, before);
    let mut report = [0; 512];
    rules.judge(&mut report);
    writeln!(text, "book {} {}", table[1], table[2])?;
    let faulty = u32::from_le_bytes([report[4], report[5], report[6], report[7]]);
    if faulty == 0 {
        write!(text, "ends yes {}", rules.bound(below(table[1].into())))?;
    } else {
        write!(text, "ends no")?;
        for rule in members(faulty) {
            write!(text, " {rule}")?;
        }
    }
    let failing = u16::from_le_bytes([report[8], report[9]]);
    write!(text, "\npairs {failing}")?;
    if failing != 0 {
        for number in &report[10..14] {
            write!(text, " {number}")?;
        }
    }
    let verdict = ["no", "yes"][usize::from(report[2])];
    writeln!(text, "\ncleared {verdict}")?;
    Ok(DONE)
}
