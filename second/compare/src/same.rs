//! One input, given to both programs, and the comparison of all that comes
//! back. A difference ends the run with a message that holds the input.

use crate::answers::Answers;
use crate::border::{self, number_and_place, TableBytes, TABLE_BYTES};
use crate::layout::{bytes_of, table_of};
use crate::lent::Lent;
use second::table::Table;

/// What stands in the memory of a table before a read.
const OLD: [u8; TABLE_BYTES] = [0xA5; TABLE_BYTES];

/// The memory that the calls get, kept from input to input, and who answers:
/// the library that is linked, or the program `answers`.
pub struct Desk {
    book: Lent,
    table: Lent,
    answers: Option<Answers>,
}

impl Desk {
    /// Asks the library that is linked.
    pub fn linked() -> Desk {
        Desk {
            book: Lent::new(&[]),
            table: Lent::new(&OLD),
            answers: None,
        }
    }

    /// Asks the archive that is delivered, from C.
    pub fn delivered() -> Desk {
        Desk::asking(Answers::start())
    }

    pub fn asking(answers: Answers) -> Desk {
        Desk {
            answers: Some(answers),
            ..Desk::linked()
        }
    }

    /// Reads the book with both: number, place and table are equal, the
    /// library leaves the book and the bytes around as they were. Gives number
    /// and place.
    pub fn read(&mut self, book: &[u8]) -> (u32, u32) {
        self.book.fill(book);
        self.table.fill(&OLD);
        let lent = whole(self.table.bytes_mut());
        let code = match &mut self.answers {
            None => border::read(self.book.bytes(), lent),
            Some(answers) => answers.read(self.book.bytes(), lent),
        };
        let (number, place, table) = second::read::read(book);
        let expected = (u32::from(number), u32::from(place));
        let found = number_and_place(code);
        let told = || format!("{} bytes: {}", book.len(), hex(book));
        assert_eq!(found, expected, "number and place; {}", told());
        assert!(self.table.bytes() == bytes_of(&table), "table; {}", told());
        assert!(self.book.bytes() == book, "the book changed; {}", told());
        self.check_guards(told);
        found
    }

    /// Checks the table with both: number and place are equal, the library
    /// leaves the table and the bytes around as they were. Gives number and
    /// place.
    pub fn check(&mut self, table: &Table) -> (u32, u32) {
        self.check_bytes(&bytes_of(table))
    }

    /// The same of a table's bytes, whatever bytes 0 and 3 are.
    pub fn check_bytes(&mut self, bytes: &TableBytes) -> (u32, u32) {
        self.table.fill(bytes);
        let lent = whole(self.table.bytes_mut());
        let code = match &mut self.answers {
            None => border::check(lent),
            Some(answers) => answers.check(lent),
        };
        let (number, place) = second::check::check(&table_of(bytes));
        let expected = (u32::from(number), u32::from(place));
        let found = number_and_place(code);
        let told = || format!("table: {}", hex(bytes));
        assert_eq!(found, expected, "number and place; {}", told());
        assert!(self.table.bytes() == bytes, "the table changed; {}", told());
        self.check_guards(told);
        found
    }

    fn check_guards(&self, told: impl Fn() -> String) {
        let whole = self.book.guards_are_whole() && self.table.guards_are_whole();
        assert!(whole, "written beside lent memory; {}", told());
    }
}

fn whole(bytes: &mut [u8]) -> &mut TableBytes {
    bytes.try_into().expect("a table has 9,092 bytes")
}

/// Bytes in hex, a run of zeros at the end left out.
pub fn hex(bytes: &[u8]) -> String {
    let used = bytes
        .iter()
        .rposition(|&byte| byte != 0)
        .map_or(0, |i| i + 1);
    let digits: String = bytes[..used]
        .iter()
        .map(|byte| format!("{byte:02x}"))
        .collect();
    format!("{digits} and {} times 00", bytes.len() - used)
}
