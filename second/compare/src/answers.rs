//! The program `answers`, made of answers.c: the same calls, made from C on the
//! archive that is delivered.

use crate::border::{AmountsBytes, ReportBytes, TableBytes, AMOUNTS_BYTES};
use std::io::{BufReader, BufWriter, Read, Write};
use std::process::{Child, ChildStdin, ChildStdout, Command, Stdio};

const ENDED: &str =
    "the program answers ended: a guard byte changed, valgrind found an error, or it failed";

/// Another call on a table: its letter, and what it takes beside the memory
/// that it writes.
#[derive(Clone, Copy)]
pub struct Asked {
    pub kind: u8,
    pub amounts: AmountsBytes,
    pub number: u32,
    pub value: i64,
}

impl Asked {
    /// A call that takes at most a number.
    pub fn of(kind: u8, number: u32) -> Asked {
        Asked {
            kind,
            amounts: [0; AMOUNTS_BYTES],
            number,
            value: 0,
        }
    }
}

pub struct Answers {
    program: Child,
    ask: BufWriter<ChildStdin>,
    hear: BufReader<ChildStdout>,
}

impl Answers {
    /// Over the archive that is delivered.
    pub fn start() -> Answers {
        Answers::of(env!("GWAUNIDOR_ANSWERS"))
    }

    /// Over the archive that is delivered, under valgrind, which ends
    /// the program at the first error.
    pub fn watched() -> Answers {
        Answers::of(env!("GWAUNIDOR_WATCHED"))
    }

    fn of(path: &str) -> Answers {
        let mut program = Command::new(path)
            .stdin(Stdio::piped())
            .stdout(Stdio::piped())
            .spawn()
            .unwrap_or_else(|error| panic!("{path}: {error}"));
        let ask = BufWriter::new(program.stdin.take().expect("its input is piped"));
        let hear = BufReader::new(program.stdout.take().expect("its output is piped"));
        Answers { program, ask, hear }
    }

    pub fn read(&mut self, book: &[u8], table: &mut TableBytes) -> u32 {
        self.call(b'r', book, table)
    }

    /// The table comes back as the call left it.
    pub fn check(&mut self, table: &mut TableBytes) -> u32 {
        let given = *table;
        self.call(b'c', &given, table)
    }

    /// The memory that the call writes, and the number behind its pointer, come
    /// back as the call left them.
    pub fn on_table(
        &mut self,
        asked: &Asked,
        table: &TableBytes,
        out: &mut [u8],
        word: &mut u32,
    ) -> u32 {
        let number = asked.number.to_le_bytes();
        let value = asked.value.to_le_bytes();
        self.ask(asked.kind, &[table, out, &asked.amounts, &number, &value]);
        let code = self.hear_number();
        *word = self.hear_number();
        self.hear(out);
        code
    }

    /// The report program's lines for a book, into bytes that are all 0xA5.
    pub fn lines(&mut self, book: &[u8], out: &mut [u8], written: &mut u32) -> u32 {
        self.into_bytes(b'l', book, out, written)
    }

    /// The report on a row of the editor's records.
    pub fn rows(&mut self, rows: &[u8], out: &mut ReportBytes) -> u32 {
        self.into_bytes(b'e', rows, out, &mut 0)
    }

    fn into_bytes(&mut self, kind: u8, bytes: &[u8], out: &mut [u8], word: &mut u32) -> u32 {
        let length = (out.len() as u32).to_le_bytes();
        self.ask(kind, &[&length, bytes]);
        let code = self.hear_number();
        *word = self.hear_number();
        self.hear(out);
        code
    }

    fn call(&mut self, kind: u8, bytes: &[u8], table: &mut TableBytes) -> u32 {
        self.ask(kind, &[bytes]);
        let code = self.hear_number();
        self.hear(table);
        code
    }

    fn ask(&mut self, kind: u8, parts: &[&[u8]]) {
        let bytes = parts.concat();
        let length = bytes.len() as u32;
        self.ask.write_all(&[kind]).expect(ENDED);
        self.ask.write_all(&length.to_le_bytes()).expect(ENDED);
        self.ask.write_all(&bytes).expect(ENDED);
        self.ask.flush().expect(ENDED);
    }

    fn hear_number(&mut self) -> u32 {
        let mut number = [0; 4];
        self.hear(&mut number);
        u32::from_le_bytes(number)
    }

    fn hear(&mut self, bytes: &mut [u8]) {
        self.hear.read_exact(bytes).expect(ENDED);
    }
}

impl Drop for Answers {
    fn drop(&mut self) {
        // It was asked to answer until its input ends; nothing is lost by
        // ending it.
        let _ = self.program.kill();
        let _ = self.program.wait();
    }
}
