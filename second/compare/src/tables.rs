//! The calls on a table, given to both programs: the report, the step bound,
//! the machine and the writer. A difference ends the run with the input.

use crate::answers::{Answers, Asked};
use crate::border::{self, number_and_place, TableBytes, REPORT_BYTES, STATE_BYTES};
use crate::layout::{amounts_bytes, bytes_of, report_bytes, state_bytes};
use crate::lent::{Lent, Word, OLD_NUMBER};
use crate::same::hex;
use second::analysis::Report;
use second::machine::State;
use second::table::Table;
use std::cell::RefCell;

/// A table that both programs have, and who answers: the library that is
/// linked, or the program `answers`.
pub struct OnTable<'a> {
    table: &'a Table,
    lent: Lent,
    answers: Option<&'a RefCell<Answers>>,
}

/// What a call gave: number and place.
pub type Given = (u32, u32);

impl<'a> OnTable<'a> {
    /// Asks the library that is linked, or from C the archive that is delivered.
    pub fn new(table: &'a Table, answers: Option<&'a RefCell<Answers>>) -> OnTable<'a> {
        let lent = Lent::new(&bytes_of(table));
        OnTable {
            table,
            lent,
            answers,
        }
    }

    pub fn report(&self) -> (Given, Report) {
        let mut out = Lent::new(&[0xA5; REPORT_BYTES]);
        let mut none = Word::new();
        let code = self.call(
            &Asked::of(b'j', 0),
            out.bytes_mut(),
            none.number_mut(),
            |table, out, _| border::report(table, whole(out)),
        );
        let report = second::analysis::report(self.table);
        let given = self.same("report", code, (report.number, report.place));
        self.is("report", &out, &report_bytes(&report));
        (given, report)
    }

    pub fn bound(&self, set: u32) -> Given {
        let mut word = Word::new();
        let code = self.call(
            &Asked::of(b'b', set),
            &mut [],
            word.number_mut(),
            |table, _, bound| border::bound(table, set, bound),
        );
        let (number, place, bound) = second::analysis::bound(self.table, set);
        let what = format!("bound of {set:#x}");
        self.number(&what, &word, bound);
        self.same(&what, code, (number, place))
    }

    pub fn fresh(&self, amounts: &[i64; 32]) -> Given {
        let lent = Lent::new(&amounts_bytes(amounts));
        let mut out = Lent::new(&[0xA5; STATE_BYTES]);
        let mut none = Word::new();
        let asked = Asked {
            amounts: amounts_bytes(amounts),
            ..Asked::of(b'f', 0)
        };
        let code = self.call(
            &asked,
            out.bytes_mut(),
            none.number_mut(),
            |table, state, _| {
                let amounts = lent.bytes().try_into().expect("32 amounts");
                border::fresh(table, amounts, whole(state))
            },
        );
        let (number, place, state) = second::machine::fresh(self.table, amounts);
        let what = format!("fresh of {amounts:?}");
        self.is(&what, &lent, &amounts_bytes(amounts));
        self.is(&what, &out, &state_bytes(&state));
        self.same(&what, code, (number, place))
    }

    pub fn step(&self, state: &State, rule: u32) -> (Given, State) {
        let what = format!("step on {rule} of {state:?}");
        let (number, place, after) = second::machine::step(self.table, state, rule);
        let expected = (number, place, after, None);
        let asked = Asked::of(b's', rule);
        self.moved(&asked, &what, state, expected, |table, state, _| {
            border::step(table, whole(state), rule)
        })
    }

    pub fn post(&self, state: &State, cell: u32, value: i64) -> (Given, State) {
        let what = format!("{value} posted to {cell} of {state:?}");
        let (number, place, after) = second::machine::post(self.table, state, cell, value);
        let expected = (number, place, after, None);
        let asked = Asked {
            value,
            ..Asked::of(b'p', cell)
        };
        self.moved(&asked, &what, state, expected, |table, state, _| {
            border::post(table, whole(state), cell, value)
        })
    }

    pub fn run(&self, state: &State, budget: u32) -> (Given, State) {
        let what = format!("run by {budget} of {state:?}");
        let (number, place, after, steps) = second::machine::run(self.table, state, budget);
        let expected = (number, place, after, Some(steps));
        let asked = Asked::of(b'n', budget);
        self.moved(&asked, &what, state, expected, |table, state, steps| {
            border::run(table, whole(state), budget, steps)
        })
    }

    /// Into a buffer of so many bytes.
    pub fn write(&self, room: usize) -> Given {
        let what = format!("write into {room} bytes");
        let mut expected = vec![0xA5; room];
        let mut out = Lent::new(&expected);
        let mut word = Word::new();
        let code = self.call(
            &Asked::of(b'w', 0),
            out.bytes_mut(),
            word.number_mut(),
            border::write,
        );
        let (number, place, length) = second::write::write(self.table, &mut expected);
        self.is(&what, &out, &expected);
        self.number(&what, &word, length as u32);
        self.same(&what, code, (number, place))
    }

    /// Gives the length too.
    pub fn size(&self) -> (Given, u32) {
        let mut word = Word::new();
        let code = self.call(
            &Asked::of(b'z', 0),
            &mut [],
            word.number_mut(),
            |table, _, size| border::size(table, size),
        );
        let (number, place, length) = second::write::size(self.table);
        self.number("size", &word, length as u32);
        (self.same("size", code, (number, place)), length as u32)
    }

    fn bytes(&self) -> &TableBytes {
        self.lent.bytes().try_into().expect("a table's bytes")
    }

    /// One call, with the memory and the number that it writes.
    fn call(
        &self,
        asked: &Asked,
        out: &mut [u8],
        word: &mut u32,
        linked: impl FnOnce(&TableBytes, &mut [u8], &mut u32) -> u32,
    ) -> u32 {
        match self.answers {
            None => linked(self.bytes(), out, word),
            Some(answers) => answers
                .borrow_mut()
                .on_table(asked, self.bytes(), out, word),
        }
    }

    /// The state, changed on the spot by the library, and a run's steps.
    fn moved(
        &self,
        asked: &Asked,
        what: &str,
        state: &State,
        (number, place, after, steps): (u8, u8, State, Option<u32>),
        linked: impl FnOnce(&TableBytes, &mut [u8], &mut u32) -> u32,
    ) -> (Given, State) {
        let mut lent = Lent::new(&state_bytes(state));
        let mut word = Word::new();
        let code = self.call(asked, lent.bytes_mut(), word.number_mut(), linked);
        self.is(what, &lent, &state_bytes(&after));
        self.number(what, &word, steps.unwrap_or(OLD_NUMBER));
        (self.same(what, code, (number, place)), after)
    }

    fn same(&self, what: &str, code: u32, (number, place): (u8, u8)) -> Given {
        let found = number_and_place(code);
        let expected = (u32::from(number), u32::from(place));
        assert_eq!(found, expected, "number and place; {}", self.told(what));
        self.is(what, &self.lent, &bytes_of(self.table));
        found
    }

    fn is(&self, what: &str, lent: &Lent, expected: &[u8]) {
        let told = || self.told(what);
        assert!(lent.bytes() == expected, "bytes differ; {}", told());
        assert!(lent.guards_are_whole(), "written beside; {}", told());
    }

    fn number(&self, what: &str, word: &Word, expected: u32) {
        assert_eq!(word.number(), expected, "number; {}", self.told(what));
    }

    fn told(&self, what: &str) -> String {
        format!("{what}; table: {}", hex(self.lent.bytes()))
    }
}

fn whole<const SIZE: usize>(bytes: &mut [u8]) -> &mut [u8; SIZE] {
    bytes.try_into().expect("lent bytes of the right size")
}
