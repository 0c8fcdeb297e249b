//! Numbers given back, each with its place.

/// The place of everything that is not about one rule: "the rule number for
/// 5 to 9, else 255".
pub const NO_PLACE: u8 = 255;

/// The number and place of "done".
pub const DONE: (u8, u8) = (0, NO_PLACE);

/// One of the numbers 1 to 18. Inside the program a refusal travels as the
/// error of a `Result`; at the border it is a number and a place.
#[derive(Clone, Copy, PartialEq, Eq, Debug)]
pub struct Refusal {
    pub number: u8,
    pub place: u8,
}

impl Refusal {
    /// A refusal about the whole book, a state or a call.
    pub fn whole(number: u8) -> Refusal {
        Refusal {
            number,
            place: NO_PLACE,
        }
    }

    /// A refusal about one rule, or about one rule slot past n.
    pub fn of_rule(number: u8, rule: usize) -> Refusal {
        Refusal {
            number,
            place: rule as u8,
        }
    }
}

/// The form at the border: number, place and what the call gives. A refused
/// call gives `otherwise`.
pub fn given<T>(answer: Result<T, Refusal>, otherwise: T) -> (u8, u8, T) {
    match answer {
        Ok(value) => (DONE.0, DONE.1, value),
        Err(refusal) => (refusal.number, refusal.place, otherwise),
    }
}

/// Refuses with `refusal` when `applies`.
pub fn refuse_when(applies: bool, refusal: Refusal) -> Result<(), Refusal> {
    if applies {
        Err(refusal)
    } else {
        Ok(())
    }
}
