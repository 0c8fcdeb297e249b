//! The checks on a table: "3, the rules by 5 to 9, the rule slots past n by 7
//! (place: that slot), 10".

use crate::refusal::{given, refuse_when, Refusal};
use crate::sets::{members, reaching_themselves, Graph};
use crate::table::{
    in_range, Assign, Rule, Table, Test, MOST_ASSIGNS, MOST_CELLS, MOST_LETTERS, MOST_RULES,
    MOST_SHARE, MOST_TESTS,
};

/// The number and place of a table in memory.
pub fn check(table: &Table) -> (u8, u8) {
    let (number, place, ()) = given(table_is_sound(table), ());
    (number, place)
}

/// "a call on a table in memory first makes the writer's checks, all but 18"
pub fn table_is_sound(table: &Table) -> Result<(), Refusal> {
    counts_fit(table.n, table.k)?;
    for rule in 0..usize::from(table.n) {
        rule_is_sound(table, rule)?;
    }
    for slot in usize::from(table.n)..MOST_RULES {
        let filled = table.rules[slot] != Rule::default();
        refuse_when(filled, Refusal::of_rule(7, slot))?;
    }
    priorities_have_no_cycle(&table.precedes())
}

/// 3: "n over 32, k 0 or over 32"
pub fn counts_fit(n: u8, k: u8) -> Result<(), Refusal> {
    let (n, k) = (usize::from(n), usize::from(k));
    refuse_when(
        n > MOST_RULES || k == 0 || k > MOST_CELLS,
        Refusal::whole(3),
    )
}

/// "then rule by rule 5 to 9": the whole rule by each number in turn.
pub fn rule_is_sound(table: &Table, number: usize) -> Result<(), Refusal> {
    let rule = &table.rules[number];
    let earlier = &table.rules[..number];
    refuse_when(!counts_are_in_bounds(rule), Refusal::of_rule(5, number))?;
    refuse_when(reaches_beyond(rule, table), Refusal::of_rule(6, number))?;
    refuse_when(!fields_are_sound(rule), Refusal::of_rule(7, number))?;
    refuse_when(has_target_twice(rule), Refusal::of_rule(8, number))?;
    refuse_when(!name_is_sound(rule, earlier), Refusal::of_rule(9, number))
}

/// 5: "t, a or m out of bounds, fourth count byte not 0". The body's length
/// is the reader's: it exists only in a book.
pub fn counts_are_in_bounds(rule: &Rule) -> bool {
    usize::from(rule.tests) <= MOST_TESTS
        && usize::from(rule.assigns) <= MOST_ASSIGNS
        && (1..=MOST_LETTERS).contains(&usize::from(rule.letters))
        && rule.fourth == 0
}

/// 6: "a mask bit or a used cell number beyond k or n"
fn reaches_beyond(rule: &Rule, table: &Table) -> bool {
    let (n, k) = (usize::from(table.n), usize::from(table.k));
    let mut cells = members(rule.watch);
    cells.extend(rule.reads());
    cells.extend(rule.writes());
    cells.iter().any(|&cell| cell >= k) || members(rule.precedes).iter().any(|&rule| rule >= n)
}

/// 7: "unknown code, unused field or slot not 0, constant, p or q out of
/// bounds"
fn fields_are_sound(rule: &Rule) -> bool {
    rule.used_tests().iter().all(test_is_sound)
        && rule.used_assigns().iter().all(assign_is_sound)
        && slots_past_counts_are_zero(rule)
}

/// "comparison (0 equal, .. 5 at least), right kind (0 constant, 1 cell)";
/// "Fields that a kind or operation doesn't use are 0. Constants are in range."
fn test_is_sound(test: &Test) -> bool {
    let right_is_sound = match test.kind {
        0 => test.right == 0 && in_range(test.constant.into()),
        1 => test.constant == 0,
        _ => false,
    };
    test.comparison <= 5 && right_is_sound
}

/// "0 gives K; 1 gives A + K; 2 gives A + B; 3 gives A - B; 4 gives
/// A x p / q .. with p 0 to 1,000,000 and q 1 to 1,000,000"
fn assign_is_sound(assign: &Assign) -> bool {
    let no_a = assign.a == 0;
    let no_b = assign.b == 0;
    let no_constant = assign.k == 0;
    let no_share = assign.p == 0 && assign.q == 0;
    let constant_fits = in_range(assign.k.into());
    let share_fits = assign.p <= MOST_SHARE && (1..=MOST_SHARE).contains(&assign.q);
    match assign.operation {
        0 => constant_fits && no_a && no_b && no_share,
        1 => constant_fits && no_b && no_share,
        2 | 3 => no_constant && no_share,
        4 => share_fits && no_b && no_constant,
        _ => false,
    }
}

/// "In memory, slots past a count are all zero."
fn slots_past_counts_are_zero(rule: &Rule) -> bool {
    let tests = &rule.test[usize::from(rule.tests)..];
    let assigns = &rule.assign[usize::from(rule.assigns)..];
    let letters = &rule.name[usize::from(rule.letters)..];
    tests.iter().all(|slot| *slot == Test::default())
        && assigns.iter().all(|slot| *slot == Assign::default())
        && letters.iter().all(|&letter| letter == 0)
}

/// 8: "one target twice in a rule"
fn has_target_twice(rule: &Rule) -> bool {
    rule.writes().len() < rule.used_assigns().len()
}

/// 9: "bad letter in a name, or the name of an earlier rule"; "letters a to z,
/// digits, hyphen"
fn name_is_sound(rule: &Rule, earlier: &[Rule]) -> bool {
    let name = rule.used_letters();
    let good = |letter: &u8| matches!(letter, b'a'..=b'z' | b'0'..=b'9' | b'-');
    name.iter().all(good) && earlier.iter().all(|other| other.used_letters() != name)
}

/// 10: "the priorities have a cycle (a rule naming itself too)"
pub fn priorities_have_no_cycle(precedes: &Graph) -> Result<(), Refusal> {
    let cycle = !reaching_themselves(precedes).is_empty();
    refuse_when(cycle, Refusal::whole(10))
}
