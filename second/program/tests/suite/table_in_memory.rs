//! Numbers 3 and 5 to 10 of a table: each with the nearest table that is
//! sound. What a book can hold too is also read from bytes.

use crate::common::{read_number, sample, sample_after, Change, DONE, TRILLION};
use second::books;
use second::check::check;
use second::compose::{add, give, rule, share, table, with_cell};
use second::table::{Assign, Rule, Table};
use second::write::bytes_of;

/// The table's number in memory and, where the same can stand in a book, as
/// bytes.
fn expect(table: &Table, number: (u8, u8), what: &str) {
    assert_eq!(check(table), number, "in memory: {what}");
    assert_eq!(read_number(&bytes_of(table)), number, "as bytes: {what}");
}

/// The sample with one change that is refused, and with the nearest that
/// isn't.
fn expect_after(
    number: (u8, u8),
    what: &str,
    wrong: impl Fn(&mut Table),
    right: impl Fn(&mut Table),
) {
    expect(&sample_after(wrong), number, what);
    expect(&sample_after(right), DONE, what);
}

/// The sample with its first assignment (target 0) replaced.
fn with_first_assign(assign: Assign) -> Table {
    sample_after(|table| table.rules[0].assign[0] = assign)
}

#[test]
fn number_3() {
    let empty = books::empty();
    for (n, k, number) in [
        (0, 0, (3, 255)),
        (0, 33, (3, 255)),
        (0, 255, (3, 255)),
        (33, 1, (3, 255)),
        (255, 1, (3, 255)),
        (0, 32, DONE),
        (0, 1, DONE),
    ] {
        let mut table = empty.clone();
        (table.n, table.k) = (n, k);
        assert_eq!(check(&table), number, "n {n}, k {k}");
    }
    assert_eq!(check(&books::staircase()), DONE);
    assert_eq!(check(&Table::empty()), (3, 255));
}

#[test]
fn number_5() {
    // Slots of zeros are sound tests. As assignments they share target 0.
    for (count, tests, assigns) in [
        (8, DONE, (8, 1)),
        (9, (5, 1), (5, 1)),
        (200, (5, 1), (5, 1)),
        (255, (5, 1), (5, 1)),
    ] {
        let with_tests = sample_after(|table| table.rules[1].tests = count);
        assert_eq!(check(&with_tests), tests, "t {count}");
        let with_assigns = sample_after(|table| table.rules[1].assigns = count);
        assert_eq!(check(&with_assigns), assigns, "a {count}");
    }
    for (letters, number) in [
        (0, (5, 0)),
        (4, (7, 0)),
        (5, DONE),
        (16, (9, 0)),
        (17, (5, 0)),
    ] {
        let table = sample_after(|table| table.rules[0].letters = letters);
        assert_eq!(check(&table), number, "m {letters}");
    }
    for (fourth, number) in [(0, DONE), (1, (5, 1)), (255, (5, 1))] {
        let table = sample_after(|table| table.rules[1].fourth = fourth);
        assert_eq!(check(&table), number, "fourth {fourth}");
    }
}

#[test]
fn number_6_for_masks() {
    let watch = |mask| move |table: &mut Table| table.rules[1].watch = mask;
    expect_after((6, 1), "watch bit k", watch(1 << 5), watch(1 << 4));
    expect_after((6, 1), "watch bit 31", watch(1 << 31), watch(0));
    let precedes = |mask| move |table: &mut Table| table.rules[0].precedes = mask;
    expect_after((6, 0), "precedes bit n", precedes(1 << 2), precedes(1 << 1));
    expect_after((6, 0), "precedes bit 31", precedes(1 << 31), precedes(0));
}

#[test]
fn number_6_for_used_cells() {
    let left = |cell| move |table: &mut Table| table.rules[0].test[1].left = cell;
    expect_after((6, 0), "left cell", left(5), left(4));
    expect_after((6, 0), "left cell 255", left(255), left(0));
    let right = |cell| move |table: &mut Table| table.rules[0].test[1].right = cell;
    expect_after((6, 0), "right cell", right(5), right(4));
    let target = |cell| move |table: &mut Table| table.rules[1].assign[0].target = cell;
    expect_after((6, 1), "target", target(5), target(4));
    for slot in 1..5 {
        let a = |cell| move |table: &mut Table| table.rules[0].assign[slot].a = cell;
        expect_after((6, 0), "cell A", a(5), a(4));
    }
    for slot in 2..4 {
        let b = |cell| move |table: &mut Table| table.rules[0].assign[slot].b = cell;
        expect_after((6, 0), "cell B", b(5), b(4));
    }
}

#[test]
fn a_cell_that_is_not_used_is_7_and_not_6() {
    let unused: [Change; 6] = [
        |table| table.rules[0].test[0].right = 5,
        |table| {
            table.rules[0].test[1].right = 5;
            table.rules[0].test[1].kind = 2;
        },
        |table| table.rules[0].assign[0].a = 5,
        |table| table.rules[0].assign[1].b = 5,
        |table| table.rules[0].assign[4].b = 5,
        |table| {
            table.rules[0].assign[3].a = 200;
            table.rules[0].assign[3].operation = 5;
        },
    ];
    for (case, change) in unused.into_iter().enumerate() {
        expect(&sample_after(change), (7, 0), &format!("case {case}"));
    }
    // The comparison uses no cell: the right cell stays used where it is
    // unknown.
    let both = |right| {
        sample_after(move |table| {
            table.rules[0].test[1] = with_cell(1, 6, right);
        })
    };
    expect(&both(5), (6, 0), "unknown comparison, right cell beyond");
    expect(&both(4), (7, 0), "unknown comparison");
}

#[test]
fn number_7_for_codes() {
    let comparison = |code| move |table: &mut Table| table.rules[0].test[0].comparison = code;
    expect_after((7, 0), "comparison", comparison(6), comparison(5));
    expect_after((7, 0), "comparison 255", comparison(255), comparison(0));
    let kind = |code| move |table: &mut Table| table.rules[0].test[1].kind = code;
    expect_after((7, 0), "kind", kind(2), kind(1));
    expect(&with_first_assign(share(0, 1, 1, 1)), DONE, "operation 4");
    let mut unknown = share(0, 1, 1, 1);
    unknown.operation = 5;
    expect(&with_first_assign(unknown), (7, 0), "operation 5");
    unknown = Assign {
        operation: 255,
        ..Assign::default()
    };
    expect(&with_first_assign(unknown), (7, 0), "operation 255");
}

#[test]
fn number_7_for_unused_fields() {
    let wrong: [(&str, Change); 14] = [
        ("kind 0, right cell", |t| t.rules[0].test[0].right = 1),
        ("kind 1, constant", |t| t.rules[0].test[1].constant = 1),
        ("operation 0, A", |t| t.rules[0].assign[0].a = 1),
        ("operation 0, B", |t| t.rules[0].assign[0].b = 1),
        ("operation 0, p", |t| t.rules[0].assign[0].p = 1),
        ("operation 0, q", |t| t.rules[0].assign[0].q = 1),
        ("operation 1, B", |t| t.rules[0].assign[1].b = 1),
        ("operation 1, p", |t| t.rules[0].assign[1].p = 1),
        ("operation 1, q", |t| t.rules[0].assign[1].q = 1),
        ("operation 2, K", |t| t.rules[0].assign[2].k = 1),
        ("operation 2, p", |t| t.rules[0].assign[2].p = 1),
        ("operation 3, q", |t| t.rules[0].assign[3].q = 1),
        ("operation 4, B", |t| t.rules[0].assign[4].b = 1),
        ("operation 4, K", |t| t.rules[0].assign[4].k = -1),
    ];
    expect(&sample(), DONE, "as it is");
    for (what, change) in wrong {
        expect(&sample_after(change), (7, 0), what);
    }
}

#[test]
fn number_7_for_bounds() {
    let constant = |amount| move |table: &mut Table| table.rules[0].test[0].constant = amount;
    for limit in [TRILLION, -TRILLION] {
        let beyond = limit + limit.signum();
        expect_after((7, 0), "constant", constant(beyond), constant(limit));
        expect(&with_first_assign(give(0, beyond)), (7, 0), "K given");
        expect(&with_first_assign(give(0, limit)), DONE, "K given");
        expect(&with_first_assign(add(0, 1, beyond)), (7, 0), "K added");
        expect(&with_first_assign(add(0, 1, limit)), DONE, "K added");
    }
    for far in [i64::MAX, i64::MIN] {
        expect_after((7, 0), "constant far off", constant(far), constant(0));
    }
    for (p, q, number) in [
        (0, 1, DONE),
        (1_000_000, 1, DONE),
        (1_000_001, 1, (7, 0)),
        (u32::MAX, 1, (7, 0)),
        (1, 0, (7, 0)),
        (0, 0, (7, 0)),
        (1, 1_000_000, DONE),
        (1, 1_000_001, (7, 0)),
        (1, u32::MAX, (7, 0)),
    ] {
        let table = with_first_assign(share(0, 1, p, q));
        expect(&table, number, &format!("p {p}, q {q}"));
    }
}

#[test]
fn number_7_for_slots() {
    let wrong: [(u8, Change); 12] = [
        (0, |t| t.rules[0].test[2].left = 1),
        (0, |t| t.rules[0].test[7].comparison = 1),
        (0, |t| t.rules[0].test[2].constant = i64::MIN),
        (0, |t| t.rules[0].assign[5].target = 200),
        (0, |t| t.rules[0].assign[7].q = 1),
        (0, |t| t.rules[0].name[5] = b'x'),
        (0, |t| t.rules[0].name[15] = 255),
        (1, |t| t.rules[1].assign[1].k = 1),
        (2, |t| t.rules[2].watch = 1),
        (2, |t| t.rules[2] = t.rules[1].clone()),
        (31, |t| t.rules[31].fourth = 1),
        (2, |t| {
            t.rules[31].letters = 1;
            t.rules[2].assign[7].p = 1;
        }),
    ];
    assert_eq!(check(&sample()), DONE);
    for (case, (place, change)) in wrong.into_iter().enumerate() {
        assert_eq!(check(&sample_after(change)), (7, place), "case {case}");
    }
}

#[test]
fn number_8() {
    let target =
        |slot: usize, cell| move |table: &mut Table| table.rules[0].assign[slot].target = cell;
    expect_after((8, 0), "first and second", target(1, 0), target(1, 1));
    expect_after((8, 0), "first and last", target(4, 0), target(4, 4));
    let two = |first, second| {
        table(
            2,
            &[rule("r", &[], &[], &[give(first, 1), give(second, 1)])],
        )
    };
    expect(&two(1, 1), (8, 0), "the same twice");
    expect(&two(0, 1), DONE, "two targets");
}

#[test]
fn number_9_for_letters() {
    let letters = [
        (b'`', b'a'),
        (b'{', b'z'),
        (b'/', b'0'),
        (b':', b'9'),
        (b',', b'-'),
        (b'.', b'-'),
        (b'A', b'a'),
        (b'_', b'-'),
        (0, b'a'),
        (255, b'z'),
    ];
    for (wrong, right) in letters {
        for slot in [0, 5] {
            let letter = |byte| move |table: &mut Table| table.rules[1].name[slot] = byte;
            expect_after((9, 1), "a letter", letter(wrong), letter(right));
        }
    }
}

#[test]
fn number_9_for_names_given_twice() {
    let named = |first: &str, second: &str, third: &str| {
        let plain = |name: &str| -> Rule { rule(name, &[], &[], &[]) };
        table(1, &[plain(first), plain(second), plain(third)])
    };
    expect(&named("a", "a", "b"), (9, 1), "the rule before");
    expect(&named("a", "b", "a"), (9, 2), "two rules before");
    expect(&named("a", "b", "b"), (9, 2), "only the middle one");
    expect(&named("a", "b", "c"), DONE, "all different");
    expect(&named("a", "ab", "abc"), DONE, "beginnings of one another");
    let (long, other) = ("sixteen-letters-", "sixteen-letters0");
    expect(&named(long, "a", long), (9, 2), "a long name twice");
    expect(
        &named(long, "a", other),
        DONE,
        "only the last letter differs",
    );
}

#[test]
fn number_10() {
    let chain = |masks: [&[usize]; 3]| {
        let plain = |i: usize| rule(&format!("r{i}"), &[], masks[i], &[]);
        table(1, &[plain(0), plain(1), plain(2)])
    };
    expect(&chain([&[1], &[2], &[]]), DONE, "a chain");
    expect(&chain([&[1, 2], &[2], &[]]), DONE, "a chain with its end");
    expect(&chain([&[1], &[2], &[0]]), (10, 255), "all three");
    expect(&chain([&[1], &[0], &[]]), (10, 255), "two");
    expect(&chain([&[], &[], &[2]]), (10, 255), "a rule naming itself");
}
