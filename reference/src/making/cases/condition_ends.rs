//! The cases of `condition_cases` at the ends of the signed range: plus and minus stop there, and the
//! tick comparison alone turns round (document 02, slip 2).

use crate::framing::condition_frames::Kind;
use crate::making::cases::condition_cases::{
    left_to, number, op, right_to, Rows, Values, E0, E1, ENDS, FALSE, M0, NOTHING, P0, P1, P2, TRUE,
};

const LEAST: i32 = i32::MIN;
const GREATEST: i32 = i32::MAX;
pub(crate) const PLUS: u8 = 20;
const MINUS: u8 = 21;
const HALF: i32 = 1 << 30;

// ---- Worked out apart from the evaluator ------------------------------------------------------

/// A step up or down, which stops at the end that it would pass.
fn step(from: i32, up: bool, size: u32) -> i32 {
    match up {
        true => from.checked_add_unsigned(size).unwrap_or(GREATEST),
        false => from.checked_sub_unsigned(size).unwrap_or(LEAST),
    }
}

pub(crate) fn sum(a: i32, b: i32) -> i32 {
    step(a, b >= 0, b.unsigned_abs())
}

pub(crate) fn difference(a: i32, b: i32) -> i32 {
    step(a, b < 0, b.unsigned_abs())
}

fn result(operator: u8, a: i32, b: i32) -> i32 {
    match operator {
        PLUS => sum(a, b),
        _ => difference(a, b),
    }
}

// ---- Bytes ------------------------------------------------------------------------------------

pub(crate) fn plus(a: &[u8], b: &[u8]) -> Vec<u8> {
    op(PLUS, &[a, b])
}

pub(crate) fn minus(a: &[u8], b: &[u8]) -> Vec<u8> {
    op(MINUS, &[a, b])
}

/// One past the greatest, or two: by plus.
fn over(past: i32) -> Vec<u8> {
    plus(&number(GREATEST), &number(past))
}

/// One below the least, or two: by minus.
fn under(past: i32) -> Vec<u8> {
    minus(&number(LEAST), &number(past))
}

/// What is past the ends, with either operator: `over` and `under`.
type Past = (fn(i32) -> Vec<u8>, fn(i32) -> Vec<u8>);

const BOTH_WAYS: [Past; 2] = [
    (over, under),
    (
        |past| minus(&number(GREATEST), &number(-past)),
        |past| plus(&number(LEAST), &number(-past)),
    ),
];

// ---- One operator -----------------------------------------------------------------------------

/// Operator, operands and what it gives, written by hand.
const ONE_OPERATOR: [(u8, i32, i32, i32); 48] = [
    // Up to the greatest, onto it and past it.
    (PLUS, GREATEST - 2, 1, 2147483646),
    (PLUS, GREATEST - 1, 1, 2147483647),
    (PLUS, GREATEST - 1, 2, 2147483647),
    (PLUS, GREATEST, 0, 2147483647),
    (PLUS, GREATEST, 1, 2147483647),
    (PLUS, 0, GREATEST, 2147483647),
    (PLUS, 1, GREATEST, 2147483647),
    (PLUS, GREATEST, GREATEST, 2147483647),
    (PLUS, HALF, HALF - 1, 2147483647),
    (PLUS, HALF - 1, HALF - 1, 2147483646),
    (PLUS, HALF, HALF, 2147483647),
    (MINUS, GREATEST - 2, -1, 2147483646),
    (MINUS, GREATEST - 1, -1, 2147483647),
    (MINUS, GREATEST - 1, -2, 2147483647),
    (MINUS, GREATEST, 0, 2147483647),
    (MINUS, GREATEST, -1, 2147483647),
    (MINUS, -2, LEAST, 2147483646),
    (MINUS, -1, LEAST, 2147483647),
    (MINUS, 0, LEAST, 2147483647),
    (MINUS, 1, LEAST, 2147483647),
    (MINUS, GREATEST, LEAST, 2147483647),
    (MINUS, HALF, -HALF, 2147483647),
    (MINUS, HALF - 1, -HALF, 2147483647),
    // Down to the least, onto it and past it.
    (PLUS, LEAST + 2, -1, -2147483647),
    (PLUS, LEAST + 1, -1, -2147483648),
    (PLUS, LEAST + 1, -2, -2147483648),
    (PLUS, LEAST, 0, -2147483648),
    (PLUS, LEAST, -1, -2147483648),
    (PLUS, -1, LEAST, -2147483648),
    (PLUS, LEAST, LEAST, -2147483648),
    (PLUS, -HALF, -HALF, -2147483648),
    (PLUS, -HALF, -HALF - 1, -2147483648),
    (MINUS, LEAST + 2, 1, -2147483647),
    (MINUS, LEAST + 1, 1, -2147483648),
    (MINUS, LEAST + 1, 2, -2147483648),
    (MINUS, LEAST, 0, -2147483648),
    (MINUS, LEAST, 1, -2147483648),
    (MINUS, 0, GREATEST, -2147483647),
    (MINUS, -1, GREATEST, -2147483648),
    (MINUS, -2, GREATEST, -2147483648),
    (MINUS, LEAST, GREATEST, -2147483648),
    (MINUS, -HALF, HALF + 1, -2147483648),
    // From one end towards the other.
    (PLUS, GREATEST, -1, 2147483646),
    (PLUS, LEAST, 1, -2147483647),
    (PLUS, GREATEST, LEAST, -1),
    (PLUS, LEAST, GREATEST, -1),
    (MINUS, LEAST, LEAST, 0),
    (MINUS, GREATEST, GREATEST, 0),
];

/// Each with constants, program variables, monitor variables and values at entry.
fn one_operator(rows: &mut Rows) {
    for (operator, a, b, expected) in ONE_OPERATOR {
        let (first, second) = (number(a), number(b));
        for (operands, values) in [
            ([&first[..], &second], NOTHING),
            ([P0, M0], Values(&[a], &[b], &[])),
            ([M0, E0], Values(&[], &[a], &[b])),
            ([E0, &second], Values(&[], &[], &[a])),
            ([&first, P0], Values(&[b], &[], &[])),
        ] {
            rows.value(&op(operator, &operands), values, expected);
        }
    }
}

// ---- Sums inside sums -------------------------------------------------------------------------

/// What would come back into the range if it turned round, or if the outer operator alone stopped.
fn inside(rows: &mut Rows) {
    let (least, greatest) = (&number(LEAST)[..], &number(GREATEST)[..]);
    let (zero, one, two) = (&number(0)[..], &number(1)[..], &number(2)[..]);
    for (bytes, expected) in [
        (minus(&over(1), one), 2147483646),
        (minus(&over(2), one), 2147483646),
        (minus(&over(2), two), 2147483645),
        (plus(greatest, &minus(one, one)), 2147483647),
        (plus(one, &minus(greatest, one)), 2147483647),
        (minus(&plus(one, greatest), one), 2147483646),
        (plus(&under(1), one), -2147483647),
        (plus(&under(2), one), -2147483647),
        (plus(&under(2), two), -2147483646),
        (minus(least, &minus(one, one)), -2147483648),
        (plus(&minus(least, greatest), greatest), -1),
        (plus(&minus(zero, least), least), -1),
        (minus(zero, &minus(zero, least)), -2147483647),
        (minus(&under(1), &under(1)), 0),
        (minus(&over(1), &under(1)), 2147483647),
        (minus(&under(1), &over(1)), -2147483648),
        (plus(&over(1), &under(1)), -1),
        (plus(&plus(greatest, greatest), &plus(least, least)), -1),
    ] {
        rows.value(&bytes, NOTHING, expected);
    }
}

/// The same, three levels deep.
fn deeper_inside(rows: &mut Rows) {
    let (least, greatest) = (&number(LEAST)[..], &number(GREATEST)[..]);
    let (zero, one) = (&number(0)[..], &number(1)[..]);
    let (high, low) = (plus(greatest, greatest), plus(least, least));
    for (bytes, expected) in [
        (plus(&plus(&high, least), least), -2147483648),
        (plus(greatest, &plus(greatest, &low)), 2147483646),
        (plus(&plus(&low, greatest), greatest), 2147483646),
        (plus(least, &plus(least, &high)), -2147483648),
        (
            minus(greatest, &minus(least, &minus(greatest, least))),
            2147483647,
        ),
        (
            minus(least, &minus(greatest, &minus(least, greatest))),
            -2147483648,
        ),
        (minus(&minus(&minus(zero, least), one), one), 2147483645),
    ] {
        rows.value(&bytes, NOTHING, expected);
    }
}

/// Every three of the ends and 1, with every two operators, the first inside the second and the
/// second inside the first.
fn three_operands(rows: &mut Rows) {
    const NUMBERS: [i32; 3] = [LEAST, 1, GREATEST];
    for (a, b, c) in all_threes(NUMBERS) {
        let values = Values(&[a, b, c], &[], &[]);
        for (first, second) in [(PLUS, PLUS), (PLUS, MINUS), (MINUS, PLUS), (MINUS, MINUS)] {
            let left = op(second, &[&op(first, &[P0, P1]), P2]);
            rows.value(&left, values, result(second, result(first, a, b), c));
            let right = op(first, &[P0, &op(second, &[P1, P2])]);
            rows.value(&right, values, result(first, a, result(second, b, c)));
        }
    }
}

fn all_threes(numbers: [i32; 3]) -> Vec<(i32, i32, i32)> {
    let pairs = numbers.iter().flat_map(|a| numbers.map(|b| (*a, b)));
    pairs
        .flat_map(|(a, b)| numbers.map(|c| (a, b, c)))
        .collect()
}

/// From two before an end, ones that lead past it, and as many back again.
fn there_and_back(rows: &mut Rows) {
    let one = &number(1)[..];
    for count in [1, 2, 3, 4, 7] {
        let steps = count.min(2);
        let over = (0..count).fold(number(GREATEST - 2), |v, _| plus(&v, one));
        rows.value(&over, NOTHING, GREATEST - 2 + steps);
        let back = (0..count).fold(over, |v, _| minus(&v, one));
        rows.value(&back, NOTHING, GREATEST - 2 + steps - count);
        let over = (0..count).fold(number(GREATEST - 2), |v, _| plus(one, &v));
        rows.value(&over, NOTHING, GREATEST - 2 + steps);
        let under = (0..count).fold(number(LEAST + 2), |v, _| minus(&v, one));
        rows.value(&under, NOTHING, LEAST + 2 - steps);
        let back = (0..count).fold(under, |v, _| plus(one, &v));
        rows.value(&back, NOTHING, LEAST + 2 - steps + count);
        let under = (0..count).fold(number(LEAST + 2), |v, _| plus(&number(-1), &v));
        rows.value(&under, NOTHING, LEAST + 2 - steps);
    }
}

type Nesting = fn(u8, usize, &[u8], &[u8]) -> Vec<u8>;

/// Operator, how it is nested, the operand that comes again, the last one, and what it gives.
const DEEP: [(u8, Nesting, i32, i32, i32); 8] = [
    (PLUS, left_to, HALF, 5, GREATEST),
    (PLUS, right_to, HALF, 5, GREATEST),
    (PLUS, left_to, -HALF, 5, LEAST + 5),
    (PLUS, right_to, -HALF, 5, LEAST),
    (MINUS, left_to, HALF, 5, LEAST),
    (MINUS, left_to, -HALF, 5, GREATEST - 5),
    (MINUS, right_to, HALF, LEAST, GREATEST),
    (MINUS, right_to, -HALF, GREATEST, LEAST),
];

/// In up to 1,019 bytes, so that an end is met again and again.
fn deep(rows: &mut Rows) {
    for (operator, nested, operand, last, expected) in DEEP {
        for count in [9, 339] {
            let bytes = nested(operator, count, P0, M0);
            rows.value(&bytes, Values(&[operand], &[last], &[]), expected);
        }
    }
}

// ---- Comparing --------------------------------------------------------------------------------

fn comparing(rows: &mut Rows) {
    for past in BOTH_WAYS {
        compare_past(rows, past);
    }
}

fn compare_past(rows: &mut Rows, (over, under): Past) {
    let (least, greatest, zero) = (number(LEAST), number(GREATEST), number(0));
    for (a, b, order) in [
        (&over(1), &greatest, 0),
        (&over(1), &over(2), 0),
        (&under(1), &least, 0),
        (&under(1), &under(2), 0),
        (&under(1), &over(1), -1),
        (&zero, &over(1), -1),
        (&under(1), &zero, -1),
        (&least, &over(1), -1),
        (&number(2_000_000_000), &over(1), -1),
        (&under(1), &number(-2_000_000_000), -1),
        (&minus(&over(1), &number(1)), &greatest, -1),
        (&least, &plus(&under(1), &number(1)), -1),
    ] {
        rows.condition(&op(4, &[a, b]), NOTHING, order < 0);
        rows.condition(&op(4, &[b, a]), NOTHING, false);
        rows.condition(&op(1, &[&op(4, &[b, a])]), NOTHING, true);
        rows.condition(&op(5, &[a, b]), NOTHING, order == 0);
        rows.condition(&op(5, &[b, a]), NOTHING, order == 0);
    }
}

/// A value is less than itself plus 1, but for the greatest; and what else holds but at an end.
fn but_at_an_end(rows: &mut Rows) {
    for n in ENDS {
        for (leaf, values) in [
            (P0, Values(&[n], &[], &[])),
            (M0, Values(&[], &[n], &[])),
            (E0, Values(&[], &[], &[n])),
        ] {
            by_one(rows, leaf, values, n);
        }
    }
}

/// Up and down by 1, with either operator, and back again.
fn by_one(rows: &mut Rows, leaf: &[u8], values: Values, n: i32) {
    let (one, minus_one) = (&number(1)[..], &number(-1)[..]);
    for (up, down) in [
        (plus(leaf, one), minus(leaf, one)),
        (minus(leaf, minus_one), plus(leaf, minus_one)),
    ] {
        rows.condition(&op(4, &[leaf, &up]), values, n != GREATEST);
        rows.condition(&op(4, &[&down, leaf]), values, n != LEAST);
        let (back, again) = (minus(&up, one), plus(&down, one));
        rows.condition(&op(5, &[&back, leaf]), values, n != GREATEST);
        rows.condition(&op(5, &[&again, leaf]), values, n != LEAST);
    }
}

fn choosing(rows: &mut Rows) {
    let (least, greatest) = (&number(LEAST)[..], &number(GREATEST)[..]);
    let (one, two) = (&number(1)[..], &number(2)[..]);
    let grows = op(4, &[greatest, &over(1)]);
    let same = op(5, &[&over(1), &over(2)]);
    let sinks = op(4, &[&under(1), least]);
    for (c, a, b, expected) in [
        (&grows[..], one, two, 2),
        (&sinks, one, two, 2),
        (&same, one, two, 1),
        (&op(1, &[&grows]), one, two, 1),
        (&same, &over(1), one, GREATEST),
        (&grows, one, &under(1), LEAST),
        (TRUE, &plus(greatest, greatest), one, GREATEST),
        (FALSE, one, &plus(least, least), LEAST),
        (TRUE, &under(2), &over(2), LEAST),
        (FALSE, &under(2), &over(2), GREATEST),
    ] {
        let chosen = op(22, &[c, a, b]);
        rows.value(&chosen, NOTHING, expected);
        rows.value(&plus(&chosen, one), NOTHING, sum(expected, 1));
        rows.value(&minus(&chosen, two), NOTHING, difference(expected, 2));
    }
}

// ---- Ticks ------------------------------------------------------------------------------------

/// Ticks, some of them sums that stop at an end: the difference of the two still turns round.
fn ticks(rows: &mut Rows) {
    for past in BOTH_WAYS {
        ticks_past(rows, past);
        within_a_sum(rows, past);
    }
}

fn ticks_past(rows: &mut Rows, (over, under): Past) {
    let (least, greatest, zero) = (number(LEAST), number(GREATEST), number(0));
    // The ticks, the least k for which it holds, and one less.
    for (a, b, elapsed) in [
        (&least, &greatest, 1),
        (&greatest, &least, -1),
        (&over(1), &greatest, 0),
        (&greatest, &over(1), 0),
        (&over(1), &over(2), 0),
        (&over(1), &least, -1),
        (&least, &over(1), 1),
        (&under(1), &greatest, 1),
        (&greatest, &under(1), -1),
        (&under(1), &over(1), 1),
        (&over(1), &under(1), -1),
        (&minus(&zero, &least), &least, -1),
        (&minus(&over(1), &number(1)), &least, -2),
        (&zero, &over(1), -2147483647),
        (&zero, &under(1), -2147483648),
    ] {
        let holds = |k: i32| op(6, &[a, b, &number(k)]);
        rows.condition(&holds(elapsed), NOTHING, true);
        if elapsed != 0 {
            rows.condition(&holds(elapsed.wrapping_sub(1)), NOTHING, false);
        }
    }
}

/// What ticks are compared with is a sum or difference that stops at an end, and then read unsigned.
fn within_a_sum(rows: &mut Rows, (over, under): Past) {
    for (elapsed, k, expected) in [
        (GREATEST, over(1), true),
        (LEAST, over(1), false),
        (-1, over(1), false),
        (-1, plus(&number(GREATEST), &number(GREATEST)), false),
        (LEAST, under(1), true),
        (GREATEST, under(1), true),
        (LEAST + 1, under(1), false),
        (-1, plus(&number(LEAST), &number(LEAST)), false),
        (0, plus(&number(LEAST), &number(LEAST)), true),
        (1, minus(&over(1), &number(GREATEST)), false),
    ] {
        let bytes = op(6, &[P0, M0, &k]);
        rows.condition(&bytes, Values(&[elapsed], &[0], &[]), expected);
    }
}

/// The ends and the numbers about zero as ticks.
fn ticks_at_the_ends(rows: &mut Rows) {
    for (a, b) in ENDS.iter().flat_map(|a| ENDS.map(|b| (*a, b))) {
        let elapsed = (i64::from(a) - i64::from(b)).rem_euclid(1 << 32);
        for k in [1, GREATEST, -2] {
            let holds = elapsed <= i64::from(k as u32);
            let bytes = op(6, &[P0, E0, M0]);
            rows.condition(&bytes, Values(&[a], &[k], &[b]), holds);
        }
    }
}

// ---- Actions ----------------------------------------------------------------------------------

pub(crate) const X0: &[u8] = &[18, 0];
pub(crate) const X1: &[u8] = &[18, 1];
pub(crate) const X2: &[u8] = &[18, 2];
pub(crate) const X3: &[u8] = &[18, 3];

/// Variables 0 and 1 are one before an end.
const NEAR: Values = Values(
    &[GREATEST, LEAST],
    &[GREATEST - 1, LEAST + 1, 5, -5],
    &[1, -1],
);

/// Assignments one after the other, and the variables after them.
fn done(rows: &mut Rows, assignments: &[Vec<u8>], after: [i32; 4]) {
    let line: String = after.iter().map(|n| format!(" {n}")).collect();
    let bytes = assignments.concat();
    rows.add(Kind::Action, &bytes, NEAR, &format!("done{line}"));
}

/// Counting past an end, with either operator; and back again, or a difference to the end.
fn counting_actions(rows: &mut Rows) {
    let (one, minus_one) = (&number(1)[..], &number(-1)[..]);
    for (up, down) in [
        (plus(X0, one), minus(X1, one)),
        (minus(X0, minus_one), plus(X1, minus_one)),
    ] {
        let (up, down) = (op(0, &[&up]), op(1, &[&down]));
        for count in [1, 2, 3, 6] {
            let past = vec![up.clone(); count];
            done(rows, &past, [2147483647, -2147483647, 5, -5]);
            let past = vec![down.clone(); count];
            done(rows, &past, [2147483646, -2147483648, 5, -5]);
        }
        let past = |count: &Vec<u8>, last: Vec<u8>| [vec![count.clone(); 3], vec![last]].concat();
        let back = past(&up, op(0, &[&minus(X0, one)]));
        done(rows, &back, [2147483646, -2147483647, 5, -5]);
        let back = past(&down, op(1, &[&plus(X1, one)]));
        done(rows, &back, [2147483646, -2147483647, 5, -5]);
        let none = past(&up, op(2, &[&minus(X0, P0)]));
        done(rows, &none, [2147483647, -2147483647, 0, -5]);
        let none = past(&down, op(3, &[&minus(P1, X1)]));
        done(rows, &none, [2147483646, -2147483648, 5, 0]);
    }
}

/// An assignment reads what another has just stopped at an end.
fn reading_actions(rows: &mut Rows) {
    let one = &number(1)[..];
    for (first, second, after) in [
        (
            op(2, &[&plus(P0, P0)]),
            op(3, &[&minus(X2, one)]),
            [2147483646, -2147483647, 2147483647, 2147483646],
        ),
        (
            op(2, &[&plus(P1, P1)]),
            op(3, &[&minus(E1, X2)]),
            [2147483646, -2147483647, -2147483648, 2147483647],
        ),
        (
            op(2, &[&minus(X0, X1)]),
            op(3, &[&minus(X1, X0)]),
            [2147483646, -2147483647, 2147483647, -2147483648],
        ),
        (
            op(3, &[&minus(&number(0), P1)]),
            op(3, &[&plus(X3, P1)]),
            [2147483646, -2147483647, 5, -1],
        ),
        (
            op(0, &[&plus(X0, X0)]),
            op(1, &[&plus(X1, X0)]),
            [2147483647, 0, 5, -5],
        ),
        (
            op(1, &[&plus(X1, X1)]),
            op(0, &[&plus(X1, X0)]),
            [-2, -2147483648, 5, -5],
        ),
    ] {
        done(rows, &[first, second], after);
    }
}

pub(crate) const ALL: [fn(&mut Rows); 13] = [
    one_operator,
    inside,
    deeper_inside,
    three_operands,
    there_and_back,
    deep,
    comparing,
    but_at_an_end,
    choosing,
    ticks,
    ticks_at_the_ends,
    counting_actions,
    reading_actions,
];
