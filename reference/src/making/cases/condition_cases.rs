//! The cases of the program `condition_cases`: chosen ones with answers written down here, and
//! random ones from a fixed seed.

use crate::framing::condition_frames::{Frame, Kind};
use crate::implementation::expr::Counts;
use crate::making::cases::condition_counts;
use crate::making::cases::condition_ends::{self, difference, sum};
use crate::making::random::Random;
use crate::making::random_expr::{self, Taste};

/// A frame and, where it was chosen by hand, the answer worked out apart from the evaluator.
pub struct Row {
    pub frame: Frame,
    /// The line without its count.
    pub expected: Option<String>,
    /// The count, where it was worked out too.
    pub count: Option<u64>,
}

/// What a frame lends: program, monitor and kept values.
#[derive(Clone, Copy)]
pub(crate) struct Values<'a>(
    pub(crate) &'a [i32],
    pub(crate) &'a [i32],
    pub(crate) &'a [i32],
);

pub(crate) const NOTHING: Values = Values(&[], &[], &[]);
/// One of each, all different, so that reading the wrong kind shows.
pub(crate) const ONE: Values = Values(&[11], &[22], &[33]);
const TWO: Values = Values(&[11, -12], &[22, -23], &[33, -34]);

pub(crate) const REFUSED_4: &str = "refused 4";
pub(crate) const REFUSED_5: &str = "refused 5";
pub(crate) const ENDS: [i32; 7] = [i32::MIN, i32::MIN + 1, -1, 0, 1, i32::MAX - 1, i32::MAX];

#[derive(Default)]
pub(crate) struct Rows {
    rows: Vec<Row>,
}

impl Rows {
    pub(crate) fn add(&mut self, kind: Kind, bytes: &[u8], values: Values, expected: &str) {
        let frame = frame(kind, bytes, values);
        self.rows.push(Row {
            frame,
            expected: Some(expected.to_string()),
            count: None,
        });
    }

    /// The count of the row that was added last.
    pub(crate) fn counts(&mut self, count: u64) {
        if let Some(row) = self.rows.last_mut() {
            row.count = Some(count);
        }
    }

    /// The rows that these add, one after the other.
    pub(crate) fn of(parts: impl IntoIterator<Item = fn(&mut Rows)>) -> Vec<Row> {
        let mut rows = Rows::default();
        for add in parts {
            add(&mut rows);
        }
        rows.rows
    }

    pub(crate) fn condition(&mut self, bytes: &[u8], values: Values, expected: bool) {
        self.add(Kind::Condition, bytes, values, &expected.to_string());
    }

    pub(crate) fn value(&mut self, bytes: &[u8], values: Values, expected: i32) {
        self.add(Kind::Value, bytes, values, &expected.to_string());
    }

    /// Refused 5 as a condition, and judged to be none.
    fn no_condition(&mut self, bytes: &[u8], values: Values) {
        self.add(Kind::Condition, bytes, values, REFUSED_5);
        self.add(Kind::JudgeCondition, bytes, values, "000");
    }

    fn no_value(&mut self, bytes: &[u8], values: Values) {
        self.add(Kind::Value, bytes, values, REFUSED_5);
    }

    fn no_action(&mut self, bytes: &[u8], values: Values) {
        self.add(Kind::Action, bytes, values, REFUSED_5);
        self.add(Kind::JudgeAction, bytes, values, "00");
    }
}

fn frame(kind: Kind, bytes: &[u8], values: Values) -> Frame {
    Frame {
        kind,
        expression: bytes.to_vec(),
        program: values.0.to_vec(),
        monitor: values.1.to_vec(),
        kept: values.2.to_vec(),
    }
}

// ---- Bytes of expressions ---------------------------------------------------------------------

pub(crate) const TRUE: &[u8] = &[0];
pub(crate) const FALSE: &[u8] = &[1, 0];
pub(crate) const P0: &[u8] = &[17, 0];
pub(crate) const P1: &[u8] = &[17, 1];
pub(crate) const P2: &[u8] = &[17, 2];
pub(crate) const M0: &[u8] = &[18, 0];
pub(crate) const M1: &[u8] = &[18, 1];
pub(crate) const E0: &[u8] = &[19, 0];
pub(crate) const E1: &[u8] = &[19, 1];

pub(crate) fn op(operator: u8, operands: &[&[u8]]) -> Vec<u8> {
    let mut bytes = vec![operator];
    for operand in operands {
        bytes.extend_from_slice(operand);
    }
    bytes
}

pub(crate) fn number(n: i32) -> Vec<u8> {
    op(16, &[&n.to_be_bytes()])
}

pub(crate) fn joined(parts: &[&[u8]]) -> Vec<u8> {
    parts.concat()
}

/// `count` times `not`, then `end`.
pub(crate) fn nots(count: usize, end: &[u8]) -> Vec<u8> {
    let mut bytes = vec![1; count];
    bytes.extend_from_slice(end);
    bytes
}

/// A well formed expression for each operator, with the sort it is of.
fn one_of_each() -> Vec<(Kind, Vec<u8>)> {
    let n = number(0x0102_0304);
    vec![
        (Kind::Condition, TRUE.to_vec()),
        (Kind::Condition, op(1, &[TRUE])),
        (Kind::Condition, op(2, &[TRUE, FALSE])),
        (Kind::Condition, op(3, &[FALSE, TRUE])),
        (Kind::Condition, op(4, &[P0, M0])),
        (Kind::Condition, op(5, &[E0, &n])),
        (Kind::Condition, op(6, &[P0, E0, M0])),
        (Kind::Value, n.clone()),
        (Kind::Value, P0.to_vec()),
        (Kind::Value, M0.to_vec()),
        (Kind::Value, E0.to_vec()),
        (Kind::Value, op(20, &[P0, &n])),
        (Kind::Value, op(21, &[&n, M0])),
        (Kind::Value, op(22, &[FALSE, P0, E0])),
    ]
}

/// The operators with operands, and what sort each operand is of (true for a condition).
const OPERANDS: [(u8, &[bool]); 9] = [
    (1, &[true]),
    (2, &[true, true]),
    (3, &[true, true]),
    (4, &[false, false]),
    (5, &[false, false]),
    (6, &[false, false, false]),
    (20, &[false, false]),
    (21, &[false, false]),
    (22, &[true, false, false]),
];

fn sort_of(operator: u8) -> Kind {
    if operator < 16 {
        Kind::Condition
    } else {
        Kind::Value
    }
}

// ---- Chosen cases -----------------------------------------------------------------------------

fn operators(rows: &mut Rows) {
    let (t, f) = (TRUE, FALSE);
    rows.condition(t, NOTHING, true);
    rows.condition(f, NOTHING, false);
    rows.condition(&op(1, &[f]), NOTHING, true);
    for (a, b) in [(t, t), (t, f), (f, t), (f, f)] {
        let (left, right) = (a == t, b == t);
        rows.condition(&op(2, &[a, b]), NOTHING, left && right);
        rows.condition(&op(3, &[a, b]), NOTHING, left || right);
    }
    rows.condition(&op(4, &[P0, M0]), ONE, true);
    rows.condition(&op(4, &[M0, P0]), ONE, false);
    rows.condition(&op(4, &[P0, P0]), ONE, false);
    rows.condition(&op(5, &[E0, E0]), ONE, true);
    rows.condition(&op(5, &[E0, M0]), ONE, false);
    rows.condition(&op(6, &[E0, M0, P0]), ONE, true);
    rows.condition(&op(6, &[M0, E0, P0]), ONE, false);
    rows.value(P0, ONE, 11);
    rows.value(M0, ONE, 22);
    rows.value(E0, ONE, 33);
    rows.value(P1, TWO, -12);
    rows.value(M1, TWO, -23);
    rows.value(E1, TWO, -34);
    rows.value(&op(20, &[P0, M1]), TWO, -12);
    rows.value(&op(21, &[P0, M1]), TWO, 34);
    rows.value(&op(21, &[M1, P0]), TWO, -34);
    rows.value(&op(22, &[t, P0, M0]), ONE, 11);
    rows.value(&op(22, &[f, P0, M0]), ONE, 22);
}

/// The rows that document 01 stars, the last as document 02's slip 2 has it, and the order of a
/// constant's bytes.
fn starred(rows: &mut Rows) {
    let (low, high) = (number(i32::MIN), number(i32::MAX));
    let one = number(1);
    let zero = number(0);
    rows.condition(&op(6, &[&low, &high, &one]), NOTHING, true);
    rows.condition(&op(6, &[&low, &high, &zero]), NOTHING, false);
    rows.condition(&op(4, &[&number(-1), &zero]), NOTHING, true);
    rows.value(&op(20, &[&high, &one]), NOTHING, i32::MAX);
    rows.value(&[16, 1, 2, 3, 4], NOTHING, 16_909_060);
    rows.value(&[16, 128, 0, 0, 0], NOTHING, i32::MIN);
    rows.value(&[16, 127, 255, 255, 255], NOTHING, i32::MAX);
    for n in ENDS {
        rows.value(&number(n), NOTHING, n);
    }
}

/// The tick that this whole number is: modulo 2^32 and read as signed.
fn tick(exact: i64) -> i32 {
    let unsigned = exact.rem_euclid(1 << 32);
    let signed = if unsigned >= 1 << 31 {
        unsigned - (1 << 32)
    } else {
        unsigned
    };
    signed as i32
}

/// Every pair of numbers at the ends of the range and about zero.
fn ends_of_range(rows: &mut Rows) {
    for a in ENDS {
        for b in ENDS {
            let values = Values(&[a, b], &[], &[]);
            rows.condition(&op(4, &[P0, P1]), values, a < b);
            rows.condition(&op(5, &[P0, P1]), values, a == b);
            rows.value(&op(20, &[P0, P1]), values, sum(a, b));
            rows.value(&op(21, &[P0, P1]), values, difference(a, b));
        }
    }
}

/// Both sides of the edge of `within`, also where the ticks pass through zero.
fn within_edges(rows: &mut Rows) {
    let expression = op(6, &[P0, P1, P2]);
    let spans: [u32; 8] = [
        0,
        1,
        2,
        1000,
        0x7FFF_FFFF,
        0x8000_0000,
        0xFFFF_FFFE,
        0xFFFF_FFFF,
    ];
    for start in [0, -1, i32::MIN, i32::MAX] {
        for k in spans {
            for past in [-1i64, 0, 1] {
                let elapsed = i64::from(k) + past;
                let a = tick(i64::from(start) + elapsed);
                let holds = elapsed.rem_euclid(1 << 32) <= i64::from(k);
                rows.condition(&expression, Values(&[a, start, k as i32], &[], &[]), holds);
            }
        }
    }
}

fn lengths(rows: &mut Rows) {
    for kind in [Kind::Condition, Kind::Value] {
        rows.add(kind, &[], ONE, REFUSED_4);
    }
    rows.add(Kind::JudgeCondition, &[], ONE, "000");
    rows.add(Kind::JudgeAction, &[], ONE, "10");
    for count in [1, 2, 30, 61, 62, 63] {
        rows.condition(&nots(count, TRUE), NOTHING, count % 2 == 0);
        rows.add(Kind::JudgeCondition, &nots(count, TRUE), NOTHING, "100");
    }
    let long_value = op(22, &[&nots(58, TRUE), P0, M0]);
    rows.value(&long_value, ONE, 11);
    rows.no_condition(&[1; 64], NOTHING);
    rows.no_condition(&[0; 64], NOTHING);
    rows.no_condition(&[0; 257], NOTHING);
    rows.no_condition(&[255; 65], NOTHING);
    let mut trailing = number(7);
    trailing.resize(261, 0);
    rows.no_value(&trailing, NOTHING);
    long_lengths(rows);
}

/// The length at which a condition or value is refused 4 is 1,025. Some have low bytes that would
/// be refused, or taken, if they alone were kept.
fn long_lengths(rows: &mut Rows) {
    for length in [64, 65, 66, 128, 255, 256, 257, 320, 1_023, 1_024] {
        let condition = nots(length - 1, TRUE);
        rows.condition(&condition, NOTHING, length % 2 == 1);
        rows.add(Kind::JudgeCondition, &condition, NOTHING, "100");
        let value = op(22, &[&nots(length - 6, TRUE), P0, M0]);
        rows.value(&value, ONE, [11, 22][length % 2]);
    }
    for length in [1_025, 1_026, 1_088, 1_280, 2_048] {
        let condition = nots(length - 1, TRUE);
        rows.add(Kind::Condition, &condition, NOTHING, REFUSED_4);
        rows.add(Kind::JudgeCondition, &condition, NOTHING, "000");
        let value = op(22, &[&nots(length - 6, TRUE), P0, M0]);
        rows.add(Kind::Value, &value, ONE, REFUSED_4);
    }
    // 4 comes before 5.
    rows.add(Kind::Condition, &[255; 1_025], NOTHING, REFUSED_4);
    rows.add(Kind::Value, &[255; 1_025], NOTHING, REFUSED_4);
}

/// `count` times `operator` nested in its first operand; the last operand is another.
pub(crate) fn left_to(operator: u8, count: usize, leaf: &[u8], last: &[u8]) -> Vec<u8> {
    joined(&[&vec![operator; count], &leaf.repeat(count), last])
}

/// `count` times `operator` nested in its second operand; the last operand is another.
pub(crate) fn right_to(operator: u8, count: usize, leaf: &[u8], last: &[u8]) -> Vec<u8> {
    joined(&[&op(operator, &[leaf]).repeat(count), last])
}

fn left_deep(operator: u8, count: usize, leaf: &[u8]) -> Vec<u8> {
    left_to(operator, count, leaf, leaf)
}

fn right_deep(operator: u8, count: usize, leaf: &[u8]) -> Vec<u8> {
    right_to(operator, count, leaf, leaf)
}

/// `choose` nested in its first value (taken).
pub(crate) fn deep_first(levels: usize, inner: &[u8]) -> Vec<u8> {
    (0..levels).fold(inner.to_vec(), |value, _| op(22, &[TRUE, &value, P0]))
}

/// `choose` nested in its second value (taken).
pub(crate) fn deep_second(levels: usize, inner: &[u8]) -> Vec<u8> {
    joined(&[&op(22, &[FALSE, P0]).repeat(levels), inner])
}

/// Conditions and values in turn: less(choose(less(choose(..., P0, M0), P0), ...
fn in_turn(levels: usize) -> Vec<u8> {
    in_turn_from(levels, TRUE)
}

/// Each level holds where the one within it does: then 11 is chosen, and otherwise 22.
pub(crate) fn in_turn_from(levels: usize, inner: &[u8]) -> Vec<u8> {
    let mut bytes = inner.to_vec();
    for _ in 0..levels {
        let chosen = op(22, &[&bytes, P0, M0]);
        bytes = op(4, &[&chosen, M0]);
    }
    bytes
}

fn depth(rows: &mut Rows) {
    for operator in [2, 3] {
        for bytes in [
            left_deep(operator, 31, TRUE),
            right_deep(operator, 31, TRUE),
        ] {
            rows.condition(&bytes, NOTHING, true);
            rows.condition(&op(1, &[&bytes]), NOTHING, false);
            rows.condition(&nots(2, &bytes), NOTHING, true);
        }
    }
    for bytes in [left_deep(20, 20, P0), right_deep(20, 20, P0)] {
        rows.value(&bytes, ONE, 21 * 11);
        rows.value(&op(20, &[&bytes, P0]), ONE, 22 * 11);
    }
    // ((11 - 11) - 11) - ..., and 11 - (11 - (11 - ...)).
    rows.value(&left_deep(21, 20, P0), ONE, -19 * 11);
    rows.value(&right_deep(21, 20, P0), ONE, 11);
    rows.value(&right_deep(21, 19, P0), ONE, 0);
    for bytes in [deep_first(12, E0), deep_second(12, E0)] {
        rows.value(&bytes, ONE, 33);
        rows.no_value(&bytes[..bytes.len() - 1], ONE);
        rows.add(Kind::Action, &op(0, &[&bytes]), ONE, "done 33");
        rows.add(Kind::JudgeAction, &op(0, &[&bytes]), ONE, "11");
    }
    let deep_action = op(0, &[&op(22, &[&nots(57, TRUE), P0, E0])]);
    rows.add(Kind::Action, &deep_action, ONE, "done 33");
    for levels in 1..=7 {
        // 11 < 22, and then always 11 is chosen again.
        rows.condition(&in_turn(levels), ONE, true);
        rows.add(Kind::JudgeCondition, &in_turn(levels), ONE, "101");
    }
    let deepest = nots(7, &in_turn(7));
    rows.condition(&deepest, ONE, false);
    rows.condition(&nots(8, &in_turn(7)), ONE, true);
    rows.no_condition(&deepest[..63], ONE);
}

/// Chooses by its last few bytes: the present value where `not` comes an even number of times, and
/// otherwise the one at entry.
fn ending(count: usize) -> Vec<u8> {
    op(22, &[&nots(count, TRUE), P0, E0])
}

/// Conditions of 1,022 to 1,025 bytes, nested as deep as these allow, that the last bytes decide.
fn full_conditions(rows: &mut Rows) {
    for to in [left_to, right_to] {
        for (count, holds) in [(0, true), (1, false)] {
            rows.condition(&to(2, 511, TRUE, &nots(count, TRUE)), NOTHING, holds);
        }
        let over = to(2, 511, TRUE, &nots(2, TRUE));
        rows.add(Kind::Condition, &over, NOTHING, REFUSED_4);
        rows.condition(&to(3, 341, FALSE, TRUE), NOTHING, true);
        let over = to(3, 341, FALSE, FALSE);
        rows.add(Kind::Condition, &over, NOTHING, REFUSED_4);
        for (count, holds) in [(1, false), (2, true), (3, false)] {
            rows.condition(&to(3, 340, FALSE, &nots(count, TRUE)), NOTHING, holds);
        }
    }
    for (count, holds) in [(5, false), (6, true), (7, false)] {
        let bytes = in_turn_from(127, &nots(count, TRUE));
        rows.condition(&bytes, ONE, holds);
        rows.add(Kind::JudgeCondition, &bytes, ONE, "101");
    }
    let over = in_turn_from(127, &nots(8, TRUE));
    rows.add(Kind::Condition, &over, ONE, REFUSED_4);
    // What stands in the last bytes alone.
    for (last, holds, expected) in [(P0, true, "100"), (E0, false, "110"), (M0, false, "101")] {
        let bytes = nots(1_018, &op(5, &[P0, last]));
        rows.condition(&bytes, ONE, holds);
        rows.add(Kind::JudgeCondition, &bytes, ONE, expected);
        rows.condition(&nots(1_019, &op(5, &[P0, last])), ONE, !holds);
    }
}

/// Values of 1,022 to 1,025 bytes, nested as deep as these allow, that the last bytes decide.
fn full_values(rows: &mut Rows) {
    let last = [11, 33];
    for (count, last) in last.into_iter().enumerate() {
        let end = ending(count);
        for to in [left_to, right_to] {
            rows.value(&to(20, 339, P0, &end), ONE, 339 * 11 + last);
        }
        // 11 - 338 times 11, and then the last; 11 - (11 - (11 - ... last)).
        rows.value(&left_to(21, 339, P0, &end), ONE, 11 - 338 * 11 - last);
        rows.value(&right_to(21, 339, P0, &end), ONE, 11 - last);
    }
    for to in [left_to, right_to] {
        let over = to(20, 339, P0, &ending(2));
        rows.add(Kind::Value, &over, ONE, REFUSED_4);
    }
    for (count, value) in [(0, 11), (1, 33), (2, 11)] {
        rows.value(&deep_first(254, &ending(count)), ONE, value);
        rows.value(&deep_second(203, &ending(count + 1)), ONE, 44 - value);
    }
    for over in [deep_first(254, &ending(3)), deep_second(203, &ending(4))] {
        rows.add(Kind::Value, &over, ONE, REFUSED_4);
    }
}

/// Bytes of over 64 and up to 1,024 that are not exactly one: the fault is at the end, or in front.
fn long_malformed(rows: &mut Rows) {
    for length in [65, 255, 256, 257, 1_023, 1_024] {
        rows.no_condition(&vec![1; length], ONE);
        rows.no_condition(&vec![2; length], ONE);
        for end in [&[7][..], &[0, 0], &[5, 17, 0, 17, 1], &[4, 17, 0], &[17, 0]] {
            rows.no_condition(&nots(length - end.len(), end), ONE);
        }
        let behind = |front: &[u8]| joined(&[front, &nots(length - front.len() - 1, TRUE)]);
        for front in [&[7][..], &[0], &[17], &[4]] {
            rows.no_condition(&behind(front), ONE);
        }
        rows.no_value(&vec![20; length], ONE);
        rows.no_value(&op(22, &[&nots(length - 5, TRUE), P0, &[17]]), ONE);
        rows.no_value(&op(22, &[&nots(length - 7, TRUE), P0, M0, &[0]]), ONE);
        rows.no_value(&op(22, &[&nots(length - 6, TRUE), P0, P1]), ONE);
    }
    // A part that evaluation does not reach.
    for end in [&[7][..], &[5, 17, 0, 17, 1], &[]] {
        let bytes = op(2, &[FALSE, &nots(1_000, end)]);
        rows.no_condition(&bytes, ONE);
        rows.no_condition(&op(3, &[TRUE, &nots(1_000, end)]), ONE);
    }
}

/// An action keeps to 64 bytes, whatever stands in it.
fn long_actions(rows: &mut Rows) {
    for length in [64, 65, 255, 256, 257, 1_023, 1_024, 1_025] {
        let action = op(0, &[&op(22, &[&nots(length - 7, TRUE), P0, M0])]);
        let (done, judged) = match length {
            64 => ("done 22", "10"),
            _ => (REFUSED_4, "00"),
        };
        rows.add(Kind::Action, &action, ONE, done);
        rows.add(Kind::JudgeAction, &action, ONE, judged);
    }
}

/// Every strict prefix of a well formed expression, and one byte too many.
fn cut_and_trailing(rows: &mut Rows) {
    for (kind, bytes) in one_of_each() {
        for length in 1..bytes.len() {
            rows.add(kind, &bytes[..length], ONE, REFUSED_5);
        }
        for extra in [0, 1, 17, 255] {
            rows.add(kind, &joined(&[&bytes, &[extra]]), ONE, REFUSED_5);
        }
        rows.add(kind, &joined(&[&bytes, &bytes]), ONE, REFUSED_5);
        if kind == Kind::Value {
            for length in 1..bytes.len() {
                rows.no_condition(&op(4, &[P0, &bytes[..length]]), ONE);
            }
        }
    }
}

fn unknown_operators(rows: &mut Rows) {
    for operator in (7..16).chain(23..=255) {
        rows.add(Kind::Condition, &[operator], NOTHING, REFUSED_5);
        rows.add(Kind::Value, &[operator], NOTHING, REFUSED_5);
    }
    for operator in [7, 15, 23, 32, 128, 255] {
        for operands in [TRUE, P0, &[0, 0], &[17, 0, 17, 0], &[0, 0, 0, 0]] {
            rows.no_condition(&op(operator, &[operands]), ONE);
            rows.no_value(&op(operator, &[operands]), ONE);
        }
        rows.no_condition(&op(1, &[&[operator]]), ONE);
        rows.no_condition(&op(4, &[P0, &[operator, 0]]), ONE);
        rows.no_value(&op(20, &[&[operator, 0], P0]), ONE);
        rows.no_action(&[0, operator, 0], ONE);
    }
}

/// Each operator with each operand place holding nothing, the other sort, or an unknown operator.
fn wrong_operands(rows: &mut Rows) {
    for (operator, sorts) in OPERANDS {
        let right = |sort: bool| if sort { TRUE } else { P0 };
        let wrong = |sort: bool| if sort { P0 } else { TRUE };
        for place in 0..sorts.len() {
            for replacement in [wrong(sorts[place]), &[], &[9]] {
                let operands: Vec<&[u8]> = (0..sorts.len())
                    .map(|i| {
                        if i == place {
                            replacement
                        } else {
                            right(sorts[i])
                        }
                    })
                    .collect();
                rows.add(sort_of(operator), &op(operator, &operands), ONE, REFUSED_5);
            }
        }
        let other = match sort_of(operator) {
            Kind::Condition => Kind::Value,
            _ => Kind::Condition,
        };
        let operands: Vec<&[u8]> = sorts.iter().map(|sort| right(*sort)).collect();
        rows.add(other, &op(operator, &operands), ONE, REFUSED_5);
    }
    rows.no_value(TRUE, ONE);
    for value in [P0, M0, E0, &number(0)] {
        rows.no_condition(value, ONE);
    }
}

fn up_to(count: usize, first: i32) -> Vec<i32> {
    (0..count as i32).map(|i| first + i).collect()
}

/// Numbers just inside and just past what is lent, of each kind, with more lent of the others.
fn variables(rows: &mut Rows) {
    for (operator, kind) in [(17u8, 0usize), (18, 1), (19, 2)] {
        for count in [0usize, 1, 2, 8] {
            // Past its own kind a number is often still inside the other two.
            let others = if count < 3 { count + 1 } else { 1 };
            let mut lent = [up_to(others, 100), up_to(others, 200), up_to(others, 300)];
            lent[kind] = up_to(count, 500);
            let values = Values(&lent[0], &lent[1], &lent[2]);
            if count > 0 {
                let last = count as u8 - 1;
                rows.value(&[operator, last], values, 499 + count as i32);
                let equal = op(5, &[&[operator, last], &number(499 + count as i32)]);
                rows.condition(&equal, values, true);
            }
            for past in [count as u8, count as u8 + 1, 255] {
                rows.no_value(&[operator, past], values);
            }
            rows.no_condition(&op(5, &[&number(0), &[operator, count as u8]]), values);
        }
        rows.no_value(&[operator, 0], NOTHING);
        rows.no_condition(&op(5, &[&[operator, 0], &number(0)]), NOTHING);
    }
}

/// The most that a frame can lend: 255 values of one kind.
fn many_lent(rows: &mut Rows) {
    let many = up_to(255, 1000);
    for (operator, kind) in [(17u8, 0usize), (18, 1), (19, 2)] {
        let mut lent: [&[i32]; 3] = [&[5], &[6], &[7]];
        lent[kind] = &many;
        let values = Values(lent[0], lent[1], lent[2]);
        rows.value(
            &op(20, &[&[operator, 254], &[operator, 128]]),
            values,
            1254 + 1128,
        );
        rows.no_value(&[operator, 255], values);
    }
}

/// A part that evaluation does not reach counts all the same.
fn not_reached(rows: &mut Rows) {
    let not_conditions: [&[u8]; 6] = [&[], &[7], &[17, 0], &[1], &[4, 17, 0], &[5, 17, 9, 17, 9]];
    for bad in not_conditions {
        rows.no_condition(&op(2, &[FALSE, bad]), ONE);
        rows.no_condition(&op(3, &[TRUE, bad]), ONE);
    }
    let not_values: [&[u8]; 7] = [&[], &[23], &[0], &[17], &[17, 1], &[16, 0, 0, 0], &[19, 1]];
    for bad in not_values {
        // Taking the first branch the bad one is last; taking the last it stands in the middle.
        rows.no_value(&op(22, &[TRUE, P0, bad]), ONE);
        rows.no_value(&op(22, &[FALSE, bad, P0]), ONE);
        rows.no_condition(&op(5, &[P0, &op(22, &[TRUE, P0, bad])]), ONE);
    }
    let wide = op(4, &[&number(1), P0]);
    rows.condition(&op(2, &[FALSE, &wide]), ONE, false);
    rows.condition(&op(2, &[&wide, FALSE]), ONE, false);
    rows.condition(&op(3, &[TRUE, &wide]), ONE, true);
    rows.condition(&op(3, &[FALSE, &wide]), ONE, true);
    let inner = op(22, &[&wide, M0, E0]);
    rows.value(&op(22, &[&wide, &inner, P0]), ONE, 22);
    rows.value(&op(22, &[&op(1, &[&wide]), &inner, P0]), ONE, 11);
}

/// The value at entry is the kept one, not the present one.
fn at_entry(rows: &mut Rows) {
    let values = Values(&[8, 8], &[0], &[8, 3]);
    rows.condition(&op(5, &[P0, E0]), values, true);
    rows.condition(&op(5, &[P1, E1]), values, false);
    rows.condition(&op(4, &[E1, P1]), values, true);
    rows.value(&op(21, &[P1, E1]), values, 5);
    // Sample A's postcondition: 8 declared at entry, 7 loaded at exit.
    let sample = op(5, &[P1, E0]);
    rows.condition(&sample, Values(&[8, 7], &[], &[8, 0]), false);
    rows.condition(&sample, Values(&[8, 8], &[], &[8, 0]), true);
    rows.condition(&sample, Values(&[7, 7], &[], &[8, 0]), false);
    rows.no_condition(&sample, Values(&[8, 8], &[8, 8], &[]));
}

fn judged(rows: &mut Rows) {
    let three = Values(&[1], &[2], &[3]);
    let mut judge = |bytes: &[u8], expected: &str| {
        rows.add(Kind::JudgeCondition, bytes, three, expected);
    };
    judge(TRUE, "100");
    for operator in [4, 5] {
        judge(&op(operator, &[P0, P0]), "100");
        judge(&op(operator, &[E0, P0]), "110");
        judge(&op(operator, &[P0, E0]), "110");
        judge(&op(operator, &[M0, P0]), "101");
        judge(&op(operator, &[P0, M0]), "101");
        judge(&op(operator, &[E0, M0]), "111");
        judge(&op(operator, &[M0, E0]), "111");
    }
    for (place, _) in [P0, P0, P0].iter().enumerate() {
        for (leaf, expected) in [(E0, "110"), (M0, "101")] {
            let mut operands = [P0, P0, P0];
            operands[place] = leaf;
            judge(&op(6, &operands), expected);
        }
    }
    for (leaf, expected) in [(E0, "110"), (M0, "101"), (P0, "100")] {
        let c = op(5, &[leaf, P0]);
        judge(&op(1, &[&c]), expected);
        for operator in [2, 3] {
            judge(&op(operator, &[&c, TRUE]), expected);
            judge(&op(operator, &[FALSE, &c]), expected);
        }
        for value in [
            op(20, &[leaf, P0]),
            op(20, &[P0, leaf]),
            op(21, &[leaf, P0]),
            op(21, &[P0, leaf]),
            op(22, &[&c, P0, P0]),
            op(22, &[TRUE, leaf, P0]),
            op(22, &[TRUE, P0, leaf]),
        ] {
            judge(&op(4, &[&value, P0]), expected);
            judge(&op(4, &[P0, &value]), expected);
        }
    }
    // Constants whose bytes look like operators 18 and 19 hold neither.
    judge(&op(5, &[&[16, 18, 19, 18, 19], P0]), "100");
    judge(&op(4, &[&[16, 19, 0, 19, 0], &[16, 18, 0, 18, 0]]), "100");
    judge(&op(5, &[E0, E1]), "000");
    judge(&op(5, &[M0, M1]), "000");
}

fn actions(rows: &mut Rows) {
    let values = Values(&[5, 6], &[10, 20, 30, 40], &[7, 8]);
    let mut done = |bytes: &[u8], expected: &str| {
        rows.add(Kind::Action, bytes, values, &format!("done{expected}"));
    };
    done(&[], " 10 20 30 40");
    for variable in 0..4u8 {
        let mut after = [10, 20, 30, 40];
        after[usize::from(variable)] = 6;
        let line: String = after.iter().map(|n| format!(" {n}")).collect();
        done(&op(variable, &[P1]), &line);
    }
    done(&op(1, &[E1]), " 10 8 30 40");
    done(&op(0, &[M0]), " 10 20 30 40");
    // Later assignments see earlier ones: a try at swapping, a chain, and adding twice.
    done(&joined(&[&[0, 18, 1], &[1, 18, 0]]), " 20 20 30 40");
    done(
        &joined(&[&[1, 18, 0], &[2, 18, 1], &[3, 18, 2]]),
        " 10 10 10 10",
    );
    done(
        &joined(&[&[3, 18, 2], &[2, 18, 1], &[1, 18, 0]]),
        " 10 10 20 30",
    );
    let again = op(0, &[&op(20, &[M0, M0])]);
    done(&again.repeat(5), " 320 20 30 40");
    done(&joined(&[&op(0, &[P0]), &op(0, &[P1])]), " 6 20 30 40");
    let chosen = op(2, &[&op(22, &[&op(4, &[M0, M1]), P0, P1])]);
    done(&chosen, " 10 20 5 40");
    done(&joined(&[&[0, 18, 3], &chosen]), " 40 20 6 40");
    done(
        &op(3, &[&op(20, &[&number(i32::MAX), P0])]),
        " 10 20 30 2147483647",
    );
}

fn bad_actions(rows: &mut Rows) {
    let good = [0, 17, 0];
    for bad in [
        &[0u8][..],
        &[0, 17],
        &[1, 17, 0],
        &[4, 17, 0],
        &[255, 17, 0],
        &[17],
        &[0, 0],
    ] {
        rows.no_action(bad, ONE);
        rows.no_action(&joined(&[&good, bad]), ONE);
        rows.no_action(&joined(&[&good, &good, &good, bad]), ONE);
    }
    for bad in [
        &[0u8, 17, 1][..],
        &[0, 18, 1],
        &[0, 19, 1],
        &[0, 16, 0, 0, 0],
        &[0, 20, 17, 0],
    ] {
        rows.no_action(bad, ONE);
        rows.no_action(&joined(&[&good, bad]), ONE);
    }
    for count in 0..=4usize {
        let monitor = up_to(count, 60);
        let values = Values(&[9], &monitor, &[]);
        rows.no_action(&[count as u8, 17, 0], values);
        rows.no_action(&[0, 18, count as u8], values);
        rows.add(Kind::JudgeAction, &[], values, "10");
    }
    rows.add(Kind::Action, &[], NOTHING, "done");
    rows.no_action(&good, NOTHING);
}

fn action_lengths(rows: &mut Rows) {
    let short = op(0, &[&op(20, &[M0, P0])]);
    let odd = op(0, &[&op(22, &[TRUE, M0, P0])]);
    let full = joined(&[&short.repeat(9), &odd, &[0, 18, 0]]);
    rows.add(Kind::Action, &full, ONE, "done 121");
    rows.add(Kind::JudgeAction, &full, ONE, "10");
    let over = joined(&[&odd, &odd, &[0, 18, 0].repeat(17)]);
    rows.add(Kind::Action, &over, ONE, REFUSED_4);
    rows.add(Kind::JudgeAction, &over, ONE, "00");
    rows.add(Kind::Action, &[0; 65], ONE, REFUSED_4);
    rows.add(Kind::Action, &[0; 256], ONE, REFUSED_4);
    rows.no_action(&[0; 64], ONE);
    rows.add(Kind::JudgeAction, &[0, 18, 0].repeat(86), ONE, "00");
    for (bytes, expected) in [
        (vec![0, 17, 0], "10"),
        (vec![0, 19, 0], "11"),
        (vec![0, 17, 0, 0, 19, 0], "11"),
        (vec![0, 19, 0, 0, 17, 0], "11"),
        (vec![0, 16, 19, 0, 19, 0], "10"),
        (vec![0, 22, 5, 19, 0, 17, 0, 17, 0, 17, 0], "11"),
        (vec![0, 20, 18, 0, 21, 17, 0, 19, 0], "11"),
    ] {
        rows.add(Kind::JudgeAction, &bytes, ONE, expected);
    }
    // The assigned variable 19 is a number here, not an operator, and is past what is lent.
    rows.no_action(&[19, 17, 0], ONE);
}

/// The cases chosen by hand, each with its answer; those of counts come last.
pub fn chosen() -> Vec<Row> {
    let mut rows = chosen_first();
    rows.extend(condition_counts::chosen());
    rows
}

/// All but those of counts.
fn chosen_first() -> Vec<Row> {
    let parts: [fn(&mut Rows); 21] = [
        operators,
        starred,
        ends_of_range,
        within_edges,
        lengths,
        depth,
        cut_and_trailing,
        unknown_operators,
        wrong_operands,
        variables,
        many_lent,
        not_reached,
        at_entry,
        judged,
        actions,
        bad_actions,
        action_lengths,
        full_conditions,
        full_values,
        long_malformed,
        long_actions,
    ];
    Rows::of(parts.into_iter().chain(condition_ends::ALL))
}

// ---- Random cases -----------------------------------------------------------------------------

const SEED: u64 = 0x5741_5443_4801;
const WELL_FORMED: usize = 280;
const DAMAGED: usize = 180;
/// Conditions and values of over 64 bytes, and as many again that are damaged.
const LONG: usize = 40;

/// Of a length that `rooms` bound.
pub(crate) fn random_frame(random: &mut Random, rooms: &[usize]) -> Frame {
    let kind = Kind::ALL[random.below(5)];
    let counts = Counts {
        program: random.between(0, 3),
        monitor: random.between(0, 4),
        kept: random.between(0, 3),
    };
    let taste = Taste {
        counts,
        monitor: true,
        at_entry: true,
    };
    let room = random.pick(rooms);
    let expression = match kind {
        Kind::Condition | Kind::JudgeCondition => {
            random_expr::condition(random, room, &taste).bytes()
        }
        Kind::Value => random_expr::value(random, room, &taste).bytes(),
        Kind::Action | Kind::JudgeAction => random_expr::action(random, room, &taste).bytes(),
    };
    Frame {
        kind,
        expression,
        program: random.words(counts.program),
        monitor: random.words(counts.monitor),
        kept: random.words(counts.kept),
    }
}

fn damaged(random: &mut Random, mut frame: Frame) -> Frame {
    for _ in 0..random.between(1, 3) {
        random_expr::damage(random, &mut frame.expression);
    }
    frame
}

/// A condition or value of over 64 bytes.
fn long_frame(random: &mut Random) -> Frame {
    loop {
        let frame = random_frame(random, &[250, 500, 1_024]);
        let acts = matches!(frame.kind, Kind::Action | Kind::JudgeAction);
        if !acts && frame.expression.len() > 64 {
            return frame;
        }
    }
}

/// Without an answer that is known apart from the evaluator.
pub(crate) fn unknown(frame: Frame) -> Row {
    Row {
        frame,
        expected: None,
        count: None,
    }
}

fn random_rows() -> Vec<Row> {
    const ROOMS: [usize; 5] = [8, 16, 24, 32, 64];
    let random = &mut Random::new(SEED);
    let mut frames: Vec<Frame> = (0..WELL_FORMED)
        .map(|_| random_frame(random, &ROOMS))
        .collect();
    for _ in 0..DAMAGED {
        let frame = random_frame(random, &ROOMS);
        frames.push(damaged(random, frame));
    }
    for _ in 0..LONG {
        frames.push(long_frame(random));
        let frame = long_frame(random);
        frames.push(damaged(random, frame));
    }
    frames.into_iter().map(unknown).collect()
}

/// All the cases, in two parts of which each begins on a page of its own: the chosen ones and then the random
/// ones; those of counts.
pub fn parts() -> [Vec<Row>; 2] {
    let mut first = chosen_first();
    first.extend(random_rows());
    [first, condition_counts::all()]
}

pub fn all() -> Vec<Row> {
    parts().into_iter().flatten().collect()
}
