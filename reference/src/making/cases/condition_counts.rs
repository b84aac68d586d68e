//! The cases of `condition_cases` for counts (document 02, slip 3): how many operators and operands an evaluation
//! reaches. Chosen ones, whose counts are worked out here apart from the evaluator, and random ones.

use crate::framing::condition_frames::Kind;
use crate::making::cases::condition_cases::{
    deep_first, deep_second, in_turn_from, joined, left_to, nots, number, op, random_frame,
    right_to, unknown, Row, Rows, Values, E0, FALSE, M0, M1, NOTHING, ONE, P0, P1, REFUSED_4,
    REFUSED_5, TRUE,
};
use crate::making::cases::condition_ends::{difference, sum, PLUS};
use crate::making::random::Random;

const NOT: u8 = 1;
const AND: u8 = 2;
const OR: u8 = 3;
const LESS: u8 = 4;
const EQUAL: u8 = 5;
const WITHIN: u8 = 6;
const MINUS: u8 = 21;
const CHOOSE: u8 = 22;

// ---- Parts ------------------------------------------------------------------------------------

/// An expression's bytes, what it gives with `ONE` (11 present, 22 monitored, 33 at entry), and its count.
struct Part<T> {
    bytes: Vec<u8>,
    gives: T,
    count: u64,
}

fn part<T>(bytes: Vec<u8>, gives: T, count: u64) -> Part<T> {
    Part {
        bytes,
        gives,
        count,
    }
}

/// Each operator, with what is reached of it; counts by hand.
fn conditions() -> [Part<bool>; 10] {
    let chosen = op(CHOOSE, &[TRUE, P0, M0]);
    [
        part(TRUE.to_vec(), true, 1),
        part(op(NOT, &[TRUE]), false, 2),
        part(op(LESS, &[P0, M0]), true, 3),
        part(op(EQUAL, &[P0, M0]), false, 3),
        part(op(AND, &[TRUE, TRUE]), true, 3),
        // The right side is not reached: `and`, `not` and `true`.
        part(op(AND, &[FALSE, TRUE]), false, 3),
        part(op(OR, &[TRUE, TRUE]), true, 2),
        part(op(OR, &[FALSE, FALSE]), false, 5),
        part(op(WITHIN, &[E0, M0, P0]), true, 4),
        part(op(LESS, &[&chosen, &number(11)]), false, 5),
    ]
}

fn values() -> [Part<i32>; 9] {
    let (twice, sum) = (op(PLUS, &[P0, P0]), op(PLUS, &[P0, M0]));
    let below = op(LESS, &[P0, M0]);
    [
        part(number(7), 7, 1),
        part(P0.to_vec(), 11, 1),
        part(M0.to_vec(), 22, 1),
        part(E0.to_vec(), 33, 1),
        part(sum.clone(), 33, 3),
        part(op(MINUS, &[M0, P0]), 11, 3),
        // `choose`, `true` and the first value.
        part(op(CHOOSE, &[TRUE, P0, &sum]), 11, 3),
        // `choose`, `not`, `true` and the second.
        part(op(CHOOSE, &[FALSE, &twice, E0]), 33, 4),
        part(op(CHOOSE, &[&below, &twice, M0]), 22, 7),
    ]
}

fn condition(rows: &mut Rows, bytes: &[u8], values: Values, holds: bool, count: u64) {
    rows.condition(bytes, values, holds);
    rows.counts(count);
}

fn value(rows: &mut Rows, bytes: &[u8], values: Values, gives: i32, count: u64) {
    rows.value(bytes, values, gives);
    rows.counts(count);
}

fn alone(rows: &mut Rows) {
    for c in conditions() {
        condition(rows, &c.bytes, ONE, c.gives, c.count);
    }
    for v in values() {
        value(rows, &v.bytes, ONE, v.gives, v.count);
    }
}

// ---- One operator on each of them -------------------------------------------------------------

fn of_conditions(rows: &mut Rows) {
    for c in conditions() {
        let bytes = op(NOT, &[&c.bytes]);
        condition(rows, &bytes, ONE, !c.gives, 1 + c.count);
        for d in conditions() {
            let reached = if c.gives { d.count } else { 0 };
            let (bytes, holds) = (op(AND, &[&c.bytes, &d.bytes]), c.gives && d.gives);
            condition(rows, &bytes, ONE, holds, 1 + c.count + reached);
            let reached = if c.gives { 0 } else { d.count };
            let (bytes, holds) = (op(OR, &[&c.bytes, &d.bytes]), c.gives || d.gives);
            condition(rows, &bytes, ONE, holds, 1 + c.count + reached);
        }
    }
}

fn of_values(rows: &mut Rows) {
    for a in values() {
        for b in values() {
            let count = 1 + a.count + b.count;
            let both = |operator| op(operator, &[&a.bytes, &b.bytes]);
            condition(rows, &both(LESS), ONE, a.gives < b.gives, count);
            condition(rows, &both(EQUAL), ONE, a.gives == b.gives, count);
            value(rows, &both(PLUS), ONE, sum(a.gives, b.gives), count);
            value(rows, &both(MINUS), ONE, difference(a.gives, b.gives), count);
        }
    }
}

/// Every value at every place of `within`, beside others.
fn of_three(rows: &mut Rows) {
    let all = values();
    for (first, a) in all.iter().enumerate() {
        for step in 0..3 {
            let [b, k] = [step + 1, 2 * step + 3].map(|more| &all[(first + more) % all.len()]);
            let elapsed = (a.gives as u32).wrapping_sub(b.gives as u32);
            let bytes = op(WITHIN, &[&a.bytes, &b.bytes, &k.bytes]);
            let count = 1 + a.count + b.count + k.count;
            condition(rows, &bytes, ONE, elapsed <= k.gives as u32, count);
        }
    }
}

fn choices(rows: &mut Rows) {
    let all = values();
    for c in conditions() {
        for (first, a) in all.iter().enumerate() {
            let b = &all[(first + 4) % all.len()];
            let chosen = if c.gives { a } else { b };
            let bytes = op(CHOOSE, &[&c.bytes, &a.bytes, &b.bytes]);
            value(rows, &bytes, ONE, chosen.gives, 1 + c.count + chosen.count);
        }
    }
}

// ---- Each branch inside each ------------------------------------------------------------------

/// Both ways of `and`, of `or` and of `choose`, the last compared with what is chosen.
fn branches() -> [Part<bool>; 6] {
    [
        part(op(AND, &[TRUE, TRUE]), true, 3),
        part(op(AND, &[FALSE, TRUE]), false, 3),
        part(op(OR, &[FALSE, TRUE]), true, 4),
        part(op(OR, &[TRUE, TRUE]), true, 2),
        part(op(EQUAL, &[&op(CHOOSE, &[TRUE, P0, M0]), P0]), true, 5),
        part(op(EQUAL, &[&op(CHOOSE, &[FALSE, P0, M0]), P0]), false, 6),
    ]
}

/// The condition, behind `not` where it is to come to the other.
fn made(c: &Part<bool>, gives: bool) -> Part<bool> {
    match c.gives == gives {
        true => part(c.bytes.clone(), gives, c.count),
        false => part(op(NOT, &[&c.bytes]), gives, 1 + c.count),
    }
}

/// The condition inside each of the branches, on its left and, where that is reached, on its right.
fn inside_each(c: &Part<bool>) -> [Part<bool>; 8] {
    let (holding, failing) = (made(c, true), made(c, false));
    let (yes, no) = (&holding.bytes[..], &failing.bytes[..]);
    let [first, second] = [yes, no].map(|c| op(CHOOSE, &[c, P0, M0]));
    [
        part(op(AND, &[yes, FALSE]), false, 1 + holding.count + 2),
        part(op(AND, &[TRUE, &c.bytes]), c.gives, 2 + c.count),
        part(op(AND, &[no, FALSE]), false, 1 + failing.count),
        part(op(OR, &[no, FALSE]), false, 1 + failing.count + 2),
        part(op(OR, &[FALSE, &c.bytes]), c.gives, 3 + c.count),
        part(op(OR, &[yes, FALSE]), true, 1 + holding.count),
        part(op(EQUAL, &[&first, P0]), true, 2 + holding.count + 2),
        part(op(EQUAL, &[&second, P0]), false, 2 + failing.count + 2),
    ]
}

/// Two and three of them, and as the condition of a choice.
fn nested(rows: &mut Rows) {
    for inner in branches() {
        for two in inside_each(&inner) {
            condition(rows, &two.bytes, ONE, two.gives, two.count);
            let gives = if two.gives { 33 } else { 22 };
            let bytes = op(CHOOSE, &[&two.bytes, E0, M0]);
            value(rows, &bytes, ONE, gives, 1 + two.count + 1);
            for three in inside_each(&two) {
                condition(rows, &three.bytes, ONE, three.gives, three.count);
            }
        }
    }
}

// ---- Branches by what is lent -----------------------------------------------------------------

/// That value i is 1: three are reached.
fn is_one(i: u8) -> Vec<u8> {
    op(EQUAL, &[&[17, i], &number(1)])
}

const ASKED: u64 = 3;

/// What is reached besides where it is.
fn only_if(is: bool, count: u64) -> u64 {
    if is {
        count
    } else {
        0
    }
}

/// Every set of four answers, in expressions that reach other parts by each.
fn by_values(rows: &mut Rows) {
    let [a, b, c, d] = [0, 1, 2, 3].map(is_one);
    let both_sides = op(AND, &[&op(OR, &[&a, &b]), &op(AND, &[&c, &d])]);
    let either_side = op(OR, &[&op(AND, &[&a, &b]), &op(OR, &[&c, &d])]);
    let denied = op(OR, &[&b, &op(NOT, &[&c])]);
    let denied = op(NOT, &[&op(AND, &[&op(NOT, &[&a]), &denied])]);
    for set in 0..16 {
        let [p, q, r, s] = [0, 1, 2, 3].map(|i| set >> i & 1 == 1);
        let lent = [p, q, r, s].map(i32::from);
        let lent = Values(&lent, &[], &[]);
        let left = 1 + ASKED + only_if(!p, ASKED);
        let right = only_if(p || q, 1 + ASKED + only_if(r, ASKED));
        let holds = (p || q) && r && s;
        condition(rows, &both_sides, lent, holds, 1 + left + right);
        let left = 1 + ASKED + only_if(p, ASKED);
        let right = only_if(!(p && q), 1 + ASKED + only_if(!r, ASKED));
        let holds = (p && q) || r || s;
        condition(rows, &either_side, lent, holds, 1 + left + right);
        let inner = only_if(!p, 1 + ASKED + only_if(!q, 1 + ASKED));
        let holds = p || (!q && r);
        condition(rows, &denied, lent, holds, 2 + 1 + ASKED + inner);
        values_by_values(rows, [p, q, r, s], lent);
    }
}

/// The same of choices within choices, of which some are compared.
fn values_by_values(rows: &mut Rows, [p, q, r, s]: [bool; 4], lent: Values) {
    let [a, b, c, d] = [0, 1, 2, 3].map(is_one);
    let (ten, less) = (number(10), op(MINUS, &[P0, P1]));
    let first = op(CHOOSE, &[&c, &ten, &less]);
    let second = op(CHOOSE, &[&d, &less, P1]);
    let bytes = op(CHOOSE, &[&op(AND, &[&a, &b]), &first, &second]);
    let asked = 1 + ASKED + only_if(p, ASKED);
    let difference = i32::from(p) - i32::from(q);
    let (gives, chosen) = match (p && q, r, s) {
        (true, true, _) => (10, 1),
        (true, false, _) => (difference, 3),
        (false, _, true) => (difference, 3),
        (false, _, false) => (i32::from(q), 1),
    };
    value(rows, &bytes, lent, gives, 1 + asked + 1 + ASKED + chosen);
    let compared = op(LESS, &[&op(CHOOSE, &[&a, &less, &ten]), &second]);
    let left = 1 + ASKED + if p { 3 } else { 1 };
    let right = 1 + ASKED + if s { 3 } else { 1 };
    let one = if p { difference } else { 10 };
    let other = if s { difference } else { i32::from(q) };
    condition(rows, &compared, lent, one < other, 1 + left + right);
}

// ---- Deep ones --------------------------------------------------------------------------------

/// So many of an operator, with leaves of which none ends it: all is reached, and the last decides.
fn all_reached(rows: &mut Rows, operator: u8, depth: usize, leaf: &[u8]) {
    let count = (depth + depth * leaf.len()) as u64;
    for to in [left_to, right_to] {
        let holds = to(operator, depth, leaf, TRUE);
        condition(rows, &holds, NOTHING, true, count + 1);
        let fails = to(operator, depth, leaf, FALSE);
        condition(rows, &fails, NOTHING, false, count + 2);
    }
}

/// `and`, in which all is reached, or `or` that its first operand ends.
fn deep_ands(rows: &mut Rows) {
    for depth in [1, 2, 3, 10, 31, 100, 511] {
        let n = depth as u64;
        all_reached(rows, AND, depth, TRUE);
        condition(rows, &nots(2 * depth, TRUE), NOTHING, true, 2 * n + 1);
        // All operators are reached where they stand in front of it.
        condition(rows, &left_to(OR, depth, TRUE, TRUE), NOTHING, true, n + 1);
        condition(rows, &right_to(OR, depth, TRUE, TRUE), NOTHING, true, 2);
    }
    condition(rows, &nots(1_023, TRUE), NOTHING, false, 1_024);
}

/// `or`, in which all is reached, or `and` that its first operand ends.
fn deep_ors(rows: &mut Rows) {
    for depth in [1, 2, 3, 10, 31, 100, 340] {
        let n = depth as u64;
        all_reached(rows, OR, depth, FALSE);
        let ended = left_to(AND, depth, FALSE, TRUE);
        condition(rows, &ended, NOTHING, false, n + 2);
        let ended = right_to(AND, depth, FALSE, TRUE);
        condition(rows, &ended, NOTHING, false, 3);
    }
}

/// Conditions and values in turn: each level adds `less`, `choose`, the chosen value and the other side.
fn deep_in_turn(rows: &mut Rows) {
    for levels in [1, 2, 10, 127] {
        let count = 4 * levels as u64;
        condition(rows, &in_turn_from(levels, TRUE), ONE, true, count + 1);
        condition(rows, &in_turn_from(levels, FALSE), ONE, false, count + 2);
    }
}

fn deep_values(rows: &mut Rows) {
    for depth in [1, 2, 3, 10, 31, 100, 340] {
        let n = depth as u64;
        let total = 11 * (depth as i32 + 1);
        for to in [left_to, right_to] {
            value(rows, &to(PLUS, depth, P0, P0), ONE, total, 2 * n + 1);
        }
    }
    for levels in [1, 2, 10, 50, 200] {
        let n = levels as u64;
        // `choose` and its condition at each level, and the value in the end.
        value(rows, &deep_first(levels, E0), ONE, 33, 2 * n + 1);
        value(rows, &deep_second(levels, E0), ONE, 33, 3 * n + 1);
        // What stands deep in the other branch is not reached.
        let other = op(CHOOSE, &[FALSE, &deep_first(levels, E0), M0]);
        value(rows, &other, ONE, 22, 4);
        let other = op(CHOOSE, &[TRUE, M0, &deep_second(levels, E0)]);
        value(rows, &other, ONE, 22, 3);
    }
    // The greatest of 1,024 bytes: all but the other branch and the number of the chosen variable.
    value(
        rows,
        &op(CHOOSE, &[&nots(1_018, TRUE), P0, M0]),
        ONE,
        11,
        1_021,
    );
}

// ---- Actions ----------------------------------------------------------------------------------

fn action(rows: &mut Rows, bytes: &[u8], values: Values, after: &[i32], count: u64) {
    let after: String = after.iter().map(|n| format!(" {n}")).collect();
    rows.add(Kind::Action, bytes, values, &format!("done{after}"));
    rows.counts(count);
}

/// Up to as many values as 64 bytes hold. The assigned variables themselves do not count.
fn numbers_of_values(rows: &mut Rows) {
    for times in 0..=21 {
        let after = if times == 0 { 22 } else { 11 };
        action(
            rows,
            &op(0, &[P0]).repeat(times),
            ONE,
            &[after],
            times as u64,
        );
    }
    let all = values();
    for (first, a) in all.iter().enumerate() {
        action(rows, &op(0, &[&a.bytes]), ONE, &[a.gives], a.count);
        // The same assigned to another variable, which nothing reads.
        let b = &all[(first + 2) % all.len()];
        let both = joined(&[&[1], &a.bytes, &[1], &b.bytes]);
        let lent = Values(ONE.0, &[22, 0], ONE.2);
        action(rows, &both, lent, &[22, b.gives], a.count + b.count);
    }
    let greatest = op(0, &[&op(CHOOSE, &[&nots(57, TRUE), P0, M0])]);
    action(rows, &greatest, ONE, &[22], 1 + 58 + 1);
}

/// Where the first variable is below 3, `choose`, its three and one more are reached, and otherwise three more.
fn by_first_variable() -> Vec<u8> {
    let below = op(LESS, &[M0, &number(3)]);
    op(CHOOSE, &[&below, P0, &op(PLUS, &[P0, P1])])
}

fn reached_by(x: i32) -> (i32, u64) {
    match x < 3 {
        true => (11, 1 + 3 + 1),
        false => (11 + 40, 1 + 3 + 3),
    }
}

/// Later values see earlier assignments, so that they reach other parts than with the variables before.
fn later_values(rows: &mut Rows) {
    let chosen = by_first_variable();
    for before in [0, 2, 3, 9] {
        let lent = Values(&[11, 40], &[before, 7], &[]);
        let (gives, count) = reached_by(before);
        action(rows, &op(1, &[&chosen]), lent, &[before, gives], count);
        for assigned in [0, 2, 3, 9] {
            let makes = op(0, &[&number(assigned)]);
            let (gives, seen) = reached_by(assigned);
            let then = joined(&[&makes, &[1], &chosen]);
            action(rows, &then, lent, &[assigned, gives], 1 + seen);
            let (value, count) = reached_by(before);
            let first = joined(&[&[1], &chosen, &makes]);
            action(rows, &first, lent, &[assigned, value], 1 + count);
            let around = joined(&[&[1], &chosen, &makes, &[1], &chosen]);
            action(rows, &around, lent, &[assigned, gives], count + 1 + seen);
        }
    }
    // It sees itself: 0 leads to 11, and that to 51.
    let again = op(0, &[&chosen]);
    let lent = Values(&[11, 40], &[0], &[]);
    action(rows, &again.repeat(2), lent, &[51], 5 + 7);
    action(rows, &again.repeat(3), lent, &[51], 5 + 7 + 7);
}

// ---- Refused ----------------------------------------------------------------------------------

/// Counts 0, also where what is wrong would not have been reached.
fn not_one(rows: &mut Rows, kind: Kind, bytes: &[u8]) {
    rows.add(kind, bytes, ONE, REFUSED_5);
    rows.counts(0);
}

fn wrong_parts(rows: &mut Rows) {
    for bad in [&[7][..], &[17, 1], &[]] {
        for front in [
            op(AND, &[FALSE]),
            op(OR, &[TRUE]),
            op(AND, &[TRUE]),
            op(OR, &[FALSE]),
            op(NOT, &[]),
            op(LESS, &[P0]),
        ] {
            not_one(rows, Kind::Condition, &joined(&[&front, bad]));
        }
        for front in [
            op(CHOOSE, &[TRUE, P0]),
            op(CHOOSE, &[FALSE, P0]),
            op(PLUS, &[P0]),
            op(MINUS, &[&op(PLUS, &[P0, P0])]),
        ] {
            not_one(rows, Kind::Value, &joined(&[&front, bad]));
            let action = joined(&[&[0], M0, &[0], &front, bad]);
            not_one(rows, Kind::Action, &action);
        }
    }
    // Whole ones, and a byte behind them; a variable that is not lent.
    not_one(rows, Kind::Condition, &joined(&[TRUE, TRUE]));
    not_one(rows, Kind::Value, &joined(&[P0, &[0]]));
    not_one(rows, Kind::Action, &joined(&[&[0], P0, &[1], M1]));
}

fn wrong_lengths(rows: &mut Rows) {
    let long_value = op(CHOOSE, &[&nots(1_019, TRUE), P0, M0]);
    for (kind, bytes) in [
        (Kind::Condition, Vec::new()),
        (Kind::Value, Vec::new()),
        (Kind::Condition, nots(1_024, TRUE)),
        (Kind::Value, long_value),
        (Kind::Action, op(0, &[P0]).repeat(22)),
    ] {
        rows.add(kind, &bytes, ONE, REFUSED_4);
        rows.counts(0);
    }
}

// ---- All --------------------------------------------------------------------------------------

/// The cases chosen by hand, each with its answer and its count.
pub fn chosen() -> Vec<Row> {
    let parts: [fn(&mut Rows); 15] = [
        alone,
        of_conditions,
        of_values,
        of_three,
        choices,
        nested,
        by_values,
        deep_ands,
        deep_ors,
        deep_in_turn,
        deep_values,
        numbers_of_values,
        later_values,
        wrong_parts,
        wrong_lengths,
    ];
    Rows::of(parts)
}

const SEED: u64 = 0x5741_5443_480E;
/// Conditions, values and actions.
const RANDOM: usize = 250;
const ROOMS: [usize; 5] = [24, 40, 64, 64, 200];

/// Of some length, which has a count to print.
fn random_rows() -> Vec<Row> {
    let random = &mut Random::new(SEED);
    let mut rows = Vec::new();
    while rows.len() < RANDOM {
        let frame = random_frame(random, &ROOMS);
        let is_evaluated = !matches!(frame.kind, Kind::JudgeCondition | Kind::JudgeAction);
        let is_short = frame.kind != Kind::Action || frame.expression.len() <= 64;
        if is_evaluated && is_short && frame.expression.len() >= 12 {
            rows.push(unknown(frame));
        }
    }
    rows
}

pub fn all() -> Vec<Row> {
    let mut rows = chosen();
    rows.extend(random_rows());
    rows
}
