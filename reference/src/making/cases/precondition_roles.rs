//! The cases of `sheet_cases` at the edge of refusal 7 that document 02's slip 13 moved: a monitor variable
//! may stand in a precondition or a pair, and still not in a postcondition or a template; a value at entry
//! may not stand in a precondition or a pair. Each with its answer.

use crate::making::cases::sheet_cases::{
    base, counted, Answer, Draft, Net, Rows, OK, ON_BOTH, ON_ENTRY, ON_MONITOR, TRUE,
};
use crate::making::draft::SheetDraft;

const MONITOR: u8 = 18;
const AT_ENTRY: u8 = 19;

/// Condition 0 is true, condition 1 is given. P 1; action 0 does nothing.
fn with_condition<D: Draft>(monitor: u8, condition: &[u8]) -> D {
    let mut draft: D = counted(1, 1, monitor);
    draft.front().conditions = vec![TRUE.to_vec(), condition.to_vec()];
    draft.front().actions.push(vec![]);
    draft
}

/// With such a precondition.
fn asking<D: Draft>(monitor: u8, condition: &[u8]) -> D {
    with_condition::<D>(monitor, condition).changed(|d| d.check(1, 0))
}

/// With such a postcondition.
fn judging<D: Draft>(monitor: u8, condition: &[u8]) -> D {
    with_condition::<D>(monitor, condition).changed(|d| d.check(0, 1))
}

// ---- What a condition holds -------------------------------------------------------------------

/// Every variable that there is, and those behind the last, which are out of range.
fn each_variable<D: Draft>(rows: &mut Rows) {
    for monitor in 0..=4 {
        for variable in (0..=monitor).chain([255]) {
            let answer = (variable >= monitor).then_some(5);
            let condition = [4, MONITOR, variable, 17, 0];
            rows.judge(&asking::<D>(monitor, &condition), answer);
            let last = [5, 17, 0, MONITOR, variable];
            rows.judge(&judging::<D>(monitor, &last), answer.or(Some(7)));
        }
    }
}

/// A variable as each operand of each operator; 99 stands for its operator.
const OPERANDS: [&[u8]; 19] = [
    &[4, 99, 0, 17, 0],
    &[4, 17, 0, 99, 0],
    &[5, 99, 0, 17, 0],
    &[5, 17, 0, 99, 0],
    &[6, 99, 0, 17, 0, 17, 0],
    &[6, 17, 0, 99, 0, 17, 0],
    &[6, 17, 0, 17, 0, 99, 0],
    &[5, 20, 99, 0, 17, 0, 17, 0],
    &[5, 20, 17, 0, 99, 0, 17, 0],
    &[5, 21, 99, 0, 17, 0, 17, 0],
    &[5, 21, 17, 0, 99, 0, 17, 0],
    &[5, 22, 4, 99, 0, 17, 0, 17, 0, 17, 0, 17, 0],
    &[5, 22, 0, 99, 0, 17, 0, 17, 0],
    &[5, 22, 0, 17, 0, 99, 0, 17, 0],
    &[1, 4, 99, 0, 17, 0],
    &[2, 0, 4, 99, 0, 17, 0],
    &[2, 4, 99, 0, 17, 0, 0],
    &[3, 0, 4, 99, 0, 17, 0],
    &[3, 4, 99, 0, 17, 0, 0],
];

fn each_operand<D: Draft>(rows: &mut Rows) {
    for operand in OPERANDS {
        let with = |operator: u8| -> Vec<u8> {
            let bytes = operand.iter();
            bytes
                .map(|b| if *b == 99 { operator } else { *b })
                .collect()
        };
        rows.judge(&asking::<D>(1, &with(MONITOR)), OK);
        rows.judge(&judging::<D>(1, &with(MONITOR)), Some(7));
        rows.judge(&asking::<D>(1, &with(AT_ENTRY)), Some(7));
        rows.judge(&judging::<D>(1, &with(AT_ENTRY)), OK);
    }
}

/// At the end of the longest condition; and both kinds in one, in either order.
fn far_and_both<D: Draft>(rows: &mut Rows) {
    for (end, pre, post) in [
        (ON_MONITOR, OK, Some(7)),
        (ON_ENTRY, Some(7), OK),
        (ON_BOTH, Some(7), Some(7)),
        (&[5, AT_ENTRY, 0, MONITOR, 0], Some(7), Some(7)),
    ] {
        let longest = [&vec![1; D::LONGEST - end.len()], end].concat();
        for condition in [end, &longest] {
            rows.judge(&asking::<D>(1, condition), pre);
            rows.judge(&judging::<D>(1, condition), post);
        }
    }
}

// ---- Which of several -------------------------------------------------------------------------

/// Conditions 0 to 2: true, on the monitor variable, on a value at entry. These pre- and postconditions.
fn several<D: Draft>(checks: [(u8, u8); 4]) -> D {
    let mut draft: D = with_condition(1, ON_MONITOR);
    draft.front().conditions.push(ON_ENTRY.to_vec());
    for (precondition, postcondition) in checks {
        draft.check(precondition, postcondition);
    }
    draft
}

/// Four checks, of which one is another.
fn one_of_four<D: Draft>(rows: &mut Rows) {
    rows.judge(&several::<D>([(1, 2); 4]), OK);
    for place in 0..4 {
        for (other, answer) in [
            ((0, 2), OK),
            ((1, 0), OK),
            ((2, 2), Some(7)),
            ((1, 1), Some(7)),
            ((2, 1), Some(7)),
        ] {
            let mut checks = [(1, 2); 4];
            checks[place] = other;
            rows.judge(&several::<D>(checks), answer);
        }
    }
}

/// One condition as guard, precondition and postcondition at once.
fn in_all_roles<D: Draft>(rows: &mut Rows) {
    for (condition, answer) in [(TRUE, OK), (ON_MONITOR, Some(7)), (ON_ENTRY, Some(7))] {
        let mut draft: D = with_condition(1, condition);
        draft.check(1, 1);
        draft.transition([0, 0, 0, 1, 0, 0]);
        rows.judge(&draft, answer);
    }
    // On the monitor variable it may be all but the last.
    let mut draft: D = asking(1, ON_MONITOR);
    draft.transition([0, 0, 0, 1, 0, 0]);
    draft.transition([0, 1, 0, 1, 0, 0]);
    rows.judge(&draft, OK);
}

// ---- 7 among the others -----------------------------------------------------------------------

/// Of the base conditions 1 and 2 are on the monitor variable and on a value at entry.
fn among_others<D: Draft>(rows: &mut Rows) {
    let with = |checks: &[(u8, u8)], change: fn(&mut D)| {
        base::<D>().changed(|d| {
            checks.iter().for_each(|(pre, post)| d.check(*pre, *post));
            change(d);
        })
    };
    // 6 before 7, in whatever order they stand.
    rows.judge(&with(&[(1, 3)], |_| {}), Some(6));
    rows.judge(&with(&[(3, 1)], |_| {}), Some(6));
    rows.judge(&with(&[(2, 0), (1, 3)], |_| {}), Some(6));
    rows.judge(&with(&[(1, 0), (3, 0)], |_| {}), Some(6));
    rows.judge(&with(&[(2, 0)], |d| d.transitions()[1][4] = 2), Some(6));
    rows.judge(&with(&[(1, 0)], |d| d.transitions()[1][4] = 2), Some(6));
    // 5 before 7.
    let out_of_range = |d: &mut D| d.front().conditions[1] = vec![4, MONITOR, 1, 17, 0];
    rows.judge(&with(&[(1, 0)], out_of_range), Some(5));
    rows.judge(&with(&[(2, 1)], out_of_range), Some(5));
    // 7 by something else, beside a precondition that is right.
    let action = |d: &mut D| d.front().actions.push(vec![0, AT_ENTRY, 0]);
    rows.judge(&with(&[(1, 0)], action), Some(7));
    rows.judge(&with(&[(1, 0)], |d| d.transitions()[1][3] = 2), Some(7));
    rows.judge(&with(&[(1, 0)], |d| d.transitions()[1][3] = 1), OK);
}

// ---- Sheets alone -----------------------------------------------------------------------------

/// Five triples of one state and unit: 8, where 7 does not come before it.
fn crowded(rows: &mut Rows) {
    let with = |count: usize, place: usize, other: (u8, u8)| {
        let mut draft: SheetDraft = several([(1, 2); 4]);
        draft.triples = vec![[0, 0, 1, 2]; count];
        draft.triples[place][2..].copy_from_slice(&[other.0, other.1]);
        draft
    };
    for place in 0..4 {
        for (other, of_four, of_five) in [
            ((1, 2), OK, Some(8)),
            ((0, 0), OK, Some(8)),
            ((2, 2), Some(7), Some(7)),
            ((1, 1), Some(7), Some(7)),
        ] {
            rows.judge(&with(4, place, other), of_four);
            rows.judge(&with(5, place + 1, other), of_five);
        }
    }
}

// ---- Networks alone ---------------------------------------------------------------------------

/// Pairs on several transitions, on an exit and with a template of another unit.
fn of_pairs<const VERSION: u8>(rows: &mut Rows) {
    // Transitions 0 and 2 are entries of unit 0, transition 1 an exit of unit 1.
    let with = |pairs: [u8; 2]| {
        base::<Net<VERSION>>().changed(|Net(d)| {
            d.creating([1, 0, 0, 0, 0, 0], &[]);
            for (transition, condition) in [0, 2].into_iter().zip(pairs) {
                d.transitions[transition].1 = vec![[0, 0], [condition, 0]];
            }
        })
    };
    for pairs in [[0, 0], [1, 0], [0, 1], [1, 1], [2, 0], [0, 2], [1, 2]] {
        let answer: Answer = pairs.contains(&2).then_some(7);
        rows.judge(&with(pairs), answer);
    }
    for condition in [1, 2] {
        let on_exit = with([0, 0]).changed(|Net(d)| d.transitions[1].1.push([condition, 0]));
        rows.judge(&on_exit, Some(6));
        let other_unit = with([condition, 0]).changed(|Net(d)| d.templates[0][0] = 1);
        rows.judge(&other_unit, Some(6));
        let five = vec![[condition, 0]; 5];
        let too_many = with([0, 0]).changed(|Net(d)| d.transitions[2].1 = five);
        rows.judge(&too_many, Some(4));
    }
    // A template counts though no pair names it.
    let unused = |post: u8| with([1, 1]).changed(|Net(d)| d.templates.push([0, post]));
    rows.judge(&unused(1), Some(7));
    rows.judge(&unused(2), OK);
}

// ---- All --------------------------------------------------------------------------------------

fn alike<D: Draft>(rows: &mut Rows) {
    for add in [
        each_variable::<D>,
        each_operand::<D>,
        far_and_both::<D>,
        one_of_four::<D>,
        in_all_roles::<D>,
        among_others::<D>,
    ] {
        add(rows);
    }
}

pub fn add(rows: &mut Rows) {
    alike::<SheetDraft>(rows);
    crowded(rows);
    alike::<Net<2>>(rows);
    of_pairs::<2>(rows);
    alike::<Net<3>>(rows);
    of_pairs::<3>(rows);
}
