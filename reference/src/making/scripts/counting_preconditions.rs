//! The page that `monitor_cases` and `network_cases` have for preconditions that read monitor variables
//! (document 02, slip 13): they read them as they stood before the event, whatever the entry's own action
//! makes of them. Chosen cases with answers worked out here, and random ones.

use crate::framing::script_frames::{Field, Frame};
use crate::implementation::machine::Kind;
use crate::implementation::run::{write_log, Record};
use crate::implementation::sheet::Sheet;
use crate::implementation::state::Cause;
use crate::making::cases::condition_cases::{joined, number, op, E0, E1, P0, P1, TRUE};
use crate::making::cases::condition_ends::{minus, plus, sum, X0, X1, X2, X3};
use crate::making::draft::SheetDraft;
use crate::making::generate::{self, Manner, Shape, Size};
use crate::making::random::Random;
use crate::making::scripts::script::{self, entry, exit, Page, Script, Sort};
use crate::making::scripts::shared_cases::{broken, held, ran, taken, Subject};
use crate::making::scripts::walk::{Leaves, Walk};
use std::cmp::Ordering;

/// The call that is entered and left.
const CALL: u16 = 7;

/// The variables, of which the first is the counter.
fn counter(x0: i32) -> [i32; 4] {
    [x0, 0, 0, 0]
}

/// From the saved state with these variables, and a main state.
fn set<R: Subject>(script: &mut Script<R>, main: u8, variables: &[i32]) {
    script.restore();
    script.set(&[(Field::Main, main.into())]);
    for (i, value) in (0..).zip(variables) {
        script.set(&[(Field::Variable(i), *value as u32)]);
    }
}

/// Lays out a sheet and saves its fresh state.
fn start<R: Subject>(script: &mut Script<R>, sheet: &SheetDraft) {
    script.sort = Sort::Preconditions;
    script.rules(&R::of_sheet(sheet));
    script.fresh("accepted");
    script.save();
}

// ---- An entry's own action --------------------------------------------------------------------

/// A condition's bytes, and whether it holds for a counter and a value.
type Asked = (Vec<u8>, fn(i32, i32) -> bool);
/// An action's bytes, and what it makes of the counter.
type Done = (Vec<u8>, fn(i32, i32) -> i32);

fn asked() -> [Asked; 7] {
    let (two, three) = (&number(2)[..], &number(3)[..]);
    [
        (TRUE.to_vec(), |_, _| true),
        (op(4, &[X0, three]), |x, _| x < 3),
        (op(4, &[two, X0]), |x, _| 2 < x),
        (op(5, &[X0, three]), |x, _| x == 3),
        (op(4, &[X0, P0]), |x, p| x < p),
        (op(5, &[X0, P0]), |x, p| x == p),
        (op(1, &[&op(5, &[X0, three])]), |x, _| x != 3),
    ]
}

fn done() -> [Done; 6] {
    let one = &number(1)[..];
    [
        (Vec::new(), |x, _| x),
        (op(0, &[&plus(X0, one)]), |x, _| x + 1),
        (op(0, &[&minus(X0, one)]), |x, _| x - 1),
        (op(0, &[P0]), |_, p| p),
        (op(0, &[&number(0)]), |_, _| 0),
        (op(0, &[&plus(X0, P0)]), |x, p| x + p),
    ]
}

/// By unit: the condition and the action of its entry's transition, if it has one, and the precondition
/// of its triple.
const UNITS: [(Option<(u8, u8)>, u8); 12] = [
    (Some((0, 1)), 1),
    (Some((0, 1)), 2),
    (Some((0, 2)), 1),
    (Some((0, 2)), 2),
    (Some((0, 3)), 4),
    (Some((0, 3)), 5),
    (Some((0, 4)), 3),
    (Some((0, 5)), 6),
    (Some((0, 0)), 1),
    (None, 1),
    // One condition is the guard and the precondition; and one that never holds with the guard.
    (Some((2, 4)), 2),
    (Some((2, 4)), 1),
];
/// An entry of this unit makes its value the counter.
const MAKES: u8 = 5;

/// One state, P 1, V 1. The triple of each unit asks that the value be the one at entry.
fn own_actions() -> SheetDraft {
    let mut sheet = SheetDraft::new(1, UNITS.len() as u8, 1, &[0]);
    let conditions = asked().into_iter().map(|(bytes, _)| bytes);
    sheet.front.conditions = conditions.chain([op(5, &[P0, E0])]).collect();
    sheet.front.actions = done().into_iter().map(|(bytes, _)| bytes).collect();
    for (unit, (transition, precondition)) in (0..).zip(UNITS) {
        if let Some((guard, action)) = transition {
            sheet.transition(0, 0, (Kind::Entry, unit), guard, action);
        }
        sheet.triple(0, unit, precondition, asked().len() as u8);
    }
    sheet
}

/// The counter after an entry, and whether its triple is armed: both go by the counter before it.
fn counted(unit: u8, x: i32, p: i32) -> (i32, bool) {
    let (transition, precondition) = UNITS[usize::from(unit)];
    let (asked, done) = (asked(), done());
    let holds = |condition: u8| asked[usize::from(condition)].1(x, p);
    let after = match transition {
        Some((guard, action)) if holds(guard) => done[usize::from(action)].1(x, p),
        _ => x,
    };
    (after, holds(precondition))
}

/// Each unit with each of these counters and values.
fn each_unit(mut see: impl FnMut(u8, i32, i32)) {
    for unit in 0..UNITS.len() as u8 {
        for x in [0, 2, 3, 4] {
            [3, 5].iter().for_each(|p| see(unit, x, *p));
        }
    }
}

fn from_counters<R: Subject>(script: &mut Script<R>) {
    start(script, &own_actions());
    each_unit(|unit, x, p| {
        let (after, is_armed) = counted(unit, x, p);
        let armed: Vec<u8> = is_armed.then_some(unit).into_iter().collect();
        let enters = entry(unit, CALL, &[p]);
        set(script, 0, &[x]);
        let open = [(held(&enters, 1), armed)];
        script.step(&enters, &taken::<R>((0, counter(after)), &open, 1, None));
        for left in [p, p + 1] {
            let cause = (is_armed && left != p).then_some(Cause::Triple(unit));
            let line = taken::<R>((0, counter(after)), &[], 2, broken(cause, 1));
            script.offer(&exit(unit, CALL, &[left]), &line);
        }
    });
}

/// The same as runs, in which another call has made the counter.
fn counters_in_runs<R: Subject>(script: &mut Script<R>) {
    script.sort = Sort::Preconditions;
    script.rules(&R::of_sheet(&own_actions()));
    each_unit(|unit, x, p| {
        let (_, is_armed) = counted(unit, x, p);
        let cause = is_armed.then_some(Cause::Triple(unit));
        let records = [
            entry(MAKES, 1, &[x]),
            entry(unit, CALL, &[p]),
            exit(unit, CALL, &[p + 1]),
        ];
        script.run_records(1, &records, &ran(0, 1, 3, broken(cause, 2)));
    });
}

// ---- Several variables ------------------------------------------------------------------------

/// A precondition's bytes, and whether it holds for the variables and the values.
type Several = (Vec<u8>, fn([i32; 4], [i32; 2]) -> bool);

/// That of triple n. Triples 0 to 4 are of the units of their numbers, the others of unit 5.
fn several() -> [Several; 9] {
    let total = plus(&plus(X0, X1), &plus(X2, X3));
    let chosen = op(22, &[&op(4, &[X3, P1]), X0, X1]);
    [
        (op(4, &[X0, X1]), |[a, b, ..], _| a < b),
        (op(5, &[&plus(X0, X1), X2]), |[a, b, c, _], _| {
            sum(a, b) == c
        }),
        (op(5, &[&total, P0]), |[a, b, c, d], [p, _]| {
            sum(sum(a, b), sum(c, d)) == p
        }),
        (op(4, &[&chosen, X2]), |[a, b, c, d], [_, q]| {
            (if d < q { a } else { b }) < c
        }),
        (op(6, &[X3, X0, P1]), |[a, _, _, d], [_, q]| {
            d.wrapping_sub(a) as u32 <= q as u32
        }),
        (op(5, &[X0, P0]), |[a, ..], [p, _]| a == p),
        (op(5, &[X1, P0]), |[_, b, ..], [p, _]| b == p),
        (op(5, &[X2, P0]), |[_, _, c, _], [p, _]| c == p),
        (op(5, &[X3, P0]), |[_, _, _, d], [p, _]| d == p),
    ]
}

/// The unit with four triples, and the one that has none.
const FOUR: u8 = 5;
const NONE: u8 = 6;

/// One state, units 0-6, P 2, V 4. Every entry moves each variable on to the one before it, and value 0 to
/// the last. The triples ask that value 1 be the one at entry.
fn many_variables() -> SheetDraft {
    let mut sheet = SheetDraft::new(1, NONE + 1, 2, &[0; 4]);
    let conditions = several().into_iter().map(|(bytes, _)| bytes);
    let others = [op(5, &[P1, E1]), TRUE.to_vec()];
    sheet.front.conditions = conditions.chain(others).collect();
    let (same, always) = (several().len() as u8, several().len() as u8 + 1);
    sheet.front.actions = vec![joined(&[&[0], X1, &[1], X2, &[2], X3, &[3], P0])];
    for unit in 0..=NONE {
        sheet.transition(0, 0, (Kind::Entry, unit), always, 0);
    }
    for number in 0..same {
        sheet.triple(0, number.min(FOUR), number, same);
    }
    sheet
}

fn moved_on([_, b, c, d]: [i32; 4], [p, _]: [i32; 2]) -> [i32; 4] {
    [b, c, d, p]
}

/// The triples that an entry arms.
fn armed_by_several(unit: u8, variables: [i32; 4], values: [i32; 2]) -> Vec<u8> {
    let all = (0u8..).zip(several());
    let own = all.filter(|(number, _)| (*number).min(FOUR) == unit);
    let holding = own.filter(|(_, (_, holds))| holds(variables, values));
    holding.map(|(number, _)| number).collect()
}

const VARIABLES: [[i32; 4]; 10] = [
    [1, 2, 3, 4],
    [3, -1, 2, 2],
    [0, 0, 0, 0],
    [5, 4, 9, 1],
    [-1, -2, -3, 5],
    // After the entry variables 0 and 1 make up variable 2.
    [9, 1, 2, 3],
    [4, 0, 7, 7],
    [8, 2, 2, 4],
    // After it the sum is value 0, whatever that is.
    [1, -1, 2, -1],
    // The sums stop at the ends.
    [i32::MAX, 7, 7, i32::MIN],
];

/// What is entered with these variables: each of the first units, and the one with four triples.
fn each_of_several(mut see: impl FnMut(u8, [i32; 4], [i32; 2])) {
    for unit in 0..FOUR {
        for variables in VARIABLES {
            [[10, 2], [6, 5]]
                .iter()
                .for_each(|values| see(unit, variables, *values));
        }
    }
    // Every set of the four.
    for set in 0..16 {
        let variables = [0, 1, 2, 3].map(|i| if set >> i & 1 == 1 { 7 } else { i });
        see(FOUR, variables, [7, set]);
    }
}

fn from_variables<R: Subject>(script: &mut Script<R>) {
    start(script, &many_variables());
    each_of_several(|unit, variables, values| {
        let armed = armed_by_several(unit, variables, values);
        let after = moved_on(variables, values);
        let (enters, [p, q]) = (entry(unit, CALL, &values), values);
        set(script, 0, &variables);
        let open = [(held(&enters, 1), armed.clone())];
        script.step(&enters, &taken::<R>((0, after), &open, 1, None));
        let cause = armed.first().copied().map(Cause::Triple);
        for (values, cause) in [([p + 1, q], None), ([p, q + 1], cause)] {
            let line = taken::<R>((0, after), &[], 2, broken(cause, 1));
            script.offer(&exit(unit, CALL, &values), &line);
        }
    });
}

/// The same as runs, in which four calls have made the variables.
fn variables_in_runs<R: Subject>(script: &mut Script<R>) {
    script.sort = Sort::Preconditions;
    script.rules(&R::of_sheet(&many_variables()));
    each_of_several(|unit, variables, values| {
        let armed = armed_by_several(unit, variables, values);
        let makes = (1..).zip(variables).map(|(n, x)| entry(NONE, n, &[x, 0]));
        let [p, q] = values;
        let last = [entry(unit, CALL, &values), exit(unit, CALL, &[p, q + 1])];
        let records: Vec<Record> = makes.chain(last).collect();
        let cause = armed.first().copied().map(Cause::Triple);
        script.run_records(2, &records, &ran(0, 4, 6, broken(cause, 5)));
    });
}

// ---- One condition in several roles -----------------------------------------------------------

/// The bad state.
const BAD: u8 = 2;

/// States 0-2 (2 is bad), one unit, P 1, V 1. Conditions 0 to 2: the counter is below the value, above it,
/// the value itself. Each is a precondition, and the first two are guards of rivals. An entry in state 0:
/// below, the value becomes the counter, and it leads on; above, it counts down. In state 1: below, it
/// counts down and leads back; above, the value becomes the counter, and it leads to the bad state. An exit
/// counts up and leads to the other state, above in state 0 and below in state 1.
fn shared_conditions() -> SheetDraft {
    let one = &number(1)[..];
    let mut sheet = SheetDraft::new(3, 1, 1, &[0]);
    sheet.front.bad = 1 << BAD;
    sheet.front.conditions = vec![
        op(4, &[X0, P0]),
        op(4, &[P0, X0]),
        op(5, &[X0, P0]),
        op(5, &[P0, E0]),
    ];
    let values = [P0.to_vec(), minus(X0, one), plus(X0, one)];
    sheet.front.actions = values.map(|value| op(0, &[&value])).into();
    sheet.transitions = vec![
        [0, 0, 0, 0, 0, 1],
        [0, 0, 0, 1, 1, 0],
        [1, 0, 0, 0, 1, 0],
        [1, 0, 0, 1, 0, BAD],
        [0, 1, 0, 1, 2, 1],
        [1, 1, 0, 0, 2, 0],
    ];
    let triples = [[0, 0], [0, 1], [0, 2], [1, 1], [1, 2]];
    sheet.triples = triples.map(|[state, pre]| [state, 0, pre, 3]).into();
    sheet
}

/// What an entry with a value leaves.
fn entered(main: u8, x: i32, p: i32) -> Leaves {
    let armed = match (main, x.cmp(&p)) {
        (0, Ordering::Less) => vec![0],
        (0, Ordering::Greater) => vec![1],
        (0, Ordering::Equal) => vec![2],
        (_, Ordering::Less) => vec![],
        (_, Ordering::Greater) => vec![3],
        (_, Ordering::Equal) => vec![4],
    };
    let (main, x) = match (main, x.cmp(&p)) {
        (0, Ordering::Less) => (1, p),
        (0, Ordering::Greater) => (0, x - 1),
        (1, Ordering::Less) => (0, x - 1),
        (1, Ordering::Greater) => (BAD, p),
        (same, _) => (same, x),
    };
    let cause = (main == BAD).then_some(Cause::State(BAD));
    Leaves {
        armed,
        ..Leaves::state(main, counter(x), cause)
    }
}

/// What an exit with a value leaves, of a call that was entered with another and for which these are armed.
fn left(main: u8, x: i32, armed: &[u8], [at_entry, p]: [i32; 2]) -> Leaves {
    let (main, x) = match (main, x.cmp(&p)) {
        (0, Ordering::Greater) => (1, x + 1),
        (1, Ordering::Less) => (0, x + 1),
        (same, _) => (same, x),
    };
    let broken = armed.first().filter(|_| p != at_entry);
    Leaves::state(main, counter(x), broken.copied().map(Cause::Triple))
}

fn in_every_role<R: Subject>(script: &mut Script<R>) {
    start(script, &shared_conditions());
    for (main, x, p) in [0, 1]
        .into_iter()
        .flat_map(|main| [4, 5, 6].map(|x| (main, x)))
        .flat_map(|(main, x)| [0, 5, 9].map(|p| (main, x, p)))
    {
        let (enters, now) = (entry(0, CALL, &[p]), entered(main, x, p));
        set(script, main, &[x]);
        let open = [(held(&enters, 1), now.armed.clone())];
        let state = (now.main, now.variables);
        let line = taken::<R>(state, &open, 1, broken(now.cause, 0));
        script.step(&enters, &line);
        for value in [0, 5, 6, 9] {
            let leaves = exit(0, CALL, &[value]);
            let then = left(now.main, now.variables[0], &now.armed, [p, value]);
            let line = match now.main {
                BAD => "refused 10".to_string(),
                _ => {
                    let failed = broken(then.cause, 1);
                    taken::<R>((then.main, then.variables), &[], 2, failed)
                }
            };
            script.offer(&leaves, &line);
        }
    }
}

/// Two calls, one after the other begun, and each of them left; every event is asked about.
fn roles_in_runs<R: Subject>(script: &mut Script<R>) {
    start(script, &shared_conditions());
    for (first, second) in [2, 0, -1]
        .into_iter()
        .flat_map(|first| [2, 1, 0, -2].map(|second| (first, second)))
    {
        script.restore();
        let mut walk = Walk::default();
        let one = entered(0, 0, first);
        walk.step(script, entry(0, 1, &[first]), &one);
        let two = entered(one.main, one.variables[0], second);
        if two.cause.is_some() {
            walk.ask(script, entry(0, 2, &[second]), &two);
            continue;
        }
        walk.step(script, entry(0, 2, &[second]), &two);
        for (call, at_entry, armed) in [(1, first, &one.armed), (2, second, &two.armed)] {
            for value in [at_entry, at_entry + 1] {
                let then = left(two.main, two.variables[0], armed, [at_entry, value]);
                walk.ask(script, exit(0, call, &[value]), &then);
            }
        }
    }
}

// ---- Call by call -----------------------------------------------------------------------------

/// One state, units 0-2, P 1, V 2. Variable 0 counts the open calls of unit 0, variable 1 the exits of unit 1
/// since the last entry of unit 2. Triples 0 and 1, of unit 0: fewer than two are open; fewer exits were
/// counted than are open. Triple 2, of unit 1: as many are open as the value says. Triple 3, of unit 2: an
/// exit was counted. Triple 1 asks that the value be no less than at entry, the others that it be the same.
fn call_counters() -> SheetDraft {
    let (none, one, two) = (&number(0)[..], &number(1)[..], &number(2)[..]);
    let mut sheet = SheetDraft::new(1, 3, 1, &[0, 0]);
    sheet.front.conditions = vec![
        op(4, &[X0, two]),
        op(4, &[X1, X0]),
        op(5, &[X0, P0]),
        op(4, &[none, X1]),
        op(5, &[P0, E0]),
        op(1, &[&op(4, &[P0, E0])]),
        TRUE.to_vec(),
    ];
    sheet.front.actions = vec![
        op(0, &[&plus(X0, one)]),
        op(0, &[&minus(X0, one)]),
        op(1, &[&plus(X1, one)]),
        op(1, &[none]),
    ];
    sheet.transitions = vec![
        [0, 0, 0, 6, 0, 0],
        [0, 1, 0, 6, 1, 0],
        [0, 1, 1, 6, 2, 0],
        [0, 0, 2, 6, 3, 0],
    ];
    sheet.triples = vec![[0, 0, 0, 4], [0, 0, 1, 5], [0, 1, 2, 4], [0, 2, 3, 4]];
    sheet
}

/// The triples that an entry arms.
fn armed_by_calls(event: &Record, [x0, x1, ..]: [i32; 4]) -> Vec<u8> {
    let holds = match event.unit {
        0 => vec![(0, x0 < 2), (1, x1 < x0)],
        1 => vec![(2, x0 == event.values[0])],
        _ => vec![(3, 0 < x1)],
    };
    let holding = holds.into_iter().filter(|(_, holds)| *holds);
    holding.map(|(triple, _)| triple).collect()
}

fn counted_by_calls(event: &Record, [x0, x1, x2, x3]: [i32; 4]) -> [i32; 4] {
    match (event.kind, event.unit) {
        (0, 0) => [x0 + 1, x1, x2, x3],
        (1, 0) => [x0 - 1, x1, x2, x3],
        (1, 1) => [x0, x1 + 1, x2, x3],
        (0, 2) => [x0, 0, x2, x3],
        _ => [x0, x1, x2, x3],
    }
}

/// What an event leaves behind the others.
fn left_by_calls(walk: &Walk, event: &Record) -> Leaves {
    let mut leaves = Leaves::variables(counted_by_calls(event, walk.variables));
    if event.kind == 0 {
        leaves.armed = armed_by_calls(event, walk.variables);
        return leaves;
    }
    let open = walk.open.iter();
    let own = open.filter(|(call, _)| call.number == event.call);
    let broken = own.flat_map(|(call, armed)| {
        let (at_entry, value) = (call.kept[0], event.values[0]);
        let is_kept = move |triple: u8| match triple {
            1 => at_entry <= value,
            _ => at_entry == value,
        };
        armed.iter().copied().filter(move |t| !is_kept(*t))
    });
    leaves.cause = broken.min().map(Cause::Triple);
    leaves
}

/// Nested calls, of which each finds other counts; no exit breaks anything.
fn nested() -> Vec<Record> {
    let (enters, leaves) = (
        |unit: u8, call: u16, value: i32| entry(unit, call, &[value]),
        |unit: u8, call: u16, value: i32| exit(unit, call, &[value]),
    );
    vec![
        enters(0, 1, 5),
        enters(0, 2, 5),
        enters(0, 3, 5),
        enters(1, 4, 3),
        enters(1, 5, 2),
        leaves(1, 4, 3),
        enters(2, 6, 1),
        enters(2, 7, 1),
        leaves(0, 2, 5),
        leaves(1, 5, 9),
        enters(0, 8, 4),
        leaves(0, 1, 5),
        leaves(0, 3, 6),
        enters(0, 9, 4),
        leaves(0, 8, 4),
        leaves(2, 6, 1),
        leaves(0, 9, 4),
        enters(0, 10, 1),
        enters(2, 11, 0),
        enters(2, 12, 0),
    ]
}

/// After each event every open call is left with one less than at entry, and the last with one more.
fn call_by_call<R: Subject>(script: &mut Script<R>) {
    start(script, &call_counters());
    let mut walk = Walk::default();
    for event in nested() {
        let leaves = left_by_calls(&walk, &event);
        walk.step(script, event, &leaves);
        let less = walk.open.iter().map(|(call, _)| (*call, -1));
        let more = walk.open.last().map(|(call, _)| (*call, 1));
        for (call, change) in less.chain(more).collect::<Vec<_>>() {
            let leaves = exit(call.unit, call.number, &[call.kept[0] + change]);
            walk.ask(script, leaves.clone(), &left_by_calls(&walk, &leaves));
        }
    }
}

// ---- Random cases -----------------------------------------------------------------------------

const SEED: u64 = 0x5741_5443_480C;
/// Generated sheets or networks.
const RULES: usize = 40;
/// The longest generated sheet, to keep the file small.
const LONGEST: usize = 110;

/// Whether an entry has an action where a precondition of its state and unit names a variable.
fn reads_what_it_changes(sheet: &Sheet) -> bool {
    let machine = &sheet.machine;
    sheet.transitions.iter().any(|t| {
        let acts = !machine.actions[usize::from(t.action)]
            .assignments
            .is_empty();
        let own = sheet.triples_of(t.from, t.unit);
        let reads = own.iter().any(|number| {
            let precondition = sheet.triples[usize::from(*number)].precondition;
            machine.conditions[usize::from(precondition)]
                .mentions()
                .monitor
        });
        t.kind == Kind::Entry && acts && reads
    })
}

fn random_sheet(random: &mut Random) -> SheetDraft {
    loop {
        let draft = generate::sheet(random, Size::Small);
        let bytes = draft.bytes();
        if bytes.len() <= LONGEST && Sheet::read(&bytes).is_ok_and(|s| reads_what_it_changes(&s)) {
            return draft;
        }
    }
}

fn random_cases<R: Subject>(script: &mut Script<R>) {
    let mut random = Random::new(SEED);
    script.sort = Sort::Preconditions;
    for _ in 0..RULES {
        let draft = random_sheet(&mut random);
        let (shape, manner) = (
            Shape::of(&draft),
            Manner {
                breaks: 0,
                entries: 5,
            },
        );
        script.rules(&R::like(&mut random, draft));
        script.fresh("accepted");
        let records = generate::records(&mut random, shape, manner, 10);
        for record in &records {
            script.unknown(record, true);
        }
        script.add(Frame::Run(write_log(shape.program, &records)), None);
    }
}

// ---- All --------------------------------------------------------------------------------------

/// The sheets of the chosen cases.
pub fn sheets() -> [SheetDraft; 4] {
    [
        own_actions(),
        many_variables(),
        shared_conditions(),
        call_counters(),
    ]
}

/// The chosen cases alone.
pub fn chosen<R: Subject>() -> Page<R::Own> {
    Script::<R>::of(&[
        from_counters,
        counters_in_runs,
        from_variables,
        variables_in_runs,
        in_every_role,
        roles_in_runs,
        call_by_call,
    ])
}

/// All of them.
pub fn page<R: Subject>() -> Page<R::Own> {
    let random = Script::<R>::of(&[random_cases]);
    chosen::<R>().into_iter().chain(random).collect()
}

/// The runs of the page as inputs of the program.
pub fn inputs() -> Vec<Vec<u8>> {
    script::inputs(page::<Sheet>())
}
