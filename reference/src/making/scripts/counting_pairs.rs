//! What the pages of `network_cases` have besides `counting_preconditions`: pairs that read monitor
//! variables on networks that no sheet has (document 02, slip 13). Rivals have pairs of their own, some of
//! which hold before the action and some after it. Chosen cases with answers worked out here.

use crate::framing::script_frames::Field;
use crate::implementation::network::Network;
use crate::implementation::run::Record;
use crate::implementation::state::Cause;
use crate::making::cases::condition_cases::{joined, number, op, E0, P0, TRUE};
use crate::making::cases::condition_ends::{plus, X0, X1};
use crate::making::draft::NetworkDraft;
use crate::making::scripts::card_cases::{padded, page_in_version_3};
use crate::making::scripts::counting_preconditions;
use crate::making::scripts::network_cases::{least, Page};
use crate::making::scripts::script::{self, entry, exit, Sort};
use crate::making::scripts::shared_cases::{broken, held, ran, taken, Broken};

type Script = script::Script<Network>;

// ---- Rivals with pairs of their own -----------------------------------------------------------

/// The first two variables, of which the networks here have one or both.
type Variables = [i32; 2];
/// A condition's bytes, and whether it holds for the variables and a value.
type Asked = (Vec<u8>, fn(Variables, i32) -> bool);
/// An action's bytes, and what it makes of the variables.
type Done = (Vec<u8>, fn(Variables, i32) -> Variables);

/// Those of guards and pairs. Behind them stand the templates': the value at entry again, and more than it.
fn asked() -> [Asked; 5] {
    let below_two = op(4, &[X0, &number(2)]);
    [
        (TRUE.to_vec(), |_, _| true),
        (op(4, &[X0, P0]), |[x, _], p| x < p),
        (below_two.clone(), |[x, _], _| x < 2),
        (op(1, &[&below_two]), |[x, _], _| 2 <= x),
        (op(5, &[X1, P0]), |[_, y], p| y == p),
    ]
}

const SAME: u8 = 5;
const MORE: u8 = 6;

fn done() -> [Done; 4] {
    [
        (Vec::new(), |variables, _| variables),
        (op(0, &[&plus(X0, &number(1))]), |[x, y], _| [x + 1, y]),
        (joined(&[&[0], P0, &[1], X0]), |_, p| [p, p]),
        (op(0, &[&number(0)]), |[_, y], _| [0, y]),
    ]
}

/// Unit and postcondition.
const TEMPLATES: [[u8; 2]; 3] = [[0, SAME], [0, MORE], [1, SAME]];
/// State, unit, condition, action and new state of the entries, and their pairs.
const ENTRIES: [([u8; 5], &[[u8; 2]]); 5] = [
    ([0, 0, 1, 1, 1], &[[2, 0], [3, 0], [1, 1], [4, 0]]),
    ([0, 0, 4, 2, 0], &[[4, 1], [2, 0], [3, 1], [4, 1]]),
    ([1, 0, 3, 3, 0], &[[3, 0], [2, 1], [3, 0], [0, 1]]),
    ([1, 0, 2, 2, BAD], &[[2, 0], [4, 1]]),
    ([0, 1, 2, 1, 0], &[[2, 2], [3, 2]]),
];
const BAD: u8 = 2;
/// The variables at first.
const START: Variables = [0, 2];

/// States 0-2 (2 is bad), units 0-1, P 1, V 2. An exit of unit 0 in state 1 leads back.
fn paired() -> NetworkDraft {
    let mut network = NetworkDraft::new(3, 2, 1, &START);
    network.front.bad = 1 << BAD;
    let conditions = asked().into_iter().map(|(bytes, _)| bytes);
    let of_templates = [op(5, &[P0, E0]), op(4, &[E0, P0])];
    network.front.conditions = conditions.chain(of_templates).collect();
    network.front.actions = done().into_iter().map(|(bytes, _)| bytes).collect();
    for ([from, unit, condition, action, to], pairs) in ENTRIES {
        network.creating([from, 0, unit, condition, action, to], pairs);
    }
    network.creating([1, 1, 0, 0, 0, 0], &[]);
    network.templates = TEMPLATES.to_vec();
    network
}

/// The main state and the variables.
type State = (u8, Variables);

fn shown((main, [x, y]): State) -> (u8, [i32; 4]) {
    (main, [x, y, 0, 0])
}

/// What is broken in a state, with a template by a call that was entered there.
fn found(main: u8, template: Option<u8>, entered: u32) -> Option<Broken> {
    let bad = (main == BAD).then_some(main);
    broken(Cause::new(bad, template), entered)
}

/// What an entry leaves, and the templates of the checkers that it creates: all by the variables before it.
fn entered((main, variables): State, unit: u8, p: i32) -> (State, Vec<u8>) {
    let (asked, done) = (asked(), done());
    let holds = |condition: u8| asked[usize::from(condition)].1(variables, p);
    let is_taken = |([from, of, condition, ..], _): &&([u8; 5], &[[u8; 2]])| {
        (*from, *of) == (main, unit) && holds(*condition)
    };
    let Some(([.., action, to], pairs)) = ENTRIES.iter().find(is_taken) else {
        return ((main, variables), Vec::new());
    };
    let after = done[usize::from(*action)].1(variables, p);
    let created = pairs.iter().filter(|[condition, _]| holds(*condition));
    (
        (*to, after),
        created.map(|[_, template]| *template).collect(),
    )
}

/// What an exit leaves.
fn left((main, variables): State, unit: u8) -> State {
    match (main, unit) {
        (1, 0) => (0, variables),
        _ => (main, variables),
    }
}

/// The lowest template that fails for a value at entry and one at exit.
fn failing(created: &[u8], [at_entry, p]: [i32; 2]) -> Option<u8> {
    let is_kept = |template: &u8| match TEMPLATES[usize::from(*template)][1] {
        SAME => p == at_entry,
        _ => p > at_entry,
    };
    created.iter().copied().filter(|t| !is_kept(t)).min()
}

fn start(script: &mut Script) {
    script.sort = Sort::Preconditions;
    script.rules(&paired().bytes());
    script.fresh("accepted x1=2");
    script.save();
}

/// Every state, unit and value: where none of the rivals is taken, no pair is asked.
fn from_variables(script: &mut Script) {
    start(script);
    for place in 0..96 {
        let (main, unit) = (place % 2, place / 2 % 2);
        let variables = [i32::from(place / 4 % 4), i32::from(place / 16 % 2) + 1];
        entered_and_left(script, (main, variables), unit, i32::from(place / 32) + 1);
    }
}

fn entered_and_left(script: &mut Script, before: State, unit: u8, p: i32) {
    let (main, [x, y]) = before;
    script.restore();
    script.set(&[
        (Field::Main, main.into()),
        (Field::Variable(0), x as u32),
        (Field::Variable(1), y as u32),
    ]);
    let (after, created) = entered(before, unit, p);
    let enters = entry(unit, 7, &[p]);
    let open = [(held(&enters, 1), created.clone())];
    let line = taken::<Network>(shown(after), &open, 1, found(after.0, None, 0));
    script.step(&enters, &line);
    // A run that has come to a verdict does not go on.
    let values = if after.0 == BAD {
        vec![]
    } else {
        vec![p, p + 1]
    };
    for value in values {
        let then = left(after, unit);
        let found = found(then.0, failing(&created, [p, value]), 1);
        let line = taken::<Network>(shown(then), &[], 2, found);
        script.offer(&exit(unit, 7, &[value]), &line);
    }
}

/// Three entries one after the other, and the exit of one of them; the second is of unit 1 where it is the
/// one that is left.
fn in_runs(script: &mut Script) {
    script.sort = Sort::Preconditions;
    script.rules(&paired().bytes());
    for place in 0..81 {
        let values = [place % 3, place / 3 % 3, place / 9 % 3].map(|n| n + 1);
        let leaves = place as usize / 27;
        run_of_three(script, values, [0, u8::from(leaves == 1), 0], leaves);
    }
}

fn run_of_three(script: &mut Script, values: [i32; 3], units: [u8; 3], leaves: usize) {
    let (mut state, mut records, mut calls) = ((0, START), Vec::<Record>::new(), Vec::new());
    for (number, (p, unit)) in (1..).zip(values.into_iter().zip(units)) {
        let (after, created) = entered(state, unit, p);
        state = after;
        records.push(entry(unit, number, &[p]));
        calls.push((unit, number, p, created));
        if after.0 == BAD {
            let line = ran(BAD, 0, records.len() as u32, found(BAD, None, 0));
            script.run_records(1, &records, &line);
            return;
        }
    }
    let (unit, number, p, created) = &calls[leaves];
    records.push(exit(*unit, *number, &[p + 1]));
    let (main, _) = left(state, *unit);
    let found = found(main, failing(created, [*p, p + 1]), leaves as u32 + 1);
    script.run_records(1, &records, &ran(main, 2, 4, found));
}

// ---- The least network ------------------------------------------------------------------------

/// One of everything, and a pair that asks whether the variable is itself. Before slip 13 it was refused.
fn least_with_variable(script: &mut Script) {
    let mut network = least(1, &[0]);
    network.front.conditions.push(op(5, &[X0, X0]));
    network.transitions[0].1[0][0] = 1;
    script.sort = Sort::Preconditions;
    script.rules(&network.bytes());
    script.fresh("accepted");
    let entered = "taken o=1 n0=7 e0=1 k0.0=3 l=1 c0=7 f0=1 p=1";
    script.step(&entry(0, 7, &[3]), entered);
    script.ask(0, "entry 0 k0.0=3");
    script.step(&exit(0, 7, &[3]), "taken p=2");
}

// ---- Version 3 --------------------------------------------------------------------------------

/// The network with its conditions joined, where the first pair of each rival of state 0 has its own
/// joined condition and the second that of the other rival. Of two joined conditions one holds at most,
/// so the second is never created, though after the action it may be the other's that holds.
fn with_joined_pairs() -> Vec<u8> {
    let Ok(network) = Network::read(&paired().bytes()) else {
        return Vec::new(); // Does not happen: the draft is a network.
    };
    let mut network = network.separated();
    for (own, other) in [(0, 1), (1, 0)] {
        let joined = |place: usize| network.transitions[place].transition.condition;
        let conditions = [joined(own), joined(other)];
        for (pair, condition) in network.transitions[own].pairs.iter_mut().zip(conditions) {
            pair.condition = condition;
        }
    }
    network.bytes()
}

fn joined_pairs(script: &mut Script) {
    script.sort = Sort::Preconditions;
    script.rules(&with_joined_pairs());
    script.fresh("accepted x1=2");
    script.save();
    for (x, y, p) in [0, 1, 2, 3]
        .into_iter()
        .flat_map(|x| [1, 2].map(|y| (x, y)))
        .flat_map(|(x, y)| [1, 2, 3].map(|p| (x, y, p)))
    {
        let (after, _) = entered((0, [x, y]), 0, p);
        script.restore();
        script.set(&[
            (Field::Variable(0), x as u32),
            (Field::Variable(1), y as u32),
        ]);
        let enters = entry(0, 7, &[p]);
        let created = own_and_last_two([x, y], p);
        let line = taken::<Network>(shown(after), &[(held(&enters, 1), created)], 1, None);
        script.offer(&enters, &line);
    }
}

/// The templates that the rivals of state 0 create there: of the first pair, and of the last two as they were.
fn own_and_last_two(variables: Variables, p: i32) -> Vec<u8> {
    let asked = asked();
    let holds = |condition: u8| asked[usize::from(condition)].1(variables, p);
    let rivals = ENTRIES[..2].iter();
    let mut taken = rivals.filter(|([_, _, condition, ..], _)| holds(*condition));
    let Some((_, [own, _, rest @ ..])) = taken.next() else {
        return Vec::new();
    };
    let rest = rest.iter().filter(|[condition, _]| holds(*condition));
    [own].into_iter().chain(rest).map(|[_, t]| *t).collect()
}

/// One state and unit, P 1, V 1. Condition 0, of this length, is that the variable is below 2: the guard of
/// the first entry and its first pair's; condition 1, as long, that it is not. Every entry counts.
fn with_long_pairs(length: usize) -> NetworkDraft {
    let below_two = op(4, &[X0, &number(2)]);
    let mut network = NetworkDraft::new(1, 1, 1, &[0]).in_version_3();
    network.front.conditions = vec![
        padded(&below_two, length),
        padded(&op(1, &[&below_two]), length),
        TRUE.to_vec(),
    ];
    network.front.actions = vec![op(0, &[&plus(X0, &number(1))])];
    network.templates = vec![[0, 2], [0, 2]];
    network.creating([0, 0, 0, 0, 0, 0], &[[0, 0], [1, 1]]);
    network.creating([0, 0, 0, 2, 0, 0], &[[0, 0], [1, 1], [2, 0]]);
    network
}

fn long_pairs(script: &mut Script) {
    script.sort = Sort::Preconditions;
    for length in [65, 256, 1_024] {
        script.rules(&with_long_pairs(length).bytes());
        script.fresh("accepted");
        let mut open = Vec::new();
        for (number, x) in (1..).zip([0, 1, 2, 3]) {
            let enters = entry(0, number, &[5]);
            let created = if x < 2 { vec![0] } else { vec![1, 0] };
            open.push((held(&enters, number.into()), created));
            let variables = [x + 1, 0, 0, 0];
            let line = taken::<Network>((0, variables), &open, number.into(), None);
            script.step(&enters, &line);
        }
    }
}

// ---- All --------------------------------------------------------------------------------------

/// Version 2 and, on networks with the same rules, version 3 with more of its own.
pub fn pages() -> [Page; 2] {
    let own = || Script::of(&[least_with_variable, from_variables, in_runs]);
    let chosen = counting_preconditions::chosen::<Network>();
    let carried_over: Page = chosen.into_iter().chain(own()).collect();
    let version_2 = counting_preconditions::page::<Network>().into_iter();
    let version_3 = page_in_version_3(&carried_over).into_iter();
    [
        version_2.chain(own()).collect(),
        version_3
            .chain(Script::of(&[joined_pairs, long_pairs]))
            .collect(),
    ]
}
