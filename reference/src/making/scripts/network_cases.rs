//! The cases of the program `network_cases`: single events offered to states of networks, checkers'
//! values at entry, and logs. Chosen ones with answers written down here, and random ones from a
//! fixed seed. The networks are translated from sheets or made by hand.

use crate::framing::network_frames::Checkers;
use crate::framing::script_frames::{put, Bench, Field, Set};
use crate::implementation::network::Network;
use crate::implementation::run::Record;
use crate::implementation::sheet::Sheet;
use crate::implementation::state::{self, NetworkState, MOST_CHECKERS};
use crate::making::cases::sheet_cases::{greatest_network, NETWORK_A};
use crate::making::draft::{NetworkDraft, SheetDraft};
use crate::making::generate::{self, Size};
use crate::making::random::Random;
use crate::making::scripts::card_cases;
use crate::making::scripts::count_forms::Form;
use crate::making::scripts::counting_pairs;
use crate::making::scripts::entry_clauses;
use crate::making::scripts::entry_positions;
use crate::making::scripts::judged_counts;
use crate::making::scripts::monitor_cases::random_sheet;
use crate::making::scripts::network_clauses::{
    BASE_CLAUSES, CROWD_CLAUSES, EDGE_CLAUSES, TINY_CLAUSES,
};
use crate::making::scripts::random_script::on_rules;
use crate::making::scripts::script::{self, entry, event, exit, Sort};
use crate::making::scripts::script_ends;
use crate::making::scripts::shared_cases::{
    self, base, base_state, full_state, tiny, Events, Near, Subject, LAST,
};
use crate::making::scripts::shared_clauses::Clause;
use crate::making::scripts::tried_counts;
use crate::making::scripts::wide_cases;

pub type Page = script::Page<Checkers>;
type Script = script::Script<Network>;

impl Subject for Network {
    const BASE_LINES: [&'static str; 2] = [
        "x0=5 x1=-1 o=1 n0=7 e0=1 k0.0=2 k0.1=1 l=2 c0=7 f0=1 c1=7 t1=3 f1=1 p=1",
        "x0=6 x1=-1 o=2 n0=7 e0=1 k0.0=2 k0.1=1 n1=8 u1=1 e1=2 k1.0=3 k1.1=4 \
         l=3 c0=7 f0=1 c1=7 t1=3 f1=1 c2=8 t2=4 f2=2 p=2",
    ];
    const EDGE_LINE: &'static str = "m=15 x0=-2147483648 x1=-1 x3=2147483647 o=1 n0=65535 u0=15 \
        e0=1 k0.0=1 k0.1=2 k0.2=3 k0.3=4 k0.4=5 k0.5=6 k0.6=7 k0.7=-1 \
        l=4 c0=65535 f0=1 c1=65535 t1=1 f1=1 c2=65535 t2=2 f2=1 c3=65535 t3=3 f3=1 p=1";
    const BREAKS: [Set<Checkers>; 5] = [
        (Field::Variable(3), 1),
        (Field::Own(Checkers::Template(0)), 8),
        (Field::Own(Checkers::Call(63)), 1),
        (Field::Unit(1), 2),
        (Field::Own(Checkers::Living), 2),
    ];
    const ENTRY_CLAUSES: &'static [Clause<Checkers>] = entry_clauses::OF_CHECKERS;

    fn of_sheet(draft: &SheetDraft) -> Vec<u8> {
        // Drafts that are no sheets are not asked for.
        Sheet::read(&draft.bytes()).map_or(Vec::new(), |sheet| sheet.translate().bytes())
    }

    fn like(random: &mut Random, draft: SheetDraft) -> Vec<u8> {
        match random.below(4) {
            0 => Network::of_sheet(&draft),
            1 => card_cases::in_version_3(&Network::of_sheet(&draft)),
            2 => generate::network_like(random, draft).bytes(),
            _ => {
                let network = generate::network_like(random, draft);
                network.in_version_3().bytes()
            }
        }
    }

    fn arm(state: &mut NetworkState, place: usize, triple: u8) {
        let call = state.common.calls[place];
        state.checkers[usize::from(state.living)] = state::Checker {
            call: call.number,
            template: triple,
            entry: call.entry,
        };
        state.living += 1;
    }

    fn settling_checkers(state: &NetworkState) -> Vec<Set<Checkers>> {
        let entry = |place: usize, checker: &state::Checker| {
            let free = state::Checker {
                entry: checker.entry,
                ..state::Checker::default()
            };
            let call = state.common.place_of(checker.call);
            match (place < state.living_checkers().len(), call) {
                (true, Some(call)) => state.common.calls[call].entry,
                (false, _) if *checker == free => 0,
                _ => checker.entry,
            }
        };
        let all = state.checkers.iter().enumerate();
        let wrong = all.filter(|(place, checker)| entry(*place, checker) != checker.entry);
        let set = |place| Field::Own(Checkers::Entry(place as u8));
        wrong
            .map(|(place, checker)| (set(place), entry(place, checker)))
            .collect()
    }

    fn own_field(
        random: &mut Random,
        number: usize,
        bench: &Bench<Network>,
        near: Near,
    ) -> Set<Checkers> {
        let living = bench.state.living;
        let place = random.below(usize::from(living) + 2).min(MOST_CHECKERS - 1) as u8;
        let call = bench.common().calls[usize::from(near.place)].number;
        let (field, value) = match number {
            0 => (
                Checkers::Living,
                living.saturating_add(near.number % 2).into(),
            ),
            1 => (Checkers::Call(place), call.into()),
            _ => (Checkers::Template(place), near.cause.into()),
        };
        (Field::Own(field), value)
    }
}

// ---- States as lines show them ----------------------------------------------------------------

/// A call's number, its unit, its entry position and its kept values.
pub(crate) type Call<'a> = (u16, u8, u32, &'a [i32]);
/// A checker's call number and its template. Its entry position is its call's.
pub(crate) type Checker = (u16, u8);

/// A taken event's line: what stands before the calls, these calls and checkers, and the rest.
pub(crate) fn taken(front: &str, calls: &[Call], checkers: &[Checker], rest: &str) -> String {
    let mut line = format!("taken{front}");
    put(&mut line, "o", calls.len() as i64);
    for (i, (number, unit, entry, kept)) in calls.iter().enumerate() {
        put(&mut line, &format!("n{i}"), (*number).into());
        put(&mut line, &format!("u{i}"), (*unit).into());
        put(&mut line, &format!("e{i}"), (*entry).into());
        for (j, value) in kept.iter().enumerate() {
            put(&mut line, &format!("k{i}.{j}"), (*value).into());
        }
    }
    put(&mut line, "l", checkers.len() as i64);
    for (i, (call, template)) in checkers.iter().enumerate() {
        put(&mut line, &format!("c{i}"), (*call).into());
        put(&mut line, &format!("t{i}"), (*template).into());
        let own = calls.iter().find(|(number, ..)| number == call);
        let entry = own.map_or(0, |(_, _, entry, _)| *entry);
        put(&mut line, &format!("f{i}"), entry.into());
    }
    line + rest
}

// ---- Document 01 ------------------------------------------------------------------------------

fn document(script: &mut Script) {
    script.sort = Sort::Reached;
    script.rules(&NETWORK_A);
    script.fresh("accepted");
    let opened = "m=1 o=1 n0=7 e0=1 k0.0=8 l=1 c0=7 f0=1 p=1";
    script.step(&entry(0, 7, &[8, 0]), &format!("taken {opened}"));
    script.ask(0, "entry 0 k0.0=8");
    script.offer(&exit(0, 7, &[8, 8]), "taken p=2");
    let violated = "p=2 violated 2 state - triple 0 entry 1";
    script.offer(&exit(0, 7, &[8, 7]), &format!("taken {violated}"));
    script.offer(&exit(0, 9, &[8, 8]), &format!("refused 15 {opened}"));
    script.offer(&entry(0, 7, &[8, 0]), &format!("refused 13 {opened}"));
    let other = "m=1 o=2 n0=7 e0=1 k0.0=8 n1=9 e1=2 k1.0=3 l=1 c0=7 f0=1 p=2";
    script.step(&entry(0, 9, &[3, 0]), &format!("taken {other}"));
    let outer = "o=1 n0=7 e0=1 k0.0=8 l=1 c0=7 f0=1 p=3";
    script.step(&exit(0, 9, &[3, 0]), &format!("taken {outer}"));
    script.step(
        &exit(0, 7, &[7, 7]),
        "taken p=4 violated 4 state - triple 0 entry 1",
    );
    script.offer(&entry(0, 7, &[8, 0]), "refused 10");
    shared_cases::document_runs(script);
}

// ---- What entries create and exits judge ------------------------------------------------------

/// States 0-2 (2 is bad), units 0-1, P 1, V 1. Conditions: 0 true, 1 the value at entry again, 2 below
/// 5, 3 above the value at entry, 4 the variable below 2. Action 1 counts. Template 0 has condition 1,
/// 1 has 3, 2 has 2, 4 has 0, all of unit 0; of unit 1, 3 has 1 and 5 has 3.
fn hand() -> NetworkDraft {
    let mut network = NetworkDraft::new(3, 2, 1, &[0]);
    network.front.bad = 0b100;
    network.front.conditions = vec![
        vec![0],
        vec![5, 17, 0, 19, 0],
        vec![4, 17, 0, 16, 0, 0, 0, 5],
        vec![4, 19, 0, 17, 0],
        vec![4, 18, 0, 16, 0, 0, 0, 2],
    ];
    network.front.actions = vec![vec![], vec![0, 20, 18, 0, 16, 0, 0, 0, 1]];
    network.templates = vec![[0, 1], [0, 3], [0, 2], [1, 1], [0, 0], [1, 3]];
    network.creating([0, 0, 0, 2, 1, 1], &[[0, 2], [0, 1], [0, 0], [2, 1]]);
    // Taken from 5 on only, so that its first pair's condition never holds.
    network.creating([0, 0, 0, 0, 0, 0], &[[2, 0], [0, 4], [0, 0]]);
    network.creating([1, 0, 0, 4, 1, 0], &[[0, 1]; 4]);
    network.creating([1, 0, 1, 0, 0, 1], &[[2, 5], [0, 3]]);
    network.creating([0, 0, 1, 2, 0, 2], &[[0, 3], [0, 5]]);
    network.creating([0, 1, 0, 2, 0, 2], &[]);
    network.creating([1, 1, 0, 2, 1, 0], &[]);
    network.creating([1, 1, 1, 2, 0, 2], &[]);
    network
}

/// Call 7, entered first with the value 3, in state 1; the lower templates' checkers come after the higher ones'.
const SEVEN: Call = (7, 0, 1, &[3]);
const OF_SEVEN: [Checker; 4] = [(7, 2), (7, 1), (7, 0), (7, 1)];
const OF_EIGHT: [Checker; 4] = [(8, 1); 4];

fn creating(script: &mut Script) {
    script.sort = Sort::Checkers;
    script.rules(&hand().bytes());
    script.fresh("accepted");
    // By a transition that stays; by none; by one to the bad state.
    let stays = taken("", &[(7, 0, 1, &[9])], &[(7, 4), (7, 0)], " p=1");
    script.offer(&entry(0, 7, &[9]), &stays);
    let none = taken("", &[(7, 1, 1, &[9])], &[], " p=1");
    script.offer(&entry(1, 7, &[9]), &none);
    let bad = " p=1 violated 1 state 2 triple - entry 0";
    let both = taken(" m=2", &[(7, 1, 1, &[3])], &[(7, 3), (7, 5)], bad);
    script.offer(&entry(1, 7, &[3]), &both);
    // By one that moves.
    let moved = taken(" m=1 x0=1", &[SEVEN], &OF_SEVEN, " p=1");
    script.step(&entry(0, 7, &[3]), &moved);
    for (value, more) in [(3, &[(8, 5), (8, 3)][..]), (9, &[(8, 3)])] {
        let (eight, row) = ([value], [&OF_SEVEN, more].concat());
        let line = taken(" m=1 x0=1", &[SEVEN, (8, 1, 2, &eight)], &row, " p=2");
        script.offer(&entry(1, 8, &[value]), &line);
    }
    // By one that leads back, with one template four times.
    let (nine, row) = ([9], [OF_SEVEN, OF_EIGHT].concat());
    let line = taken(" x0=2", &[SEVEN, (8, 0, 2, &nine)], &row, " p=2");
    script.offer(&entry(0, 8, &[9]), &line);
    judging(script);
    judging_beside_another(script);
}

/// Templates 2, 1, 0 and 1 are to be judged in this order; the lowest that fails is named.
fn judging(script: &mut Script) {
    for (value, front, template) in [
        (3, " x0=2", 1),
        (4, " x0=2", 0),
        (9, " m=1 x0=1", 0),
        (2, " x0=2", 0),
        (i32::MAX, " m=1 x0=1", 0),
        (i32::MIN, " x0=2", 0),
    ] {
        let rest = format!(" p=2 violated 2 state - triple {template} entry 1");
        let line = taken(front, &[], &[], &rest);
        script.offer(&exit(0, 7, &[value]), &line);
    }
}

/// The same beside call 8, which has one template four times; values below 5 lead to the bad state.
fn judging_beside_another(script: &mut Script) {
    let eight = (8, 0, 2, &[3][..]);
    let row = [OF_SEVEN, OF_EIGHT].concat();
    let line = taken(" x0=2", &[SEVEN, eight], &row, " p=2");
    script.step(&entry(0, 8, &[3]), &line);
    for (value, front, rest) in [
        (4, " m=2 x0=2", " violated 3 state 2 triple - entry 0"),
        (3, " m=2 x0=2", " violated 3 state 2 triple 1 entry 2"),
        (-1, " m=2 x0=2", " violated 3 state 2 triple 1 entry 2"),
        (9, " x0=2", ""),
    ] {
        let line = taken(front, &[SEVEN], &OF_SEVEN, &format!(" p=3{rest}"));
        script.offer(&exit(0, 8, &[value]), &line);
    }
    for (value, front, bad) in [(4, " m=2 x0=2", "2"), (9, " x0=2", "-")] {
        let rest = format!(" p=3 violated 3 state {bad} triple 0 entry 1");
        let line = taken(front, &[eight], &OF_EIGHT, &rest);
        script.offer(&exit(0, 7, &[value]), &line);
    }
    counting(script);
}

/// A third call counts the variable up to 3, so that a fourth finds no transition; a fifth is created
/// checkers and leads to the bad state.
fn counting(script: &mut Script) {
    let [eight, nine, ten] = [(8, 2), (9, 3), (10, 4)].map(|(n, at)| (n, 0, at, &[3][..]));
    let of_nine = OF_SEVEN.map(|(_, template)| (9, template));
    let row = [OF_SEVEN, OF_EIGHT, of_nine].concat();
    let line = taken(" m=1 x0=3", &[SEVEN, eight, nine], &row, " p=3");
    script.step(&entry(0, 9, &[3]), &line);
    let line = taken(" m=1 x0=3", &[SEVEN, eight, nine, ten], &row, " p=4");
    script.step(&entry(0, 10, &[3]), &line);
    let line = taken(" x0=4", &[SEVEN, eight, nine], &row, " p=5");
    script.step(&exit(0, 10, &[3]), &line);
    let row = [&row[..], &[(11, 3), (11, 5)]].concat();
    let bad = " p=6 violated 6 state 2 triple - entry 0";
    let calls = [SEVEN, eight, nine, (11, 1, 6, &[-2])];
    let line = taken(" m=2 x0=4", &calls, &row, bad);
    script.offer(&entry(1, 11, &[-2]), &line);
}

// ---- Pairs that hold beside pairs that do not -------------------------------------------------

/// One state and unit, P 4. Pair i holds where value i is 1. The templates ask that value 0, 1 or 2
/// be the one at entry.
fn choosing() -> NetworkDraft {
    let mut network = NetworkDraft::new(1, 1, 4, &[]);
    let is_one = (0..4).map(|i| vec![5, 17, i, 16, 0, 0, 0, 1]);
    let same = (0..3).map(|i| vec![5, 17, i, 19, i]);
    network.front.conditions = is_one.chain(same).chain([vec![0]]).collect();
    network.front.actions = vec![vec![]];
    network.templates = vec![[0, 4], [0, 5], [0, 6]];
    let pairs = PAIRED.map(|(condition, template)| [condition, template]);
    network.creating([0, 0, 0, 7, 0, 0], &pairs);
    network
}

/// The conditions and templates of its pairs.
const PAIRED: [(u8, u8); 4] = [(0, 2), (1, 0), (2, 1), (3, 2)];

/// Every set of pairs that hold, and at exit several sets of values that are not those at entry.
fn pairs(script: &mut Script) {
    script.sort = Sort::Checkers;
    script.rules(&choosing().bytes());
    script.fresh("accepted");
    script.save();
    for set in 0..16u8 {
        let values = [0, 1, 2, 3].map(|i| i32::from(set >> i & 1));
        let holds = |(condition, _): &&(u8, u8)| set & (1 << *condition) != 0;
        let created = PAIRED.iter().filter(holds).map(|(_, t)| (5, *t));
        let created: Vec<Checker> = created.collect();
        script.restore();
        let line = taken("", &[(5, 0, 1, &values)], &created, " p=1");
        script.step(&entry(0, 5, &values), &line);
        for changed in [&[][..], &[0, 1, 2], &[1, 2], &[2], &[3]] {
            let mut values = values;
            changed.iter().for_each(|i| values[*i] += 7);
            let fails = |(_, template): &&Checker| changed.contains(&usize::from(*template));
            let lowest = created.iter().filter(fails).map(|(_, t)| *t).min();
            let verdict = lowest.map(|t| format!(" violated 2 state - triple {t} entry 1"));
            let line = format!("taken p=2{}", verdict.unwrap_or_default());
            script.offer(&exit(0, 5, &values), &line);
        }
    }
}

// ---- Calls within calls -----------------------------------------------------------------------

/// One state and unit, P 1: each call has a checker that always holds and one that asks for the value
/// at entry again.
fn nest() -> NetworkDraft {
    let mut network = NetworkDraft::new(1, 1, 1, &[]);
    network.front.conditions = vec![vec![0], vec![5, 17, 0, 19, 0]];
    network.front.actions = vec![vec![]];
    network.templates = vec![[0, 1], [0, 0]];
    network.creating([0, 0, 0, 0, 0, 0], &[[0, 1], [0, 0]]);
    network
}

/// A call of `nest`: its number, its value and its entry position.
type Nested = (u16, i32, u32);

/// Calls of `nest`: its line after a taken event, with two checkers for each.
fn nested(open: &[Nested], position: u32, verdict: &str) -> String {
    let values: Vec<[i32; 1]> = open.iter().map(|(_, value, _)| [*value]).collect();
    let calls = open.iter().zip(&values);
    let calls: Vec<Call> = calls.map(|((n, _, at), v)| (*n, 0, *at, &v[..])).collect();
    let checkers = open.iter().flat_map(|(n, ..)| [(*n, 1), (*n, 0)]);
    let checkers: Vec<Checker> = checkers.collect();
    taken("", &calls, &checkers, &format!(" p={position}{verdict}"))
}

/// The verdict where template 0 fails, of a call that was entered there.
fn failed(position: u32, entered: u32) -> String {
    format!(" violated {position} state - triple 0 entry {entered}")
}

/// Three calls, left in every order. Each exit is offered first with another call's value, which its
/// own checker alone judges; the checkers of the calls that stay are not judged and live on.
fn nesting(script: &mut Script) {
    script.rules(&nest().bytes());
    script.fresh("accepted");
    script.sort = Sort::Nesting;
    let open = [(7, 20, 1), (0, 10, 2), (263, -30, 3)];
    for count in 1..=3 {
        let (number, value, at) = open[count - 1];
        let line = nested(&open[..count], at, "");
        script.step(&entry(0, number, &[value]), &line);
    }
    script.save();
    for order in [
        [0, 1, 2],
        [0, 2, 1],
        [1, 0, 2],
        [1, 2, 0],
        [2, 0, 1],
        [2, 1, 0],
    ] {
        script.restore();
        let mut left = open.to_vec();
        for (place, position) in order.iter().zip(4..) {
            let (number, value, at) = open[*place];
            left.retain(|(other, ..)| *other != number);
            let wrong = open[(place + 1) % 3].1;
            let line = nested(&left, position, &failed(position, at));
            script.offer(&exit(0, number, &[wrong]), &line);
            let line = nested(&left, position, "");
            script.step(&exit(0, number, &[value]), &line);
        }
    }
    numbers_again(script);
}

/// A number that comes again has new values at entry, a new entry position, and the last place.
fn numbers_again(script: &mut Script) {
    script.fresh("accepted");
    let steps: [(Record, &[Nested]); 4] = [
        (entry(0, 7, &[20]), &[(7, 20, 1)]),
        (entry(0, 8, &[30]), &[(7, 20, 1), (8, 30, 2)]),
        (exit(0, 7, &[20]), &[(8, 30, 2)]),
        (entry(0, 7, &[40]), &[(8, 30, 2), (7, 40, 4)]),
    ];
    for ((event, open), position) in steps.iter().zip(1..) {
        script.step(event, &nested(open, position, ""));
    }
    script.ask(0, "entry 0 k0.0=30");
    script.ask(3, "entry 3 k3.0=40");
    // The same exit values, which one call was entered with and the other was not.
    let (seven, eight): (&[_], &[_]) = (&[(7, 40, 4)], &[(8, 30, 2)]);
    script.offer(&exit(0, 7, &[20]), &nested(eight, 5, &failed(5, 4)));
    script.offer(&exit(0, 7, &[30]), &nested(eight, 5, &failed(5, 4)));
    script.offer(&exit(0, 8, &[30]), &nested(seven, 5, ""));
    script.offer(&exit(0, 8, &[40]), &nested(seven, 5, &failed(5, 2)));
    script.step(&exit(0, 7, &[40]), &nested(eight, 5, ""));
    // None is open, then number 8 comes again.
    script.step(&exit(0, 8, &[30]), &nested(&[], 6, ""));
    script.step(&entry(0, 8, &[50]), &nested(&[(8, 50, 7)], 7, ""));
    script.offer(&exit(0, 7, &[40]), "refused 15");
    script.offer(&exit(0, 8, &[30]), &nested(&[], 8, &failed(8, 7)));
    script.offer(&exit(0, 8, &[50]), &nested(&[], 8, ""));
}

// ---- Sixty-four checkers ----------------------------------------------------------------------

/// States 0-1 (1 is bad), units 0-1, P 1. Conditions: 0 true, 1 the value at entry again, 2 below 0, 3
/// not below 0. Each entry creates four checkers. Exits of unit 1 below 0 lead to the bad state.
fn crowd() -> NetworkDraft {
    let mut network = NetworkDraft::new(2, 2, 1, &[]);
    network.front.bad = 0b10;
    network.front.conditions = vec![
        vec![0],
        vec![5, 17, 0, 19, 0],
        vec![4, 17, 0, 16, 0, 0, 0, 0],
        vec![1, 4, 17, 0, 16, 0, 0, 0, 0],
    ];
    network.front.actions = vec![vec![]];
    network.templates = vec![[0, 1], [0, 3], [1, 1], [0, 0], [1, 3]];
    for unit in [0, 1] {
        let pairs = CREATED[usize::from(unit)].map(|template| [0, template]);
        network.creating([0, 0, unit, 0, 0, 0], &pairs);
    }
    network.creating([0, 1, 1, 2, 0, 1], &[]);
    network
}

/// The templates of its checkers, by unit. The last one of sixty-four is the lowest of its call.
const CREATED: [[u8; 4]; 2] = [[3, 1, 0, 1], [4, 4, 4, 2]];

fn unit_of(number: u16) -> u8 {
    (number % 2) as u8
}

/// A call of `crowd`: its number and its entry position.
type Crowded = (u16, u32);

/// Calls of `crowd`, whose values are ten times their numbers behind 100: its line after an event.
fn crowded(front: &str, open: &[Crowded], rest: &str) -> String {
    let values: Vec<[i32; 1]> = open.iter().map(|(n, _)| [crowd_value(*n)]).collect();
    let calls = open.iter().zip(&values);
    let calls: Vec<Call> = calls
        .map(|((n, at), v)| (*n, unit_of(*n), *at, &v[..]))
        .collect();
    let checkers = open.iter().flat_map(|(n, _)| {
        let templates = CREATED[usize::from(unit_of(*n))];
        templates.map(|template| (*n, template))
    });
    let checkers: Vec<Checker> = checkers.collect();
    taken(front, &calls, &checkers, rest)
}

fn crowd_value(number: u16) -> i32 {
    10 * (i32::from(number) - 100)
}

/// Calls 100 to 115, entered one after the other.
fn crowd_calls() -> Vec<Crowded> {
    (100..=115).zip(1..).collect()
}

/// The same without one.
fn crowd_without(number: u16) -> Vec<Crowded> {
    let mut calls = crowd_calls();
    calls.retain(|(other, _)| *other != number);
    calls
}

/// Calls 100 to 115 open, of units 0 and 1 by turns, with four checkers each. Saves the state.
pub(crate) fn crowd_state(script: &mut Script) {
    script.sort = Sort::Filling;
    script.rules(&crowd().bytes());
    script.fresh("accepted");
    let calls = crowd_calls();
    for (count, (number, position)) in (1..).zip(&calls) {
        let line = crowded("", &calls[..count], &format!(" p={position}"));
        let event = entry(unit_of(*number), *number, &[crowd_value(*number)]);
        script.step(&event, &line);
    }
    script.save();
}

/// From none to sixty-four, each call left first, then all of them from the middle, front and end.
fn filling(script: &mut Script) {
    crowd_state(script);
    for unit in [0, 1] {
        script.offer(&entry(unit, 99, &[1]), "refused 14");
        script.offer(&entry(unit, 115, &[1]), "refused 13");
        script.offer(&exit(unit, 99, &[1]), "refused 15");
    }
    for (number, entered) in crowd_calls() {
        left_first(script, number, entered);
    }
    script.restore();
    let mut left = crowd_calls();
    for (number, position) in [
        101, 114, 115, 100, 108, 107, 102, 113, 103, 112, 104, 111, 105, 110, 106, 109,
    ]
    .iter()
    .zip(17..)
    {
        left.retain(|(other, _)| other != number);
        let line = crowded("", &left, &format!(" p={position}"));
        let event = exit(unit_of(*number), *number, &[crowd_value(*number)]);
        script.step(&event, &line);
    }
    refilling(script);
}

/// One of sixteen calls left with the value at entry, with another call's, and with one below 0.
fn left_first(script: &mut Script, number: u16, entered: u32) {
    let (unit, left) = (unit_of(number), crowd_without(number));
    script.offer(&exit(1 - unit, number, &[1]), "refused 15");
    let line = crowded("", &left, " p=17");
    script.offer(&exit(unit, number, &[crowd_value(number)]), &line);
    // Two templates fail below 0, of which the lower one is created later.
    let lowest = 2 * unit;
    let broken =
        |bad: &str| format!(" p=17 violated 17 state {bad} triple {lowest} entry {entered}");
    let other = crowd_value(100 + (number - 98) % 16);
    let line = crowded("", &left, &broken("-"));
    script.offer(&exit(unit, number, &[other]), &line);
    let line = match unit {
        0 => line,
        _ => crowded(" m=1", &left, &broken("1")),
    };
    script.offer(&exit(unit, number, &[-7]), &line);
}

/// Fifteen calls, then sixteen again, with the last place for the number that came again.
fn refilling(script: &mut Script) {
    for number in [107, 100, 115] {
        let (unit, mut open) = (unit_of(number), crowd_without(number));
        script.restore();
        let event = exit(unit, number, &[crowd_value(number)]);
        script.step(&event, &crowded("", &open, " p=17"));
        script.offer(&entry(unit, 108, &[1]), "refused 13");
        script.offer(&entry(1 - unit, number, &[1]), "taken");
        open.push((number, 18));
        let event = entry(unit, number, &[crowd_value(number)]);
        script.step(&event, &crowded("", &open, " p=18"));
        script.offer(&entry(unit, number + 100, &[1]), "refused 14");
    }
}

// ---- Values at entry --------------------------------------------------------------------------

fn values(script: &mut Script) {
    base_state(script);
    script.sort = Sort::Values;
    for (place, line) in [
        (0, "entry 0 k0.0=2 k0.1=1"),
        (1, "entry 1 k1.0=2 k1.1=1"),
        (2, "entry 2 k2.0=3 k2.1=4"),
        (3, "entry 3"),
        (63, "entry 63"),
        (64, "entry 64"),
        (255, "entry 255"),
    ] {
        script.ask(place, line);
    }
    unsound_values(script);
    // They stand in the state: the network is not asked.
    script.rules(&[]);
    script.restore();
    script.ask(0, FIRST.1);
    script.ask(2, THIRD.1);
    crowd_state(script);
    script.sort = Sort::Values;
    for place in (0..64).chain([64, 65, 128, 255]) {
        let value = crowd_value(100 + u16::from(place) / 4);
        let shown = match value {
            1.. if place < 64 => format!("entry {place} k{place}.0={value}"),
            _ => format!("entry {place}"),
        };
        script.ask(place, &shown);
    }
}

const LIVING: Field<Checkers> = Field::Own(Checkers::Living);

const fn bound(place: u8) -> Field<Checkers> {
    Field::Own(Checkers::Call(place))
}

/// What is set of the base's state, and lines that are asked for.
type Asked = (&'static [Set<Checkers>], &'static [(u8, &'static str)]);

const ZERO: (u8, &str) = (0, "entry 0");
const FIRST: (u8, &str) = (0, "entry 0 k0.0=2 k0.1=1");
const THIRD: (u8, &str) = (2, "entry 2 k2.0=3 k2.1=4");
const NO_THIRD: (u8, &str) = (2, "entry 2");

/// The counts of calls and checkers, which may be over 16 and 64.
const COUNTS: &[Asked] = &[
    (&[(Field::Open, 0)], &[ZERO, NO_THIRD]),
    (&[(Field::Open, 1)], &[FIRST, NO_THIRD]),
    (&[(Field::Open, 16)], &[FIRST, THIRD]),
    (&[(Field::Open, 17)], &[FIRST, THIRD]),
    (&[(Field::Open, 255)], &[FIRST, THIRD]),
    (&[(LIVING, 0)], &[ZERO, NO_THIRD]),
    (&[(LIVING, 2)], &[FIRST, NO_THIRD]),
    (&[(LIVING, 4)], &[THIRD, (3, "entry 3")]),
    (
        &[(LIVING, 255)],
        &[
            FIRST,
            (63, "entry 63"),
            (64, "entry 64"),
            (200, "entry 200"),
        ],
    ),
    // Number 0 behind the open calls, and in front.
    (
        &[(Field::Kept(2, 0), 5), (LIVING, 65)],
        &[(3, "entry 3"), (63, "entry 63")],
    ),
    (
        &[(Field::Kept(2, 0), 5), (LIVING, 65), (Field::Open, 3)],
        &[
            (3, "entry 3 k3.0=5"),
            (63, "entry 63 k63.0=5"),
            (64, "entry 64"),
        ],
    ),
];

/// The first of the open calls with the number, whatever else holds of them.
const CALLS: &[Asked] = &[
    (&[(Field::Number(1), 7)], &[FIRST, NO_THIRD]),
    (
        &[(Field::Number(0), 8)],
        &[ZERO, (2, "entry 2 k2.0=2 k2.1=1")],
    ),
    (&[(bound(0), 9), (bound(2), 264)], &[ZERO, NO_THIRD]),
    (
        &[(bound(0), 8), (bound(2), 7)],
        &[(0, "entry 0 k0.0=3 k0.1=4"), (2, "entry 2 k2.0=2 k2.1=1")],
    ),
    (
        &[(Field::Kept(0, 7), u32::MAX), (Field::Unit(0), 9)],
        &[(0, "entry 0 k0.0=2 k0.1=1 k0.7=-1")],
    ),
    (
        &[(Field::Own(Checkers::Template(2)), 255), (Field::Main, 255)],
        &[THIRD],
    ),
    (&[(Field::Both(9, 9), 9)], &[FIRST, THIRD]),
];

/// The sixteenth call counts where sixteen or more are open.
const SIXTEENTH: &[Asked] = &[
    (&[(Field::Open, 15)], &[ZERO]),
    (&[(Field::Open, 16)], &[(0, "entry 0 k0.3=-6")]),
    (&[(Field::Open, 200)], &[(0, "entry 0 k0.3=-6")]),
];

fn unsound_values(script: &mut Script) {
    for (fields, asked) in COUNTS.iter().chain(CALLS) {
        script.restore();
        script.set(fields);
        asked
            .iter()
            .for_each(|(place, line)| script.ask(*place, line));
    }
    for (fields, asked) in SIXTEENTH {
        script.restore();
        let last = [Field::Number(15), Field::Kept(15, 3), bound(0)];
        script.set(&[(last[0], 9), (last[1], -6_i32 as u32), (last[2], 9)]);
        script.set(fields);
        asked
            .iter()
            .for_each(|(place, line)| script.ask(*place, line));
    }
}

// ---- Soundness and positions ------------------------------------------------------------------

fn soundness(script: &mut Script) {
    shared_cases::base_soundness(script, BASE_CLAUSES);
    crowd_state(script);
    let usual = Events::new(entry(0, 9, &[1]), "refused 14", exit(0, 102, &[20]));
    shared_cases::clauses(script, CROWD_CLAUSES, &usual);
    shared_cases::tiny_soundness(script, TINY_CLAUSES);
    shared_cases::edge_soundness(script, EDGE_CLAUSES);
}

fn positions(script: &mut Script) {
    shared_cases::positions(script);
    let (seven, eight): (Call, Call) = ((7, 0, 1, &[2, 1]), (8, 1, 2, &[3, 4]));
    let nine: Call = (9, 0, LAST, &[1, 3]);
    let (of_seven, of_eight) = ([(7, 0), (7, 3)], [(8, 4)]);
    let of_nine = [(9, 0), (9, 1), (9, 3), (9, 5)];
    let mut last = |event: Record, line: String, after: u8| {
        let state = line.trim_start_matches("taken ");
        shared_cases::last_event(script, &event, state, after);
    };
    let row = [&of_seven[..], &of_eight, &of_nine].concat();
    let line = taken(" x0=6 x1=-1", &[seven, eight, nine], &row, " p=4294967295");
    last(entry(0, 9, &[1, 3]), line, 12);
    let line = taken(" x0=6 x1=-1", &[eight], &of_eight, " p=4294967295");
    last(exit(0, 7, &[2, 2]), line, 12);
    let end = " p=4294967295 violated 4294967295 state ";
    let line = taken(
        " m=1 x0=7 x1=-1",
        &[eight],
        &of_eight,
        &format!("{end}- triple 0 entry 1"),
    );
    last(exit(0, 7, &[2, 3]), line, 10);
    for (value, template, entered) in [(3, "-", 0), (2, "4", 2)] {
        let rest = format!("{end}2 triple {template} entry {entered}");
        let line = taken(" m=2 x0=6 x1=-1", &[seven], &of_seven, &rest);
        last(exit(1, 8, &[1, value]), line, 10);
    }
}

// ---- Refusals ---------------------------------------------------------------------------------

fn refusals_together(script: &mut Script) {
    base_state(script);
    shared_cases::together(script, &shared_cases::asks_of_two(), 0);
    full_state(script);
    shared_cases::together(script, &shared_cases::asks_of_sixteen(), 1);
    shared_cases::arguments(script);
}

/// One of everything in as few bytes as go: one state, unit, condition, action, pair and template.
pub(crate) fn least(program: u8, initial: &[i32]) -> NetworkDraft {
    let mut network = NetworkDraft::new(1, 1, program, initial);
    network.front.conditions = vec![vec![0]];
    network.front.actions = vec![vec![]];
    network.creating([0; 6], &[[0, 0]]);
    network.templates = vec![[0, 0]];
    network
}

/// Networks that are refused, each with its number: from the least of a version and a good one of it.
pub(crate) fn refused_networks(least: Least, good: &[u8]) -> Vec<(u8, Vec<u8>)> {
    let small = NetworkDraft::new(1, 1, 0, &[]).bytes();
    let mut networks = vec![
        (1, Vec::new()),
        (1, small[..13].to_vec()),
        (1, [&small[..], &[0]].concat()),
        (1, good[..good.len() - 1].to_vec()),
        // Sheets.
        (2, tiny().bytes()),
        (2, base().bytes()),
    ];
    let mut change = |number: u8, change: &dyn Fn(&mut NetworkDraft)| {
        let mut network = least(0, &[]);
        change(&mut network);
        networks.push((number, network.bytes()));
    };
    change(2, &|d| d.front.version = 1);
    change(2, &|d| d.front.version = 4);
    change(3, &|d| d.front.states = 17);
    change(3, &|d| d.front.units = 0);
    change(3, &|d| d.front.start = 1);
    change(4, &|d| d.transitions[0].1 = vec![[0, 0]; 5]);
    change(4, &|d| d.front.conditions[0].clear());
    change(5, &|d| d.front.conditions[0] = vec![7]);
    change(5, &|d| d.front.actions[0] = vec![0, 18, 0]);
    change(6, &|d| d.transitions[0].1[0] = [1, 0]);
    change(6, &|d| d.transitions[0].1[0] = [0, 1]);
    // Pairs on an exit; a template of another unit.
    change(6, &|d| d.transitions[0].0[1] = 1);
    change(6, &|d| {
        d.front.units = 2;
        d.templates[0][0] = 1;
    });
    networks.extend(refused_roles(least));
    networks
}

/// Makes a network with these many program variables and these monitor variables.
pub(crate) type Least = fn(u8, &[i32]) -> NetworkDraft;

/// Refused with 7: a value at entry in a pair's condition, alone and beside a monitor variable, in a guard
/// and in an action; a monitor variable in a template's condition.
fn refused_roles(least: Least) -> Vec<(u8, Vec<u8>)> {
    let (at_entry, monitor) = (vec![5, 19, 0, 19, 0], vec![5, 18, 0, 18, 0]);
    let both = vec![5, 18, 0, 19, 0];
    let with = |condition: &[u8], place: fn(&mut NetworkDraft) -> &mut u8| {
        let mut network = least(1, &[0]);
        network.front.conditions.push(condition.to_vec());
        *place(&mut network) = 1;
        (7, network.bytes())
    };
    let mut action = least(1, &[0]);
    action.front.actions[0] = vec![0, 19, 0];
    vec![
        with(&at_entry, |d| &mut d.transitions[0].1[0][0]),
        with(&at_entry, |d| &mut d.transitions[0].0[3]),
        with(&both, |d| &mut d.transitions[0].1[0][0]),
        with(&monitor, |d| &mut d.templates[0][1]),
        (7, action.bytes()),
    ]
}

fn reading(script: &mut Script) {
    let good = Network::of_sheet(&base());
    shared_cases::reading(script, &refused_networks(least, &good));
}

fn reading_before_entries(script: &mut Script) {
    let good = Network::of_sheet(&base());
    entry_clauses::reading(script, &refused_networks(least, &good));
}

// ---- Logs -------------------------------------------------------------------------------------

/// On networks that no sheet has.
fn logs_by_hand(script: &mut Script) {
    script.sort = Sort::Log;
    script.rules(&hand().bytes());
    let mut run = |records: &[Record], line: &str| script.run_records(1, records, line);
    let (seven, eight) = (entry(0, 7, &[3]), entry(0, 8, &[3]));
    run(&[entry(1, 7, &[3])], "violated 1 state 2 triple - entry -");
    run(std::slice::from_ref(&seven), "clean 1 state 1 open 1");
    let exits: [(Record, &str); 9] = [
        (exit(0, 8, &[9]), "clean 3 state 0 open 1"),
        (exit(0, 8, &[4]), "violated 3 state 2 triple - entry -"),
        (exit(0, 8, &[3]), "violated 3 state 2 triple 1 entry 2"),
        (exit(0, 7, &[9]), "violated 3 state - triple 0 entry 1"),
        (exit(0, 7, &[2]), "violated 3 state 2 triple 0 entry 1"),
        (exit(1, 7, &[9]), "refused 15 at 3"),
        (exit(0, 9, &[9]), "refused 15 at 3"),
        (entry(1, 8, &[9]), "refused 13 at 3"),
        (event(2, 0, 9, &[9]), "refused 11 at 3"),
    ];
    for (last, line) in exits {
        let records = [seven.clone(), eight.clone(), last];
        run(&records, line);
        // The calls within another, which stays open.
        let outer = [&[entry(0, 1, &[9])], &records[..]].concat();
        run(&outer, &later(line));
    }
    crowd_logs(script);
}

/// A run's line where one event more came first and one call more is open.
fn later(line: &str) -> String {
    let line = line.replace(" 3 state", " 4 state").replace("at 3", "at 4");
    let line = line
        .replace("entry 2", "entry 3")
        .replace("entry 1", "entry 2");
    line.replace("open 1", "open 2")
}

/// Sixty-four checkers: every call left, or one of them with another value.
fn crowd_logs(script: &mut Script) {
    script.rules(&crowd().bytes());
    let of = |make: fn(u8, u16, &[i32]) -> Record, number: u16| {
        make(unit_of(number), number, &[crowd_value(number)])
    };
    let entries: Vec<Record> = (100..=115).map(|n| of(entry, n)).collect();
    let exits: Vec<Record> = (0..16).map(|n| of(exit, 100 + n * 5 % 16)).collect();
    let records = [entries, exits].concat();
    script.run_records(1, &records[..16], "clean 16 state 0 open 16");
    script.run_records(1, &records, "clean 32 state 0 open 0");
    let mut wrong = |place: usize, value: i32, line: &str| {
        let mut records = records.clone();
        records[place].values = vec![value];
        script.run_records(1, &records, line);
    };
    wrong(16, 1, "violated 17 state - triple 0 entry 1");
    wrong(17, -1, "violated 18 state 1 triple 2 entry 6");
    wrong(31, 1, "violated 32 state - triple 2 entry 12");
    let mut full = records[..16].to_vec();
    full.push(entry(0, 99, &[0]));
    script.run_records(1, &full, "refused 14 at 17");
    full[16].call = 100;
    script.run_records(1, &full, "refused 13 at 17");
}

// ---- Random cases -----------------------------------------------------------------------------

const SEED: u64 = 0x5741_5443_4807;
/// Generated networks; every third is translated from a sheet.
const NETWORKS: usize = 21;
/// The longest generated network, to keep the file small.
const LONGEST: usize = 130;

/// With several pairs on an entry from the start state, and exits that lead to a bad state.
pub(crate) fn random_network(random: &mut Random) -> NetworkDraft {
    loop {
        let draft = generate::network(random, Size::Small);
        let start = draft.front.start;
        let bad = |state: u8| draft.front.bad & (1 << state) != 0;
        let transitions = draft.transitions.iter();
        let creates = transitions
            .clone()
            .any(|(t, pairs)| t[0] == start && pairs.len() > 1);
        let checked = |unit: u8| draft.templates.iter().any(|t| t[0] == unit);
        let mut exits = transitions.filter(|(t, _)| t[1] == 1);
        let ends_badly = exits.any(|(t, _)| checked(t[2]) && bad(t[5]));
        let short = draft.bytes().len() <= LONGEST;
        if creates && ends_badly && draft.templates.len() > 1 && short {
            return draft;
        }
    }
}

fn random_cases(script: &mut Script) {
    let mut random = Random::new(SEED);
    for number in 0..NETWORKS {
        let bytes = match number % 3 {
            0 => Network::of_sheet(&random_sheet(&mut random)),
            _ => random_network(&mut random).bytes(),
        };
        on_rules(script, &mut random, &bytes);
    }
    let greatest = greatest_network(&generate::sheet(&mut random, Size::Full));
    on_rules(script, &mut random, &greatest.bytes());
}

// ---- All --------------------------------------------------------------------------------------

/// The chosen cases on networks that are accepted, but for the refusals together.
const CHOSEN: [fn(&mut Script); 10] = [
    document,
    creating,
    pairs,
    nesting,
    filling,
    values,
    soundness,
    positions,
    shared_cases::logs,
    logs_by_hand,
];

/// The refusals together, and what 9 asks about entry positions: of version 2 and of version 3.
fn refusals() -> [Page; 2] {
    let [calls, sixteen, verdicts, others] = entry_clauses::parts();
    let parts = [
        refusals_together,
        calls,
        sixteen,
        entry_clauses::of_sixty_four,
        verdicts,
        others,
    ];
    let carried_over = card_cases::page_in_version_3(&Script::of(&parts));
    let reading = Script::of(&[card_cases::reading_before_entries]);
    [
        Script::of(&[&parts[..], &[reading_before_entries]].concat()),
        carried_over.into_iter().chain(reading).collect(),
    ]
}

/// Where calls were entered: of version 2, random ones of both; then of version 3.
fn entries() -> [Page; 4] {
    let long = entry_positions::long_page::<Network>();
    let carried_over = [entry_positions::chosen::<Network>(), long];
    let [chosen, long_cards] = carried_over.each_ref().map(card_cases::page_in_version_3);
    let [_, long] = carried_over;
    [entry_positions::page::<Network>(), long, chosen, long_cards]
}

/// How many operators and operands are evaluated: of version 2, then of version 3.
fn counts() -> Vec<Page> {
    let of = |form: Form| {
        let rivals = tried_counts::rivals_page::<Network>(form);
        let events = judged_counts::events_page::<Network>(form);
        let others = tried_counts::others::<Network>(form).into_iter();
        let runs = judged_counts::runs::<Network>(form);
        let last = others.chain(runs).chain(judged_counts::of_networks(form));
        [rivals, events, last.collect()]
    };
    [Form::Version2, Form::Version3]
        .into_iter()
        .flat_map(of)
        .collect()
}

pub fn all() -> Vec<Page> {
    let first = Script::of(&[&CHOSEN[..], &[reading, random_cases]].concat());
    let carried_over = Script::of(&CHOSEN);
    let ends = script_ends::chosen::<Network>();
    [
        vec![first],
        wide_cases::pages::<Network>(),
        vec![script_ends::page::<Network>()],
        card_cases::pages(&carried_over),
        vec![card_cases::page_in_version_3(&ends)],
        counting_pairs::pages().into(),
        refusals().into(),
        entries().into(),
        counts(),
    ]
    .into_iter()
    .flatten()
    .collect()
}
