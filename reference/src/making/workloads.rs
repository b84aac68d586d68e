//! Sheets and logs for the benchmark. Every log is clean to its end, so that each event is taken.

use crate::implementation::expr::{Action, Assignment, Condition, Value};
use crate::implementation::machine::Kind;
use crate::implementation::run::{write_log, Record};
use crate::making::cases::sheet_cases::SHEET_A;
use crate::making::draft::SheetDraft;

pub struct Workload {
    pub name: String,
    pub sheet: Vec<u8>,
    pub log: Vec<u8>,
    pub events: usize,
}

impl Workload {
    fn new(name: String, sheet: &[u8], program: u8, records: &[Record]) -> Workload {
        Workload {
            name,
            sheet: sheet.to_vec(),
            log: write_log(program, records),
            events: records.len(),
        }
    }
}

fn record(kind: Kind, unit: u8, call: u16, values: &[i32]) -> Record {
    Record {
        kind: kind.byte(),
        unit,
        call,
        values: values.to_vec(),
    }
}

/// How many events a log has where something else is varied.
const USUAL: usize = 1_000;

// ---- Sheet A ----------------------------------------------------------------------------------

/// Calls of sheet A's unit that load what they declared. At most `open` are open at a time, and the
/// oldest ends first.
fn calls_on_a(events: usize, open: usize) -> Vec<Record> {
    let entry = |call: usize| record(Kind::Entry, 0, call as u16, &[8, 0]);
    let exit = |call: usize| record(Kind::Exit, 0, call as u16, &[8, 8]);
    let mut records: Vec<Record> = (0..open - 1).map(entry).collect();
    for call in open - 1.. {
        if records.len() + 2 > events {
            break;
        }
        records.push(entry(call));
        records.push(exit(call + 1 - open));
    }
    records
}

pub fn log_lengths() -> Vec<Workload> {
    let workload = |events: usize| {
        let name = format!("A, {events} events");
        Workload::new(name, &SHEET_A, 2, &calls_on_a(events, 1))
    };
    [100, 1_000, 10_000].map(workload).into()
}

pub fn open_calls() -> Vec<Workload> {
    let workload = |open: usize| {
        let name = format!("A, {open} open");
        Workload::new(name, &SHEET_A, 2, &calls_on_a(USUAL, open))
    };
    [1, 2, 4, 8, 12, 16].map(workload).into()
}

// ---- Sheets of all sizes ----------------------------------------------------------------------

/// Sheet A, and sheets all of whose counts and lengths grow together to their limits.
pub fn sheet_sizes() -> Vec<Workload> {
    let a = Workload::new("A, 39 bytes".into(), &SHEET_A, 2, &calls_on_a(USUAL, 1));
    let larger = [2, 4, 8, 16].map(|n| {
        let (draft, bytes) = (grown(n), grown(n).bytes());
        let name = format!("{n} states, {} bytes", bytes.len());
        Workload::new(name, &bytes, draft.front.program, &rounds(&draft, USUAL))
    });
    [a].into_iter().chain(larger).collect()
}

/// A sheet with n states and units, 4n transitions, 2n triples, and 4n conditions of 4n bytes. In
/// state s, unit s has two entry transitions back to s and two exit transitions to the next state:
/// the first of each has a guard that fails at its end, the second one that holds. Two triples are
/// armed at its entry. Every byte of a condition that is reached is evaluated.
fn grown(n: u8) -> SheetDraft {
    let monitors = vec![1; usize::from(n / 4)];
    let mut draft = SheetDraft::new(n, n, n / 2, &monitors);
    let length = 4 * usize::from(n);
    for i in 0..2 * n {
        let guard = grown_condition(i % 2 == 1, (guard_leaf(&draft, i), None), length);
        draft.condition(&guard);
    }
    for i in 0..2 * n {
        let program = Value::Program(i % draft.front.program);
        let at_entry = Value::AtEntry(i % draft.front.program);
        let other = (i >= n).then_some(at_entry);
        draft.condition(&grown_condition(true, (program, other), length));
    }
    for i in 0..2 * n {
        let action = grown_action(&draft, i, length);
        draft.action(&action);
    }
    for state in 0..n {
        let guards = (2 * state, 2 * state + 1);
        for (kind, to) in [(Kind::Entry, state), (Kind::Exit, (state + 1) % n)] {
            draft.transition(state, to, (kind, state), guards.0, guards.0);
            draft.transition(state, to, (kind, state), guards.1, guards.1);
        }
        for _ in 0..2 {
            draft.triple(state, state, 2 * n + state, 3 * n + state);
        }
    }
    draft
}

fn guard_leaf(draft: &SheetDraft, i: u8) -> Value {
    match draft.front.monitor {
        0 => Value::Program(i % draft.front.program),
        monitors => Value::Monitor(i % monitors),
    }
}

/// A condition of this even length that evaluates all of itself: a chain of comparisons of a value
/// with itself, or with another that is equal to it.
fn grown_condition(holds: bool, (leaf, other): (Value, Option<Value>), length: usize) -> Condition {
    let pair = || {
        (
            Box::new(leaf.clone()),
            Box::new(other.clone().unwrap_or_else(|| leaf.clone())),
        )
    };
    let equal = || Condition::Equal(pair().0, pair().1);
    let not = |c: Condition| Condition::Not(Box::new(c));
    let last = if holds {
        Condition::Less(pair().0, pair().1)
    } else {
        equal()
    };
    let mut condition = not(last);
    while condition.bytes().len() + 6 <= length {
        condition = Condition::And(Box::new(equal()), Box::new(condition));
    }
    while condition.bytes().len() < length {
        condition = not(not(condition));
    }
    condition
}

/// An action of this length: sums, then what fills it up. It is empty without monitor variables.
fn grown_action(draft: &SheetDraft, i: u8, length: usize) -> Action {
    let (monitors, programs) = (draft.front.monitor, draft.front.program);
    if monitors == 0 {
        return Action::default();
    }
    let own = || Box::new(Value::Monitor(i % monitors));
    // Assignments of 7, 6 and 3 bytes.
    let chosen = Value::Choose(Box::new(Condition::True), own(), own());
    let sum = Value::Plus(own(), Box::new(Value::Program(i % programs)));
    let rest = length - 7 * (length % 3);
    let values = [
        vec![chosen; length % 3],
        vec![sum; rest / 6],
        vec![*own(); rest % 6 / 3],
    ];
    let assign = |value: Value| Assignment {
        variable: i % monitors,
        value,
    };
    Action {
        assignments: values.concat().into_iter().map(assign).collect(),
    }
}

/// One call after the other: in each state the call of its unit, which leads to the next state.
fn rounds(draft: &SheetDraft, events: usize) -> Vec<Record> {
    let values = vec![5; draft.front.program.into()];
    let call = |number: usize| {
        let unit = (number % usize::from(draft.front.states)) as u8;
        [Kind::Entry, Kind::Exit].map(|kind| record(kind, unit, number as u16, &values))
    };
    (0..events / 2).flat_map(call).collect()
}

// ---- The size of Mondex -----------------------------------------------------------------------

/// What source document 003 reports for so many transactions, in milliseconds: no monitoring,
/// monitoring S, monitoring S'.
pub const MONDEX_REPORTED: [(usize, [u32; 3]); 3] = [
    (10, [8, 120, 15]),
    (100, [50, 3_500, 90]),
    (1_000, [250, 330_000, 375]),
];

const START_FROM: u8 = 0;
const START_TO: u8 = 1;
const REQUEST: u8 = 2;
const VALUE: u8 = 3;
const ACKNOWLEDGE: u8 = 4;
const END: u8 = 5;

const IDLE: u8 = 0;
const SENDER: u8 = 1;
const RECEIVER: u8 = 2;
const PARTIES: u8 = 3;
const DEDUCTED: u8 = 4;
const DEPOSITED: u8 = 5;
const AWAITING_END: u8 = 6;
/// States 7 and 8 are for what did not come to its end.
const GOOD_STATES: u8 = 9;
const BAD: u8 = 9;

/// The protocol's steps: state, unit, next state.
const STEPS: [(u8, u8, u8); 8] = [
    (IDLE, START_FROM, SENDER),
    (IDLE, START_TO, RECEIVER),
    (SENDER, START_TO, PARTIES),
    (RECEIVER, START_FROM, PARTIES),
    (PARTIES, REQUEST, DEDUCTED),
    (DEDUCTED, VALUE, DEPOSITED),
    (DEPOSITED, ACKNOWLEDGE, AWAITING_END),
    (AWAITING_END, END, IDLE),
];

/// Program variables: the result, the balance, the value, whether the transaction is the same, the
/// party. Results: success, ignored.
const RESULT: u8 = 0;
const BALANCE: u8 = 1;
const AMOUNT: u8 = 2;
const SAME: u8 = 3;
const PARTY: u8 = 4;
const SUCCESS: i32 = 0;
const IGNORED: i32 = 1;

fn equals(variable: u8, value: Value) -> Condition {
    Condition::Equal(Box::new(Value::Program(variable)), Box::new(value))
}

fn both(a: Condition, b: Condition) -> Condition {
    Condition::And(Box::new(a), Box::new(b))
}

fn not(a: Condition) -> Condition {
    Condition::Not(Box::new(a))
}

/// A sheet of the size of 003's case: 10 states, 25 transitions, 26 triples. Its figure is lost in
/// the text, so the states, the steps and the triples' places are ours, after its description.
fn mondex() -> SheetDraft {
    let mut draft = SheetDraft::new(10, 6, 5, &[0]);
    draft.front.bad = 1 << BAD;
    mondex_transitions(&mut draft);
    mondex_triples(&mut draft);
    draft
}

/// The 8 steps at exits that succeed, for the value of the ongoing transaction; from each good
/// state to the bad one, 9 for a success of a party that is not expected, and, but from the one
/// that awaits it, 8 for the end.
fn mondex_transitions(draft: &mut SheetDraft) {
    let success = || equals(RESULT, Value::Constant(SUCCESS));
    let first = draft.condition(&success());
    let ongoing = draft.condition(&both(success(), equals(AMOUNT, Value::Monitor(0))));
    let stranger = not(equals(PARTY, Value::Constant(0)));
    let stranger = draft.condition(&both(success(), stranger));
    let nothing = draft.action(&Action::default());
    let keep = draft.action(&Action {
        assignments: vec![Assignment {
            variable: 0,
            value: Value::Program(AMOUNT),
        }],
    });
    for state in 0..GOOD_STATES {
        draft.transition(state, BAD, (Kind::Exit, state % 6), stranger, nothing);
    }
    for (from, unit, to) in STEPS {
        let (guard, action) = if from == IDLE {
            (first, keep)
        } else {
            (ongoing, nothing)
        };
        draft.transition(from, to, (Kind::Exit, unit), guard, action);
    }
    for state in (0..GOOD_STATES).filter(|state| *state != AWAITING_END) {
        draft.transition(state, BAD, (Kind::Exit, END), first, nothing);
    }
}

/// A triple for each of the 8 steps, and 18 that ask for the result `ignored` of the three
/// operations on money in the states that do not expect them.
fn mondex_triples(draft: &mut SheetDraft) {
    let left = Value::Minus(
        Box::new(Value::Constant(32_767)),
        Box::new(Value::Program(BALANCE)),
    );
    let over = Condition::Less(Box::new(left), Box::new(Value::Program(AMOUNT)));
    let fits = both(equals(SAME, Value::Constant(SUCCESS)), not(over));
    let fits = draft.condition(&fits);
    let (balance, amount) = (Value::AtEntry(BALANCE), Value::AtEntry(AMOUNT));
    let moved = [
        balance.clone(),
        Value::Minus(Box::new(balance.clone()), Box::new(amount.clone())),
        Value::Plus(Box::new(balance), Box::new(amount)),
    ];
    let [kept, less, more] = moved.map(|value| {
        let success = equals(RESULT, Value::Constant(SUCCESS));
        draft.condition(&both(success, equals(BALANCE, value)))
    });
    let ignored = draft.condition(&equals(RESULT, Value::Constant(IGNORED)));
    for (state, unit, _) in STEPS {
        let postcondition = match unit {
            REQUEST => less,
            VALUE => more,
            _ => kept,
        };
        draft.triple(state, unit, fits, postcondition);
    }
    for (unit, expected) in [
        (REQUEST, PARTIES),
        (VALUE, DEDUCTED),
        (ACKNOWLEDGE, DEPOSITED),
    ] {
        for state in (IDLE..=AWAITING_END).filter(|state| *state != expected) {
            draft.triple(state, unit, fits, ignored);
        }
    }
}

/// The six calls of a transaction, each an entry and an exit.
fn transaction(number: usize) -> Vec<Record> {
    let amount = (number % 50 + 1) as i32;
    let units = [START_FROM, START_TO, REQUEST, VALUE, ACKNOWLEDGE, END];
    let call = |unit: u8| {
        let after = match unit {
            REQUEST => 1_000 - amount,
            VALUE => 1_000 + amount,
            _ => 1_000,
        };
        let values = |balance: i32| [SUCCESS, balance, amount, SUCCESS, 0];
        let number = (6 * number + usize::from(unit)) as u16;
        [
            record(Kind::Entry, unit, number, &values(1_000)),
            record(Kind::Exit, unit, number, &values(after)),
        ]
    };
    units.into_iter().flat_map(call).collect()
}

pub fn mondex_runs() -> Vec<Workload> {
    let draft = mondex();
    let workload = |(transactions, _): (usize, [u32; 3])| {
        let records: Vec<Record> = (0..transactions).flat_map(transaction).collect();
        let name = format!("{transactions} transactions");
        Workload::new(name, &draft.bytes(), draft.front.program, &records)
    };
    MONDEX_REPORTED.map(workload).into()
}
