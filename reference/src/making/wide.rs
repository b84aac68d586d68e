//! Wide sheets and their logs: as many variables as there can be, of which the last alone decide;
//! units 8 to 15; call numbers over 255 that differ in one byte.

use crate::implementation::engine::Engine;
use crate::implementation::expr::{Action, Assignment, Condition, Value};
use crate::implementation::machine::{Kind, MOST_MONITOR, MOST_PROGRAM, MOST_UNITS};
use crate::implementation::run::{write_log, Record};
use crate::implementation::state::Call;
use crate::making::draft::SheetDraft;
use crate::making::random::Random;

/// The last program value, kept or not.
pub const LAST_VALUE: u8 = MOST_PROGRAM - 1;
pub const LAST_VARIABLE: u8 = MOST_MONITOR - 1;
/// The units from here on have rules.
pub const FIRST_UNIT: u8 = 8;
/// How often an event is drawn again that would end the run.
const TRIES: usize = 16;

// ---- Sheets -----------------------------------------------------------------------------------

/// Where a condition stands, and so what it may name.
#[derive(Clone, Copy)]
pub(crate) enum Role {
    Guard,
    Precondition,
    Postcondition,
}

/// States 0 and 1, and the bad one.
const STATES: u8 = 3;
const BAD: u8 = 2;
/// Of the conditions from 1 on; condition 0 is `true`.
const ROLES: [Role; 5] = [
    Role::Guard,
    Role::Guard,
    Role::Precondition,
    Role::Postcondition,
    Role::Postcondition,
];
/// The numbers of the conditions by role, some more often than others.
const GUARDS: [u8; 5] = [0, 1, 1, 2, 2];
const PRECONDITIONS: [u8; 3] = [0, 3, 3];
const POSTCONDITIONS: [u8; 2] = [4, 5];

/// The units that a sheet has rules for.
pub fn units(random: &mut Random) -> [u8; 3] {
    let last = usize::from(MOST_UNITS - 1);
    [(); 3].map(|()| random.between(FIRST_UNIT.into(), last) as u8)
}

/// A sheet with rules for these units.
pub fn sheet(random: &mut Random, units: &[u8]) -> SheetDraft {
    let initial: Vec<i32> = (0..MOST_MONITOR).map(|_| small(random)).collect();
    let mut draft = SheetDraft::new(STATES, MOST_UNITS, MOST_PROGRAM, &initial);
    draft.front.bad = 1 << BAD;
    draft.condition(&Condition::True);
    for role in ROLES {
        draft.condition(&condition(random, role));
    }
    draft.front.actions = vec![Vec::new(), action(random).bytes(), action(random).bytes()];
    add_transitions(random, units, &mut draft);
    add_triples(random, units, &mut draft);
    draft
}

fn small(random: &mut Random) -> i32 {
    random.below(6) as i32 - 1
}

fn constant(random: &mut Random) -> Box<Value> {
    Box::new(Value::Constant(small(random)))
}

/// The last of the variables that a role may name.
fn last(random: &mut Random, role: Role) -> Box<Value> {
    let value = match (role, random.chance(2, 3)) {
        (Role::Guard | Role::Precondition, true) => Value::Monitor(LAST_VARIABLE),
        (Role::Postcondition, true) => Value::AtEntry(LAST_VALUE),
        _ => Value::Program(LAST_VALUE),
    };
    Box::new(value)
}

fn condition(random: &mut Random, role: Role) -> Condition {
    let first = comparison(random, role);
    let (first, choice) = (Box::new(first), random.below(8));
    match choice {
        0 => Condition::Not(first),
        1 => Condition::And(first, Box::new(comparison(random, role))),
        2 => Condition::Or(first, Box::new(comparison(random, role))),
        _ => *first,
    }
}

fn comparison(random: &mut Random, role: Role) -> Condition {
    let (mut a, mut b) = (last(random, role), value(random, role));
    if random.chance(1, 2) {
        std::mem::swap(&mut a, &mut b);
    }
    match random.below(3) {
        0 => Condition::Less(a, b),
        1 => Condition::Equal(a, b),
        _ => Condition::Within(a, b, Box::new(Value::Constant(random.below(3) as i32))),
    }
}

fn value(random: &mut Random, role: Role) -> Box<Value> {
    let value = match random.below(8) {
        0 => Value::Plus(last(random, role), constant(random)),
        1 => Value::Minus(last(random, role), constant(random)),
        2 => {
            let less = Condition::Less(last(random, role), constant(random));
            Value::Choose(Box::new(less), last(random, role), constant(random))
        }
        3 | 4 => return last(random, role),
        5 => Value::Program(LAST_VALUE),
        _ => return constant(random),
    };
    Box::new(value)
}

/// The last variable from the last value, itself or both; sometimes another variable from it.
fn action(random: &mut Random) -> Action {
    let mut assignments = vec![Assignment {
        variable: LAST_VARIABLE,
        value: *value(random, Role::Guard),
    }];
    if random.chance(1, 2) {
        assignments.push(Assignment {
            variable: random.below(usize::from(LAST_VARIABLE)) as u8,
            value: Value::Monitor(LAST_VARIABLE),
        });
    }
    Action { assignments }
}

/// An entry and an exit of each unit that lead on; exits lead to the bad state too.
fn add_transitions(random: &mut Random, units: &[u8], draft: &mut SheetDraft) {
    let kinds = [(Kind::Entry, BAD), (Kind::Exit, STATES)];
    for (unit, (kind, targets)) in units
        .iter()
        .flat_map(|unit| kinds.map(|kind| (*unit, kind)))
    {
        let (from, to) = (good_state(random), random.below(targets.into()) as u8);
        let action = random.below(draft.front.actions.len()) as u8;
        draft.transition(from, to, (kind, unit), random.pick(&GUARDS), action);
    }
}

fn good_state(random: &mut Random) -> u8 {
    random.below(BAD.into()) as u8
}

/// Mostly one or two for each unit.
fn add_triples(random: &mut Random, units: &[u8], draft: &mut SheetDraft) {
    for unit in units.repeat(2) {
        let state = good_state(random);
        let together = |t: &&[u8; 4]| t[..2] == [state, unit];
        // The units may be the same, and there are at most four of a state and unit.
        let room = draft.triples.iter().filter(together).count() < 4;
        if room && random.chance(3, 4) {
            let precondition = random.pick(&PRECONDITIONS);
            draft.triple(state, unit, precondition, random.pick(&POSTCONDITIONS));
        }
    }
}

// ---- Events -----------------------------------------------------------------------------------

/// Call numbers over 255: with each there is one that differs in the low byte only, and two that
/// differ in the high byte only.
pub fn numbers(random: &mut Random) -> [u16; 6] {
    let high = random.between(1, 252) as u16;
    let low = random.below(255) as u16;
    let number = |h: u16, l: u16| (high + h) << 8 | (low + l);
    let mut numbers = [(0, 0), (1, 0), (0, 1), (1, 1), (3, 0), (3, 1)].map(|(h, l)| number(h, l));
    if random.chance(1, 2) {
        numbers.reverse();
    }
    numbers
}

/// Seven values that no rule names, and one that decides.
pub fn values(random: &mut Random) -> Vec<i32> {
    let mut values: Vec<i32> = (0..LAST_VALUE).map(|_| noise(random)).collect();
    values.push(last_value(random));
    values
}

fn noise(random: &mut Random) -> i32 {
    match random.below(10) {
        0 => random.word(),
        _ => random.between(10, 99) as i32,
    }
}

pub fn last_value(random: &mut Random) -> i32 {
    match random.below(12) {
        0 => random.word(),
        _ => small(random),
    }
}

/// Of one of these units; sometimes of the one that is 8 less, which has no rules.
fn entry(random: &mut Random, units: &[u8], call: u16) -> Record {
    let unit = random.pick(units);
    let none = random.chance(1, 6);
    Record {
        kind: Kind::Entry.byte(),
        unit: if none { unit - FIRST_UNIT } else { unit },
        call,
        values: values(random),
    }
}

fn exit(random: &mut Random, call: &Call) -> Record {
    Record {
        kind: Kind::Exit.byte(),
        unit: call.unit,
        call: call.number,
        values: values(random),
    }
}

/// The number with another high or low byte.
pub fn other_byte(random: &mut Random, number: u16) -> u16 {
    let change = random.pick(&[1, 2, 3]);
    number
        ^ if random.chance(1, 2) {
            change << 8
        } else {
            change
        }
}

// ---- Logs -------------------------------------------------------------------------------------

/// The records so far, and the state that they have led to.
struct Walk<'a, E: Engine> {
    rules: &'a E,
    state: E::State,
    records: Vec<Record>,
}

impl<E: Engine> Walk<'_, E> {
    fn open(&self) -> &[Call] {
        E::common(&self.state).open_calls()
    }

    /// Adds a record; the state stays where it is refused.
    fn add(&mut self, record: Record) {
        if let Ok(next) = self.rules.event(&self.state, &record.event()) {
            self.state = next;
        }
        self.records.push(record);
    }

    /// Adds a record, drawn again a few times where it would end the run.
    fn add_calm(&mut self, random: &mut Random, draw: impl Fn(&mut Random) -> Record) {
        let mut record = draw(random);
        for _ in 0..TRIES {
            if !self.ends(&record) {
                break;
            }
            record = draw(random);
        }
        self.add(record);
    }

    fn all_taken(&self) -> bool {
        E::common(&self.state).position as usize == self.records.len()
    }

    fn ends(&self, record: &Record) -> bool {
        let next = self.rules.event(&self.state, &record.event());
        next.is_ok_and(|next| E::common(&next).verdict.is_some())
    }
}

fn walk<E: Engine>(rules: &E) -> Walk<'_, E> {
    Walk {
        rules,
        state: rules.fresh(),
        records: Vec::new(),
    }
}

/// The orders in which four calls can be left.
pub fn orders() -> Vec<[usize; 4]> {
    let places = |code: usize| [code / 64, code / 16 % 4, code / 4 % 4, code % 4];
    let all_differ = |order: &[usize; 4]| (0..4).all(|place| order.contains(&place));
    (0..256).map(places).filter(all_differ).collect()
}

/// Four calls, left in an order by their places; drawn again a few times where the run ends before
/// the last exit.
pub fn four_calls<E: Engine>(
    random: &mut Random,
    rules: &E,
    units: &[u8],
    order: [usize; 4],
) -> Vec<Record> {
    let mut walk = left_in_order(random, rules, units, order);
    for _ in 0..TRIES {
        if walk.all_taken() {
            break;
        }
        walk = left_in_order(random, rules, units, order);
    }
    walk.records
}

fn left_in_order<'a, E: Engine>(
    random: &mut Random,
    rules: &'a E,
    units: &[u8],
    order: [usize; 4],
) -> Walk<'a, E> {
    let mut walk = four_open(random, rules, units);
    let calls = walk.open().to_vec();
    for call in order.iter().filter_map(|place| calls.get(*place)) {
        match walk.open().len() {
            // The last may end it.
            1 => walk.add(exit(random, call)),
            _ => walk.add_calm(random, |random| exit(random, call)),
        }
    }
    walk
}

fn four_open<'a, E: Engine>(random: &mut Random, rules: &'a E, units: &[u8]) -> Walk<'a, E> {
    let mut walk = walk(rules);
    for number in &numbers(random)[..4] {
        walk.add_calm(random, |random| entry(random, units, *number));
    }
    walk
}

/// Entries and exits as they come; sometimes a last one that is refused, or nearly.
pub fn any_calls<E: Engine>(random: &mut Random, rules: &E, units: &[u8]) -> Vec<Record> {
    let mut walk = walk(rules);
    let numbers = numbers(random);
    for _ in 0..random.between(2, 12) {
        let open = walk.open().to_vec();
        let free = numbers
            .iter()
            .find(|n| open.iter().all(|c| c.number != **n));
        match free {
            Some(number) if open.is_empty() || random.chance(1, 2) => {
                walk.add_calm(random, |random| entry(random, units, *number));
            }
            _ => {
                let call = random.pick(&open);
                walk.add_calm(random, |random| exit(random, &call));
            }
        }
    }
    if let (Some(call), true) = (walk.open().last().copied(), random.chance(2, 3)) {
        let last = last_record(random, units, &call);
        walk.add(last);
    }
    walk.records
}

/// An exit with any values, an exit of nearly the call's number or unit, or the number again.
fn last_record(random: &mut Random, units: &[u8], call: &Call) -> Record {
    let mut record = exit(random, call);
    match random.below(6) {
        0 => record.call = other_byte(random, call.number),
        1 => record = entry(random, units, call.number),
        2 => record.unit ^= FIRST_UNIT,
        _ => {}
    }
    record
}

/// The log's bytes, for rules that are accepted.
pub fn log<E: Engine>(random: &mut Random, rules: &[u8], units: &[u8]) -> Vec<u8> {
    let records = E::read(rules).map_or(Vec::new(), |rules| records(random, &rules, units));
    write_log(MOST_PROGRAM, &records)
}

pub fn records<E: Engine>(random: &mut Random, rules: &E, units: &[u8]) -> Vec<Record> {
    if random.chance(1, 2) {
        return any_calls(random, rules, units);
    }
    let order = random.pick(&orders());
    four_calls(random, rules, units, order)
}
