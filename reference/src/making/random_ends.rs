//! Random sheets and logs at the ends of the signed range: sums and differences often stop there, and
//! what they give decides.

use crate::implementation::expr::{Action, Assignment, Condition, Value};
use crate::implementation::machine::Kind;
use crate::implementation::run::Record;
use crate::making::draft::SheetDraft;
use crate::making::generate::{self, Manner, Shape};
use crate::making::random::Random;
use crate::making::wide::Role;

/// States 0 and 1, and the bad one.
const STATES: u8 = 3;
const BAD: u8 = 2;
const UNITS: u8 = 2;
const PROGRAM: u8 = 2;
const MONITOR: u8 = 2;
/// Of the conditions from 1 on; condition 0 is `true`.
const ROLES: [Role; 6] = [
    Role::Guard,
    Role::Guard,
    Role::Guard,
    Role::Precondition,
    Role::Postcondition,
    Role::Postcondition,
];
/// The numbers of the conditions by role, some more often than others.
const GUARDS: [u8; 5] = [0, 0, 1, 2, 3];
const PRECONDITIONS: [u8; 3] = [0, 4, 4];
const POSTCONDITIONS: [u8; 2] = [5, 6];
/// Sums inside sums go so deep.
const DEEPEST: usize = 3;

// ---- Sheets -----------------------------------------------------------------------------------

pub fn sheet(random: &mut Random) -> SheetDraft {
    let initial: Vec<i32> = (0..MONITOR).map(|_| word(random)).collect();
    let mut draft = SheetDraft::new(STATES, UNITS, PROGRAM, &initial);
    draft.front.bad = 1 << BAD;
    draft.condition(&Condition::True);
    for role in ROLES {
        draft.condition(&condition(random, role));
    }
    draft.front.actions = vec![Vec::new()];
    for _ in 0..3 {
        draft.action(&action(random));
    }
    add_transitions(random, &mut draft);
    add_triples(random, &mut draft);
    draft
}

/// Near an end, halfway to one, or small.
fn word(random: &mut Random) -> i32 {
    let near = random.below(3) as i32;
    match random.below(5) {
        0 => i32::MIN + near,
        1 => i32::MAX - near,
        2 => (1 << 30) - near,
        3 => near - (1 << 30),
        _ => near - 1,
    }
}

/// Of the kinds of value that a role may name.
fn leaf(random: &mut Random, role: Role) -> Value {
    let (program, monitor) = (PROGRAM.into(), MONITOR.into());
    match (role, random.below(5)) {
        (_, 0) => Value::Constant(word(random)),
        (Role::Guard | Role::Precondition, 1..=3) => Value::Monitor(random.below(monitor) as u8),
        (Role::Postcondition, 1..=3) => Value::AtEntry(random.below(program) as u8),
        _ => Value::Program(random.below(program) as u8),
    }
}

fn sum(random: &mut Random, role: Role, depth: usize) -> Value {
    let operand = |random: &mut Random| {
        let deeper = depth < DEEPEST && random.chance(1, 4);
        Box::new(match deeper {
            true => sum(random, role, depth + 1),
            false => leaf(random, role),
        })
    };
    let (a, b) = (operand(random), operand(random));
    match random.below(2) {
        0 => Value::Plus(a, b),
        _ => Value::Minus(a, b),
    }
}

fn condition(random: &mut Random, role: Role) -> Condition {
    let mut a = Box::new(sum(random, role, 2));
    let mut b = Box::new(match random.below(4) {
        0 => sum(random, role, 2),
        _ => leaf(random, role),
    });
    if random.chance(1, 2) {
        std::mem::swap(&mut a, &mut b);
    }
    match random.below(6) {
        0 => Condition::Equal(a, b),
        1 => Condition::Not(Box::new(Condition::Equal(a, b))),
        2 => Condition::Within(a, b, Box::new(leaf(random, role))),
        3 => Condition::Not(Box::new(Condition::Less(a, b))),
        _ => Condition::Less(a, b),
    }
}

/// One or two assignments of sums.
fn action(random: &mut Random) -> Action {
    let mut assignment = || Assignment {
        variable: random.below(MONITOR.into()) as u8,
        value: sum(random, Role::Guard, 1),
    };
    let mut assignments = vec![assignment(), assignment()];
    assignments.truncate(random.between(1, 2));
    Action { assignments }
}

/// Two for an entry and an exit of each unit in each good state; exits lead to the bad state too.
fn add_transitions(random: &mut Random, draft: &mut SheetDraft) {
    for place in 0..4 * UNITS {
        let (from, unit) = (place % BAD, place / 4);
        for (kind, targets) in [(Kind::Entry, BAD), (Kind::Exit, STATES)] {
            let to = random.below(targets.into()) as u8;
            let action = random.below(draft.front.actions.len()) as u8;
            draft.transition(from, to, (kind, unit), random.pick(&GUARDS), action);
        }
    }
}

/// Mostly one for each good state and unit.
fn add_triples(random: &mut Random, draft: &mut SheetDraft) {
    for place in 0..BAD * UNITS {
        if random.chance(3, 4) {
            let precondition = random.pick(&PRECONDITIONS);
            let postcondition = random.pick(&POSTCONDITIONS);
            draft.triple(place % BAD, place / BAD, precondition, postcondition);
        }
    }
}

// ---- Logs -------------------------------------------------------------------------------------

/// For such a sheet, or a network like it.
pub fn records(random: &mut Random) -> Vec<Record> {
    let shape = Shape {
        units: UNITS,
        program: PROGRAM,
    };
    let manner = Manner {
        breaks: random.pick(&[0, 0, 0, 40]),
        entries: random.pick(&[4, 5]),
    };
    let count = random.between(2, 24);
    let mut records = generate::records(random, shape, manner, count);
    for record in &mut records {
        record.values.iter_mut().for_each(|v| *v = word(random));
    }
    records
}
