//! Random trees of conditions, values and actions that keep to a length in bytes.

use crate::implementation::expr::{Action, Assignment, Condition, Counts, Value};
use crate::making::random::Random;

/// Which leaves a random expression may hold, and how many variables there are.
#[derive(Clone, Copy, Debug)]
pub struct Taste {
    pub counts: Counts,
    pub monitor: bool,
    pub at_entry: bool,
}

/// The shortest value that can always be written: a constant.
const SHORTEST_VALUE: usize = 5;

/// A condition of at most `room` bytes; `room` is at least 1.
pub fn condition(random: &mut Random, room: usize, taste: &Taste) -> Condition {
    let choice = random.below(12);
    match choice {
        1..=2 if room >= 2 => Condition::Not(Box::new(condition(random, room - 1, taste))),
        3..=6 if room >= 3 => {
            let first = condition(random, room - 2, taste);
            let left = room - 1 - first.bytes().len();
            let second = condition(random, left, taste);
            let (first, second) = (Box::new(first), Box::new(second));
            if choice < 5 {
                Condition::And(first, second)
            } else {
                Condition::Or(first, second)
            }
        }
        7..=8 if room > 2 * SHORTEST_VALUE => {
            let (a, b) = two_values(random, room - 1, taste);
            Condition::Less(a, b)
        }
        9..=10 if room > 2 * SHORTEST_VALUE => {
            let (a, b) = two_values(random, room - 1, taste);
            Condition::Equal(a, b)
        }
        11 if room > 3 * SHORTEST_VALUE => {
            let (a, b) = two_values(random, room - 1 - SHORTEST_VALUE, taste);
            let left = room - 1 - a.bytes().len() - b.bytes().len();
            let k = Box::new(value(random, left, taste));
            Condition::Within(a, b, k)
        }
        _ => Condition::True,
    }
}

/// Two values that take at most `room` bytes together; `room` is at least 10.
fn two_values(random: &mut Random, room: usize, taste: &Taste) -> (Box<Value>, Box<Value>) {
    let first = value(random, room - SHORTEST_VALUE, taste);
    let left = room - first.bytes().len();
    (Box::new(first), Box::new(value(random, left, taste)))
}

/// A value of at most `room` bytes; `room` is at least 5.
pub fn value(random: &mut Random, room: usize, taste: &Taste) -> Value {
    match random.below(10) {
        0 if room > 2 * SHORTEST_VALUE => {
            let (a, b) = two_values(random, room - 1, taste);
            Value::Plus(a, b)
        }
        1 if room > 2 * SHORTEST_VALUE => {
            let (a, b) = two_values(random, room - 1, taste);
            Value::Minus(a, b)
        }
        2 if room > 2 * SHORTEST_VALUE + 1 => {
            let c = condition(random, room - 1 - 2 * SHORTEST_VALUE, taste);
            let left = room - 1 - c.bytes().len();
            let (a, b) = two_values(random, left, taste);
            Value::Choose(Box::new(c), a, b)
        }
        3..=5 if taste.counts.program > 0 => {
            Value::Program(random.below(taste.counts.program) as u8)
        }
        6 if taste.monitor && taste.counts.monitor > 0 => {
            Value::Monitor(random.below(taste.counts.monitor) as u8)
        }
        7 if taste.at_entry && taste.counts.kept > 0 => {
            Value::AtEntry(random.below(taste.counts.kept) as u8)
        }
        _ => Value::Constant(random.word()),
    }
}

/// An action of at most `room` bytes; without monitor variables it is empty.
pub fn action(random: &mut Random, room: usize, taste: &Taste) -> Action {
    let mut assignments = Vec::new();
    let mut left = room;
    while taste.counts.monitor > 0 && left > SHORTEST_VALUE && !random.chance(1, 4) {
        let share = random.between(SHORTEST_VALUE, left - 1);
        let variable = random.below(taste.counts.monitor) as u8;
        let value = value(random, share, taste);
        left -= 1 + value.bytes().len();
        assignments.push(Assignment { variable, value });
    }
    Action { assignments }
}

/// Damages bytes in one of a few ways: change, cut, add, swap.
pub fn damage(random: &mut Random, bytes: &mut Vec<u8>) {
    let place = random.below(bytes.len());
    match random.below(6) {
        0 | 1 if !bytes.is_empty() => bytes[place] = random.byte(),
        2 if !bytes.is_empty() => bytes[place] = random.below(24) as u8,
        3 if !bytes.is_empty() => bytes.truncate(place),
        4 if !bytes.is_empty() => {
            bytes.remove(place);
        }
        _ => {
            let extra = random.below(24) as u8;
            bytes.insert(place, extra);
        }
    }
}
