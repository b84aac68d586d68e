//! Test conditions for the card's bench (document 02, slip 10): all conditions of exactly n bytes, n
//! from 1 to 8, with one program variable, no monitor variables, no constants and no values at entry.
//! All trees of a size are built, written and put in byte order.

use crate::implementation::expr::{Condition, Value};
use crate::implementation::refusal::Refusal;
use std::sync::OnceLock;

/// The longest of these conditions, in bytes.
pub const LONGEST: usize = 8;

/// A condition, and zeros behind it.
pub type Eight = [u8; LONGEST];

/// The condition asked for, or that there is none; or a refusal.
pub type Listing = Result<Option<Eight>, Refusal>;

/// The least condition of n bytes in byte order. 22 for n out of range.
pub fn first(n: usize) -> Listing {
    Ok(all(n)?.first().copied())
}

/// The least condition of n bytes that is greater than the given one. 22 for n out of range; then 26
/// where the bytes are not such a condition with zeros behind it.
pub fn next(n: usize, given: Eight) -> Listing {
    let all = all(n)?;
    let place = all.iter().position(|one| *one == given);
    let place = place.ok_or(Refusal::NotListed)?;
    Ok(all.get(place + 1).copied())
}

/// All conditions of n bytes in byte order. 22 for n out of range.
pub fn all(n: usize) -> Result<&'static [Eight], Refusal> {
    /// Made when they are first asked for.
    static LISTS: OnceLock<Vec<Vec<Eight>>> = OnceLock::new();
    match n {
        1..=LONGEST => Ok(&LISTS.get_or_init(lists)[n]),
        _ => Err(Refusal::NoSuchLength),
    }
}

/// Those of each size; of size 0 there are none.
fn lists() -> Vec<Vec<Eight>> {
    let trees = Trees::up_to(LONGEST);
    let lists = trees.conditions.iter();
    lists.map(|trees| in_byte_order(trees)).collect()
}

/// Of conditions of one size, so that the zeros behind them do not matter to the order.
fn in_byte_order(trees: &[Condition]) -> Vec<Eight> {
    let mut list: Vec<Eight> = trees.iter().map(eight).collect();
    list.sort();
    list
}

fn eight(condition: &Condition) -> Eight {
    let mut eight = Eight::default();
    for (place, byte) in eight.iter_mut().zip(condition.bytes()) {
        *place = byte;
    }
    eight
}

// ---- Trees ------------------------------------------------------------------------------------

/// All trees, by how many bytes they are written with.
struct Trees {
    conditions: Vec<Vec<Condition>>,
    values: Vec<Vec<Value>>,
}

impl Trees {
    fn up_to(most: usize) -> Trees {
        let mut trees = Trees {
            conditions: vec![vec![]],
            values: vec![vec![]],
        };
        for size in 1..=most {
            let (conditions, values) = (trees.conditions_of(size), trees.values_of(size));
            trees.conditions.push(conditions);
            trees.values.push(values);
        }
        trees
    }

    /// An operator takes one byte, what it is applied to takes the others.
    fn conditions_of(&self, size: usize) -> Vec<Condition> {
        let rest = size - 1;
        let mut all = Vec::new();
        if rest == 0 {
            all.push(Condition::True);
        }
        for c in &self.conditions[rest] {
            all.push(Condition::Not(Box::new(c.clone())));
        }
        for (c, d) in pairs(&self.conditions, rest) {
            all.push(Condition::And(c.clone(), d.clone()));
            all.push(Condition::Or(c, d));
        }
        for (a, b) in pairs(&self.values, rest) {
            all.push(Condition::Less(a.clone(), b.clone()));
            all.push(Condition::Equal(a, b));
        }
        for (k, (a, b)) in before_pairs(&self.values, &self.values, rest) {
            all.push(Condition::Within(a, b, k));
        }
        all
    }

    fn values_of(&self, size: usize) -> Vec<Value> {
        let rest = size - 1;
        let mut all = Vec::new();
        if rest == 1 {
            all.push(Value::Program(0));
        }
        for (a, b) in pairs(&self.values, rest) {
            all.push(Value::Plus(a.clone(), b.clone()));
            all.push(Value::Minus(a, b));
        }
        for (c, (a, b)) in before_pairs(&self.conditions, &self.values, rest) {
            all.push(Value::Choose(c, a, b));
        }
        all
    }
}

type Pair<T> = (Box<T>, Box<T>);

/// Every two trees that take so many bytes together.
fn pairs<T: Clone>(trees: &[Vec<T>], together: usize) -> Vec<Pair<T>> {
    let mut all = Vec::new();
    for size in 1..together {
        for a in &trees[size] {
            for b in &trees[together - size] {
                all.push((Box::new(a.clone()), Box::new(b.clone())));
            }
        }
    }
    all
}

/// Every tree of one sort and two of another that take so many bytes together.
fn before_pairs<S: Clone, T: Clone>(
    ones: &[Vec<S>],
    trees: &[Vec<T>],
    together: usize,
) -> Vec<(Box<S>, Pair<T>)> {
    let mut all = Vec::new();
    for (size, ones) in ones.iter().enumerate().take(together) {
        for one in ones {
            for pair in pairs(trees, together - size) {
                all.push((Box::new(one.clone()), pair));
            }
        }
    }
    all
}
