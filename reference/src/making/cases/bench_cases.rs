//! The cases of the program `bench_cases`: walks through all conditions for the bench, the first of
//! each length, and the next after conditions and after bytes that are none.

use crate::framing::bench_frames::Frame;
use crate::implementation::bench_conditions::{self, Eight, LONGEST};
use crate::making::random::Random;
use std::collections::HashSet;

const SEED: u64 = 0x5741_5443_480A;
/// How many conditions of each length are tried out: all of the shorter ones.
const TRIED: [usize; LONGEST + 1] = [0, 1, 1, 3, 7, 23, 63, 80, 122];
/// How many conditions of each length are given for another one, at most.
const ELSEWHERE: usize = 36;
/// How many random strings there are of each length.
const RANDOM: usize = 25;

/// Bytes with which conditions and values begin. (A choice, 22, is too long for any of these.)
const OPERATORS: [u8; 11] = [0, 1, 2, 3, 4, 5, 6, 17, 20, 21, 22];
/// Bytes just beside those, and some that are among them.
const BESIDE: [u8; 10] = [7, 15, 16, 17, 18, 19, 20, 22, 23, 255];
/// What may stand behind a condition in place of a zero.
const BEHIND: [u8; 6] = [1, 255, 17, 128, 2, 16];
/// Numbers that are no length.
const NO_LENGTH: [u8; 6] = [0, 9, 10, 16, 128, 255];

/// Eight bytes that are given for a length: a condition, or what was made of one.
#[derive(Clone, Copy)]
struct Given {
    n: usize,
    bytes: Eight,
}

impl Given {
    fn is_one(self) -> bool {
        of_length(self.n).contains(&self.bytes)
    }

    fn with(mut self, place: usize, byte: u8) -> Given {
        self.bytes[place] = byte;
        self
    }

    /// Asks for the next one of n bytes.
    fn for_length(self, n: usize) -> Frame {
        next(n as u8, self.bytes)
    }

    fn frame(self) -> Frame {
        self.for_length(self.n)
    }

    /// Few conditions hold an operator of values, or `within`.
    fn is_rare(&self) -> bool {
        [6, 20, 21].iter().any(|rare| self.bytes.contains(rare))
    }

    /// The places at which a program variable stands.
    fn variables(self) -> impl Iterator<Item = usize> {
        (0..self.n).filter(move |place| self.bytes[*place] == 17)
    }
}

fn next(n: u8, given: Eight) -> Frame {
    Frame::Next { n, given }
}

/// Empty where n is out of range.
fn of_length(n: usize) -> &'static [Eight] {
    bench_conditions::all(n).unwrap_or_default()
}

fn all_of_length(n: usize) -> Vec<Given> {
    let all = of_length(n).iter();
    all.map(|bytes| Given { n, bytes: *bytes }).collect()
}

fn lengths() -> impl Iterator<Item = usize> {
    1..=LONGEST
}

/// So many of them, without one twice. The rare ones come first.
fn some(random: &mut Random, all: Vec<Given>, count: usize) -> Vec<Given> {
    let (mut some, mut others): (Vec<_>, Vec<_>) = all.into_iter().partition(Given::is_rare);
    while some.len() < count && !others.is_empty() {
        let place = random.below(others.len());
        some.push(others.remove(place));
    }
    some
}

fn tried(random: &mut Random) -> Vec<Given> {
    let of_each = lengths().map(|n| some(random, all_of_length(n), TRIED[n]));
    of_each.flatten().collect()
}

/// The first and the last of each length.
fn ends() -> Vec<Given> {
    let both = |n| {
        let all = all_of_length(n);
        [all.first().copied(), all.last().copied()]
    };
    lengths().flat_map(both).flatten().collect()
}

// ---- Changed bytes ----------------------------------------------------------------------------

/// At each place of the condition: bytes with which it is another one, one byte from beside the
/// operators and one of the operators with which it is none.
fn changed(random: &mut Random, number: usize, condition: Given) -> Vec<Frame> {
    let mut frames = Vec::new();
    for place in 0..condition.n {
        let with = |byte: &u8| condition.with(place, *byte);
        let differs = |byte: &&u8| **byte != condition.bytes[place];
        let hits = OPERATORS.iter().filter(differs).map(with);
        frames.extend(hits.filter(|c| c.is_one()).map(Given::frame));
        for (choices, start) in [
            (&BESIDE[..], number + place),
            (&OPERATORS, random.below(OPERATORS.len())),
        ] {
            let turned = choices.iter().cycle().skip(start).take(choices.len());
            let mut misses = turned.map(with).filter(|c| !c.is_one());
            frames.extend(misses.next().map(Given::frame));
        }
    }
    frames
}

/// One byte behind the condition that is not zero, at each place; and all of them.
fn behind(number: usize, condition: Given) -> Vec<Frame> {
    let mut frames = Vec::new();
    let mut full = condition;
    for place in condition.n..LONGEST {
        let byte = BEHIND[(number + place) % BEHIND.len()];
        frames.push(condition.with(place, byte).frame());
        full = full.with(place, byte);
    }
    frames.push(full.frame());
    frames
}

/// Each of these bytes at each place behind the shortest conditions.
fn behind_the_shortest() -> Vec<Frame> {
    let shortest = (1..=3).flat_map(all_of_length);
    let mut frames = Vec::new();
    for condition in shortest {
        for place in condition.n..LONGEST {
            frames.extend(BEHIND.map(|byte| condition.with(place, byte).frame()));
        }
    }
    frames
}

/// Two bytes beside each other exchanged: of some conditions this gives another.
fn exchanged() -> Vec<Frame> {
    let mut frames = Vec::new();
    for condition in (1..=6).flat_map(all_of_length) {
        for place in 1..LONGEST {
            let mut other = condition;
            other.bytes.swap(place - 1, place);
            frames.push(other.frame());
        }
    }
    frames
}

// ---- What belongs to other conditions ---------------------------------------------------------

/// Another number of a variable, a monitor variable or a value at entry, in place of each variable.
fn other_variables() -> Vec<Frame> {
    let mut frames = Vec::new();
    for condition in lengths().flat_map(all_of_length) {
        for place in condition.variables() {
            for [operator, number] in [[17, 1], [17, 255], [18, 0], [19, 0]] {
                let other = condition.with(place, operator);
                frames.push(other.with(place + 1, number).frame());
            }
        }
    }
    frames
}

/// A constant has five bytes: eight bytes have room for it beside one variable.
fn constants() -> Vec<Frame> {
    let numbers = [0, 1, -1, i32::MIN, 0x1100_1100, 0x0011_0011].map(i32::to_be_bytes);
    let mut frames = Vec::new();
    for [a, b, c, d] in numbers {
        for operator in [4, 5] {
            frames.push(next(8, [operator, 16, a, b, c, d, 17, 0]));
            frames.push(next(8, [operator, 17, 0, 16, a, b, c, d]));
        }
    }
    frames
}

/// Givens given for each other length.
fn of_another_length(random: &mut Random) -> Vec<Frame> {
    let mut given = ends();
    for n in lengths() {
        given.extend(some(random, all_of_length(n), ELSEWHERE));
    }
    let mut frames = Vec::new();
    for condition in given {
        let others = lengths().filter(|n| *n != condition.n);
        frames.extend(others.map(|n| condition.for_length(n)));
    }
    frames
}

/// No length, with conditions and with bytes that are none of any length.
fn of_no_length() -> Vec<Frame> {
    let mut given: Vec<Eight> = ends().iter().map(|condition| condition.bytes).collect();
    given.extend([
        [255; 8],
        [7, 0, 0, 0, 0, 0, 0, 0],
        [0, 0, 0, 0, 0, 0, 0, 1],
        [1, 1, 1, 1, 1, 1, 1, 1],
        [4, 16, 0, 0, 0, 0, 17, 0],
        [5, 17, 0, 17, 1, 0, 0, 0],
        [5, 18, 0, 17, 0, 0, 0, 0],
        [5, 19, 0, 17, 0, 0, 0, 0],
    ]);
    let of_each = |n| given.iter().map(move |bytes| next(n, *bytes));
    NO_LENGTH.into_iter().flat_map(of_each).collect()
}

/// Strings of operators.
fn random_strings(random: &mut Random) -> Vec<Frame> {
    let mut frames = Vec::new();
    for n in lengths() {
        for _ in 0..RANDOM {
            let mut given = Eight::default();
            for byte in &mut given[..n] {
                *byte = random.pick(&OPERATORS);
            }
            frames.push(next(n as u8, given));
        }
    }
    frames
}

// ---- All --------------------------------------------------------------------------------------

/// Walks and firsts, of lengths in range and out of it.
fn walks_and_firsts() -> Vec<Frame> {
    let walks = (0..=9).chain([255]).map(|n| Frame::Walk { n });
    let firsts = (0..=10).chain([255]).map(|n| Frame::First { n });
    walks.chain(firsts).collect()
}

/// All the frames. None comes twice.
pub fn all() -> Vec<Frame> {
    let mut random = Random::new(SEED);
    let tried = tried(&mut random);
    let mut frames = walks_and_firsts();
    frames.extend(ends().into_iter().map(Given::frame));
    frames.extend(tried.iter().map(|condition| condition.frame()));
    for (number, condition) in tried.into_iter().enumerate() {
        frames.extend(changed(&mut random, number, condition));
        frames.extend(behind(number, condition));
    }
    frames.extend(behind_the_shortest());
    frames.extend(exchanged());
    frames.extend(other_variables());
    frames.extend(constants());
    frames.extend(of_another_length(&mut random));
    frames.extend(of_no_length());
    frames.extend(random_strings(&mut random));
    let mut seen = HashSet::new();
    frames.retain(|frame| seen.insert(*frame));
    frames
}
