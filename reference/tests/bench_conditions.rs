//! The conditions for the card's bench: what is listed, and what the committed cases of `bench_cases`
//! must show of it. That is written down here, whatever the generator makes.

mod committed;

use committed::{add, assert_shown, committed, lines, Counts};
use reference::framing::bench_frames::{read_frames, Frame};
use reference::framing::pages::PAGE;
use reference::implementation::bench_conditions::{self as listing, Eight, Listing, LONGEST};
use reference::implementation::expr::{self, Condition, Value};
use reference::implementation::refusal::Refusal;
use std::collections::{BTreeSet, HashSet};

/// How many there are of each length.
const COUNTS: [usize; LONGEST] = [1, 1, 3, 7, 23, 63, 202, 638];
const REFUSED_22: Listing = Err(Refusal::NoSuchLength);
const REFUSED_26: Listing = Err(Refusal::NotListed);

fn eight(bytes: &[u8]) -> Eight {
    let mut eight = Eight::default();
    eight[..bytes.len()].copy_from_slice(bytes);
    eight
}

fn listed(n: usize) -> &'static [Eight] {
    listing::all(n).expect("a length in range")
}

/// As many variables as are lent of each kind.
fn parsed(bytes: &[u8], [program, monitor, kept]: [usize; 3]) -> Option<Condition> {
    let counts = expr::Counts {
        program,
        monitor,
        kept,
    };
    expr::read_condition(bytes, counts).ok()
}

fn has_constant(condition: &Condition) -> bool {
    match condition {
        Condition::True => false,
        Condition::Not(c) => has_constant(c),
        Condition::And(c, d) | Condition::Or(c, d) => has_constant(c) || has_constant(d),
        Condition::Less(a, b) | Condition::Equal(a, b) => is_constant(a) || is_constant(b),
        Condition::Within(a, b, k) => is_constant(a) || is_constant(b) || is_constant(k),
    }
}

/// It is one or has one in it.
fn is_constant(value: &Value) -> bool {
    match value {
        Value::Constant(_) => true,
        Value::Program(_) | Value::Monitor(_) | Value::AtEntry(_) => false,
        Value::Plus(a, b) | Value::Minus(a, b) => is_constant(a) || is_constant(b),
        Value::Choose(c, a, b) => has_constant(c) || is_constant(a) || is_constant(b),
    }
}

// ---- What is listed ---------------------------------------------------------------------------

#[test]
fn there_are_as_many_as_the_request_says() {
    for (n, count) in (1..).zip(COUNTS) {
        assert_eq!(listed(n).len(), count, "{n} bytes");
    }
    assert_eq!(COUNTS.iter().sum::<usize>(), 938);
}

#[test]
fn the_shortest_ones_written_out() {
    let short: [&[&[u8]]; 4] = [
        &[&[0]],
        &[&[1, 0]],
        &[&[1, 1, 0], &[2, 0, 0], &[3, 0, 0]],
        &[
            &[1, 1, 1, 0],
            &[1, 2, 0, 0],
            &[1, 3, 0, 0],
            &[2, 0, 1, 0],
            &[2, 1, 0, 0],
            &[3, 0, 1, 0],
            &[3, 1, 0, 0],
        ],
    ];
    for (n, written) in (1..).zip(short) {
        let written: Vec<Eight> = written.iter().map(|bytes| eight(bytes)).collect();
        assert_eq!(listed(n), written);
    }
}

/// Five bytes are the fewest with values in them, eight the fewest with a sum.
#[test]
fn some_longer_ones_written_out() {
    let with = |n: usize, byte: u8| {
        let all = listed(n).iter().filter(|one| one.contains(&byte));
        all.map(|one| one[..n].to_vec()).collect::<Vec<_>>()
    };
    assert_eq!(with(5, 17), [[4, 17, 0, 17, 0], [5, 17, 0, 17, 0]]);
    assert_eq!(with(7, 6), [[6, 17, 0, 17, 0, 17, 0]]);
    assert_eq!(with(8, 6), [[1, 6, 17, 0, 17, 0, 17, 0]]);
    for operator in [20, 21] {
        let sums = [
            [4, 17, 0, operator, 17, 0, 17, 0],
            [4, operator, 17, 0, 17, 0, 17, 0],
            [5, 17, 0, operator, 17, 0, 17, 0],
            [5, operator, 17, 0, 17, 0, 17, 0],
        ];
        assert_eq!(with(8, operator), sums);
    }
    // A choice takes six bytes, and a condition with it nine.
    assert!((1..=8).all(|n| with(n, 22).is_empty()));
}

#[test]
fn each_is_such_a_condition_and_they_rise() {
    for n in 1..=LONGEST {
        for one in listed(n) {
            let (bytes, behind) = one.split_at(n);
            let condition = parsed(bytes, [1, 0, 0]).expect("a condition");
            assert!(!has_constant(&condition));
            assert!(behind.iter().all(|byte| *byte == 0));
        }
        assert!(listed(n).windows(2).all(|two| two[0] < two[1]));
    }
}

/// Calls with every string of these bytes.
fn each_string(bytes: &[u8], length: usize, text: &mut Vec<u8>, call: &mut impl FnMut(&[u8])) {
    if text.len() == length {
        return call(text);
    }
    for byte in bytes {
        text.push(*byte);
        each_string(bytes, length, text, call);
        text.pop();
    }
}

#[test]
fn all_strings_of_up_to_five_bytes_that_are_such_conditions_are_listed() {
    let bytes: Vec<u8> = (0..=23).chain([255]).collect();
    for n in 1..=5 {
        let mut found = Vec::new();
        each_string(&bytes, n, &mut Vec::new(), &mut |text| {
            if parsed(text, [1, 0, 0]).is_some_and(|condition| !has_constant(&condition)) {
                found.push(eight(text));
            }
        });
        assert_eq!(listed(n), found);
    }
}

// ---- From the left ----------------------------------------------------------------------------

/// A sort, a byte it may begin with, and the sorts that follow then: conditions `c`, values `v`,
/// numbers of variables `n`.
type Row = (char, u8, &'static str);

const ROWS: [Row; 12] = [
    ('c', 0, ""),
    ('c', 1, "c"),
    ('c', 2, "cc"),
    ('c', 3, "cc"),
    ('c', 4, "vv"),
    ('c', 5, "vv"),
    ('c', 6, "vvv"),
    ('n', 0, ""),
    ('v', 17, "n"),
    ('v', 20, "vv"),
    ('v', 21, "vv"),
    ('v', 22, "cvv"),
];

/// All strings of so many bytes that are of these sorts one after the other, in the rows' order.
fn strings(rows: &[Row], sorts: &str, length: usize) -> Vec<Vec<u8>> {
    let mut all = Vec::new();
    let Some(first) = sorts.chars().next() else {
        all.extend((length == 0).then(Vec::new));
        return all;
    };
    if length < sorts.len() {
        return all;
    }
    for (_, byte, follow) in rows.iter().filter(|(sort, ..)| *sort == first) {
        let rest = [follow, &sorts[1..]].concat();
        let ends = strings(rows, &rest, length - 1);
        all.extend(ends.iter().map(|end| [&[*byte], &end[..]].concat()));
    }
    all
}

/// The conditions of each length, none of them of 0 bytes.
fn lists(rows: &[Row]) -> Vec<Vec<Eight>> {
    let list = |n| {
        strings(rows, "c", n)
            .iter()
            .map(|text| eight(text))
            .collect()
    };
    (0..=LONGEST).map(list).collect()
}

#[test]
fn written_from_the_left_they_are_the_same() {
    let lists = lists(&ROWS);
    assert!((1..=LONGEST).all(|n| lists[n] == listed(n)));
}

// ---- First and next ---------------------------------------------------------------------------

#[test]
fn first_is_the_least_and_next_the_least_greater() {
    for (n, list) in lists(&ROWS).into_iter().enumerate().skip(1) {
        let all: BTreeSet<Eight> = list.into_iter().collect();
        assert_eq!(listing::first(n), Ok(all.first().copied()));
        for one in &all {
            let greater = all.iter().filter(|other| *other > one).min();
            assert_eq!(listing::next(n, *one), Ok(greater.copied()));
        }
    }
}

#[test]
fn a_length_is_refused_before_what_is_given() {
    let (good, bad) = (eight(&[0]), [255; 8]);
    for n in [0, 9, 10, 255, 256, 257, usize::MAX] {
        assert_eq!(listing::first(n), REFUSED_22);
        assert_eq!(listing::next(n, good), REFUSED_22);
        assert_eq!(listing::next(n, bad), REFUSED_22);
    }
    assert_eq!(listing::next(1, good), Ok(None));
    for n in 1..=8 {
        assert_eq!(listing::next(n, bad), REFUSED_26);
    }
}

#[test]
fn what_is_not_such_a_condition_is_refused() {
    for bytes in [
        &[1, 1, 0][..],
        &[2, 0, 0],
        &[5, 17, 0, 17, 0],
        &[6, 17, 0, 17, 0, 17, 0],
    ] {
        let n = bytes.len();
        assert!(listing::next(n, eight(bytes)).is_ok());
        for other in (1..=8).filter(|other| *other != n) {
            assert_eq!(listing::next(other, eight(bytes)), REFUSED_26);
        }
        for place in n..8 {
            let mut behind = eight(bytes);
            behind[place] = 1;
            assert_eq!(listing::next(n, behind), REFUSED_26);
        }
    }
    for bytes in [
        &[2, 0][..],
        &[7, 0, 0],
        &[5, 17, 0, 17, 1],
        &[5, 18, 0, 17, 0],
        &[5, 17, 0, 19, 0],
        &[4, 16, 0, 0, 0, 0, 17, 0],
    ] {
        assert_eq!(listing::next(bytes.len(), eight(bytes)), REFUSED_26);
    }
}

// ---- The committed cases ----------------------------------------------------------------------

/// Each frame with its lines: one, or those of a walk up to the first that has no condition.
fn cases() -> Vec<(Frame, Vec<String>)> {
    let frames = read_frames(&committed("bench_cases", "stdin")).expect("frames");
    let mut lines = lines("bench_cases").into_iter();
    let mut cases = Vec::new();
    for frame in frames {
        let mut own = vec![lines.next().expect("a line")];
        while matches!(frame, Frame::Walk { .. }) && own[own.len() - 1].starts_with("is ") {
            own.push(lines.next().expect("a line"));
        }
        cases.push((frame, own));
    }
    assert_eq!(lines.next(), None);
    cases
}

/// What is given for a length in range, with its line.
fn given() -> Vec<(usize, Eight, String)> {
    let in_range = |(frame, mut lines): (Frame, Vec<String>)| match frame {
        Frame::Next { n, given } if (1..=8).contains(&n) => {
            Some((n.into(), given, lines.remove(0)))
        }
        _ => None,
    };
    cases().into_iter().filter_map(in_range).collect()
}

#[test]
fn no_case_comes_twice_and_they_are_of_two_pages() {
    let frames: Vec<Frame> = cases().into_iter().map(|(frame, _)| frame).collect();
    let different: HashSet<&Frame> = frames.iter().collect();
    assert_eq!(different.len(), frames.len());
    let length = committed("bench_cases", "stdin").len();
    assert!(length > PAGE && length < 2 * PAGE, "{length} bytes");
    assert!(frames.iter().all(|frame| frame.lines().len() <= 1_000));
}

#[test]
fn frames_are_written_as_they_are_read() {
    let next = Frame::Next {
        n: 3,
        given: eight(&[1, 1, 0, 0, 0, 0, 0, 9]),
    };
    let written = |frame: Frame| {
        let mut out = Vec::new();
        frame.write(&mut out);
        out
    };
    assert_eq!(written(Frame::Walk { n: 4 }), [0, 4]);
    assert_eq!(written(Frame::First { n: 255 }), [1, 255]);
    let bytes = written(next);
    assert_eq!(bytes, [2, 3, 1, 1, 0, 0, 0, 0, 0, 9]);
    assert_eq!(read_frames(&bytes), Some(vec![next]));
    for length in 1..bytes.len() {
        assert_eq!(read_frames(&bytes[..length]), None);
    }
    assert_eq!(read_frames(&[3, 0]), None);
}

#[test]
fn lines_written_out() {
    let next = |n, bytes: &[u8]| {
        let given = eight(bytes);
        Frame::Next { n, given }.lines()
    };
    let none = "none 00 00 00 00 00 00 00 00";
    let walk = [
        "is 01 01 00 00 00 00 00 00",
        "is 02 00 00 00 00 00 00 00",
        "is 03 00 00 00 00 00 00 00",
        none,
    ];
    assert_eq!(Frame::Walk { n: 3 }.lines(), walk);
    assert_eq!(Frame::First { n: 3 }.lines(), walk[..1]);
    assert_eq!(next(3, &[1, 1, 0]), walk[1..2]);
    assert_eq!(next(3, &[3, 0, 0]), [none]);
    let sum = next(8, &[5, 17, 0, 20, 17, 0, 17, 0]);
    assert_eq!(sum, ["is 05 11 00 15 11 00 11 00"]);
    let refused_22 = ["refused 22 00 00 00 00 00 00 00 00"];
    assert_eq!(Frame::Walk { n: 0 }.lines(), refused_22);
    assert_eq!(Frame::First { n: 9 }.lines(), refused_22);
    assert_eq!(next(9, &[9]), refused_22);
    let refused_26 = ["refused 26 00 00 00 00 00 00 00 00"];
    assert_eq!(next(3, &[1, 1, 0, 0, 1]), refused_26);
}

/// The line without the bytes.
fn answer(line: &str) -> &str {
    line.split_at(line.len() - 24).0
}

const ANSWERS: [(&str, usize); 14] = [
    ("walk: is", 938),
    ("walk: none", 8),
    ("walk: refused 22", 3),
    ("first: is", 8),
    ("first: refused 22", 4),
    ("next: is", 500),
    ("next: none", 8),
    ("next: refused 22", 120),
    ("next: refused 26", 6_000),
    ("next, given other bytes than zeros: none", 7),
    ("next, given other bytes than zeros: refused 22", 120),
    ("next, given other bytes than zeros: refused 26", 6_000),
    ("next, given zeros: none", 1),
    ("next, given zeros: refused 26", 7),
];

#[test]
fn every_answer_occurs_often() {
    let mut counts = Counts::new();
    for (frame, lines) in cases() {
        let name = match frame {
            Frame::Walk { .. } => "walk",
            Frame::First { .. } => "first",
            Frame::Next { .. } => "next",
        };
        for line in &lines {
            add(&mut counts, format!("{name}: {}", answer(line)));
        }
        if let Frame::Next { given, .. } = frame {
            let zeros = match given == Eight::default() {
                true => "zeros",
                false => "other bytes than zeros",
            };
            let label = format!("next, given {zeros}: {}", answer(&lines[0]));
            add(&mut counts, label);
        }
    }
    assert_shown(&counts, &ANSWERS);
}

/// The places at which two differ.
fn places(one: &Eight, other: &Eight) -> Vec<usize> {
    (0..8)
        .filter(|place| one[*place] != other[*place])
        .collect()
}

/// Why given bytes of a length in range are no such condition; there may be more than one reason.
fn reasons(n: usize, given: &Eight) -> Vec<&'static str> {
    let (bytes, behind) = given.split_at(n);
    let zeros = behind.iter().filter(|byte| **byte == 0).count();
    let cut = eight(bytes);
    let lent = |counts| zeros == behind.len() && parsed(bytes, counts).is_some();
    let is = listed(n).contains(&cut);
    let other_length = (1..=8).any(|m| m != n && listed(m).contains(given));
    let changed = listed(n).iter().any(|one| places(one, given).len() == 1);
    [
        ("one byte of a condition changed", !is && changed),
        (
            "one byte behind a condition",
            is && zeros + 1 == behind.len(),
        ),
        ("every byte behind a condition", is && zeros == 0),
        ("a condition of another length", other_length),
        ("a constant", lent([1, 0, 0])),
        ("another variable", !lent([1, 0, 0]) && lent([256, 0, 0])),
        ("a monitor variable", !lent([1, 0, 0]) && lent([1, 1, 0])),
        ("a value at entry", !lent([1, 0, 0]) && lent([1, 0, 1])),
    ]
    .into_iter()
    .filter_map(|(reason, met)| met.then_some(reason))
    .collect()
}

const REASONS: [(&str, usize); 18] = [
    ("one byte of a condition changed", 4_000),
    ("one byte behind a condition", 300),
    ("every byte behind a condition", 150),
    ("a condition of another length", 900),
    ("a constant", 20),
    ("another variable", 200),
    ("a monitor variable", 100),
    ("a value at entry", 100),
    ("none of these", 100),
    ("n = 1", 50),
    ("n = 2", 50),
    ("n = 3", 50),
    ("n = 4", 50),
    ("n = 5", 50),
    ("n = 6", 50),
    ("n = 7", 50),
    ("n = 8", 50),
    ("another condition by one byte", 250),
];

#[test]
fn every_reason_for_26_occurs_often() {
    let mut counts = Counts::new();
    for (n, given, line) in given() {
        if answer(&line) != "refused 26" {
            let by_one = |one: &&Eight| places(one, &given).len() == 1;
            if listed(n).iter().any(|one| by_one(&one)) {
                add(&mut counts, "another condition by one byte".into());
            }
            continue;
        }
        let mut reasons = reasons(n, &given);
        if reasons.is_empty() {
            reasons.push("none of these");
        }
        let labels = reasons.into_iter().map(String::from);
        for label in labels.chain([format!("n = {n}")]) {
            add(&mut counts, label);
        }
    }
    assert_shown(&counts, &REASONS);
}

/// Each change of one byte of a condition that was given: the condition, the place, the new byte and
/// whether it gave another condition.
fn changes() -> Vec<(usize, Eight, usize, u8, bool)> {
    let mut changes = Vec::new();
    for (n, given, line) in given() {
        let accepted = answer(&line) != "refused 26";
        for one in listed(n) {
            if let [place] = places(one, &given)[..] {
                changes.push((n, *one, place, given[place], accepted));
            }
        }
    }
    changes
}

#[test]
fn every_byte_of_300_conditions_is_changed() {
    let mut changed = HashSet::new();
    for (n, one, place, ..) in changes() {
        changed.insert((n, one, place));
    }
    let whole = |n: usize, one: &&Eight| (0..8).all(|place| changed.contains(&(n, **one, place)));
    let mut all = 0;
    for n in 1..=8 {
        let found = listed(n).iter().filter(|one| whole(n, one)).count();
        println!("{found:>6}  n = {n}");
        let least = COUNTS[n - 1].min(80);
        assert!(found >= least, "n = {n}: {found}");
        all += found;
    }
    assert!(all >= 300, "{all}");
}

/// Both outcomes at each place at which both can be, and every byte beside an operator at each place.
#[test]
fn a_changed_byte_gives_another_condition_or_none() {
    let mut counts = Counts::new();
    for (n, _, place, byte, accepted) in changes() {
        let behind = if place < n { "" } else { " behind" };
        let outcome = if accepted { "is one" } else { "is none" };
        add(&mut counts, format!("place {place}{behind}: {outcome}"));
        add(&mut counts, format!("place {place}{behind}: {byte}"));
    }
    for place in 0..8 {
        assert_shown(&counts, &[(&format!("place {place}: is none"), 250)]);
        for byte in [7, 15, 16, 17, 18, 19, 20, 22, 23, 255] {
            assert_shown(&counts, &[(&format!("place {place}: {byte}"), 5)]);
        }
    }
    // `and` and `or`, which have at least two bytes behind them, stand up to place 5.
    for place in 0..6 {
        assert_shown(&counts, &[(&format!("place {place}: is one"), 30)]);
    }
    for place in 1..8 {
        assert_shown(&counts, &[(&format!("place {place} behind: is none"), 6)]);
    }
}

// ---- Faults -----------------------------------------------------------------------------------

/// What one could do wrong when listing.
#[derive(Clone, Copy, Debug, PartialEq)]
enum Fault {
    /// Two operators have each other's place in the order. (That of 6 and of 4 or 5 does not matter: in
    /// eight bytes no two conditions differ in it.)
    Exchanged(u8, u8),
    /// An operator is not there. (That of a choice does not fit in.)
    LeftOut(char, u8),
    /// Something is there that is of other conditions or of none: a constant, which is 0 here, a
    /// monitor variable, a value at entry, variable 1, operators that there are not.
    LetThrough(Row),
    /// 26 is not asked of the bytes behind the n; or not of the one at this place.
    NotAskedBehind,
    NotAskedAt(usize),
    /// Any bytes are taken, and the least greater one answered.
    NotAsked,
    AskedBeforeLength,
    LengthNotAsked,
    FirstWithAByteMore,
    FirstIsSecond,
    SameAgain,
    FirstAfterLast,
    LastIsNone,
}

const FAULTS: [Fault; 38] = [
    Fault::Exchanged(0, 1),
    Fault::Exchanged(1, 2),
    Fault::Exchanged(2, 3),
    Fault::Exchanged(3, 4),
    Fault::Exchanged(4, 5),
    Fault::Exchanged(3, 6),
    Fault::Exchanged(17, 20),
    Fault::Exchanged(20, 21),
    Fault::LeftOut('c', 1),
    Fault::LeftOut('c', 2),
    Fault::LeftOut('c', 3),
    Fault::LeftOut('c', 4),
    Fault::LeftOut('c', 5),
    Fault::LeftOut('c', 6),
    Fault::LeftOut('v', 20),
    Fault::LeftOut('v', 21),
    Fault::LetThrough(('v', 16, "nnnn")),
    Fault::LetThrough(('v', 18, "n")),
    Fault::LetThrough(('v', 19, "n")),
    Fault::LetThrough(('n', 1, "")),
    Fault::LetThrough(('c', 7, "vv")),
    Fault::LetThrough(('v', 23, "vv")),
    Fault::NotAskedBehind,
    Fault::NotAskedAt(1),
    Fault::NotAskedAt(2),
    Fault::NotAskedAt(3),
    Fault::NotAskedAt(4),
    Fault::NotAskedAt(5),
    Fault::NotAskedAt(6),
    Fault::NotAskedAt(7),
    Fault::NotAsked,
    Fault::AskedBeforeLength,
    Fault::LengthNotAsked,
    Fault::FirstWithAByteMore,
    Fault::FirstIsSecond,
    Fault::SameAgain,
    Fault::FirstAfterLast,
    Fault::LastIsNone,
];

/// The rows with a fault in them.
fn rows(fault: Option<Fault>) -> Vec<Row> {
    let mut rows = ROWS.to_vec();
    match fault {
        Some(Fault::Exchanged(one, other)) => {
            let is = |row: &Row, byte| row.0 != 'n' && row.1 == byte;
            let place = |byte| ROWS.iter().position(|row| is(row, byte));
            rows.swap(place(one).unwrap(), place(other).unwrap());
        }
        Some(Fault::LeftOut(sort, byte)) => rows.retain(|row| (row.0, row.1) != (sort, byte)),
        Some(Fault::LetThrough(row)) => {
            rows.push(row);
            rows.sort();
        }
        _ => {}
    }
    rows
}

/// A copy of the listing, with a fault or none.
struct Copied {
    lists: Vec<Vec<Eight>>,
    fault: Option<Fault>,
}

impl Copied {
    fn new(fault: Option<Fault>) -> Copied {
        let lists = lists(&rows(fault));
        Copied { lists, fault }
    }

    fn has(&self, fault: Fault) -> bool {
        self.fault == Some(fault)
    }

    /// A length that is not asked for is taken for the nearest one.
    fn list(&self, n: usize) -> Result<&[Eight], Refusal> {
        match n {
            1..=8 => Ok(&self.lists[n]),
            _ if self.has(Fault::LengthNotAsked) => Ok(&self.lists[n.clamp(1, 8)]),
            _ => Err(Refusal::NoSuchLength),
        }
    }

    fn first(&self, n: usize) -> Listing {
        let list = self.list(n)?;
        let first = match self.fault {
            Some(Fault::FirstWithAByteMore) if n < 8 => self.lists[n + 1].first(),
            Some(Fault::FirstIsSecond) => list.get(1),
            _ => list.first(),
        };
        Ok(first.copied())
    }

    /// What is compared with the listed ones.
    fn looked_for(&self, n: usize, given: Eight) -> Eight {
        let mut looked_for = given;
        match self.fault {
            Some(Fault::NotAskedBehind) => looked_for = eight(&given[..n]),
            Some(Fault::NotAskedAt(place)) if place >= n => looked_for[place] = 0,
            _ => {}
        }
        looked_for
    }

    fn next(&self, n: usize, given: Eight) -> Listing {
        if self.has(Fault::AskedBeforeLength) && !self.lists.concat().contains(&given) {
            return Err(Refusal::NotListed);
        }
        let list = self.list(n)?;
        let looked_for = self.looked_for(n.min(8), given);
        let place = match list.iter().position(|one| *one == looked_for) {
            Some(place) => place + usize::from(!self.has(Fault::SameAgain)),
            None if self.has(Fault::NotAsked) => list.partition_point(|one| *one <= given),
            None => return Err(Refusal::NotListed),
        };
        match self.fault {
            Some(Fault::FirstAfterLast) => Ok(Some(list[place % list.len()])),
            Some(Fault::LastIsNone) if place + 1 == list.len() => Ok(None),
            _ => Ok(list.get(place).copied()),
        }
    }

    fn lines(&self, frame: &Frame) -> Vec<String> {
        frame.lines_by(|n| self.first(n), |n, given| self.next(n, given))
    }
}

#[test]
fn a_copy_without_a_fault_has_the_committed_lines() {
    let copy = Copied::new(None);
    for (frame, lines) in cases() {
        assert_eq!(copy.lines(&frame), lines, "{frame:?}");
    }
}

#[test]
fn faults_in_listing_would_show() {
    let cases = cases();
    for fault in FAULTS {
        let copy = Copied::new(Some(fault));
        let differ = cases
            .iter()
            .filter(|(frame, lines)| copy.lines(frame) != *lines);
        let found = differ.count();
        println!("{found:>6}  {fault:?}");
        assert!(found >= 5, "{fault:?}: {found}");
    }
}

#[test]
fn a_condition_passed_over_would_show() {
    let walks = cases()
        .into_iter()
        .filter_map(|(frame, lines)| match frame {
            Frame::Walk { n: n @ 1..=8 } => Some((usize::from(n), frame, lines)),
            _ => None,
        });
    let mut copy = Copied::new(None);
    let mut passed_over = 0;
    for (n, walk, lines) in walks {
        let whole = copy.lists[n].clone();
        for place in 0..whole.len() {
            copy.lists[n].remove(place);
            assert_ne!(copy.lines(&walk), lines, "{:?}", whole[place]);
            copy.lists[n].clone_from(&whole);
            passed_over += 1;
        }
    }
    assert_eq!(passed_over, 938);
}
