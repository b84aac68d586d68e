//! The cases of the program `sheet_cases`: chosen ones with answers written down here, and random
//! ones from a fixed seed.

use crate::framing::sheet_frames::{accepted, records, Frame, Kind};
use crate::implementation::machine::{set_length, Places};
use crate::implementation::network::Version;
use crate::implementation::run::write_log;
use crate::implementation::translate::{translate_to, CARD_BUFFER};
use crate::making::cases::precondition_roles;
use crate::making::draft::{Front, NetworkDraft, SheetDraft};
use crate::making::generate::{self, Size};
use crate::making::random::Random;
use std::collections::HashSet;

/// A frame and, where it was chosen by hand, the answer worked out apart from the reader.
pub struct Row {
    pub frame: Frame,
    pub expected: Option<String>,
}

/// The refusal's number; `None` where it is accepted.
pub(super) type Answer = Option<u8>;
pub(super) const OK: Answer = None;

/// What sheets and networks of both versions have in common here. All start from the same front.
pub(super) trait Draft: Clone {
    const KIND: Kind;
    const VERSION: u8;
    /// The longest condition.
    const LONGEST: usize;
    /// The highest refusal of reading.
    const LAST_REFUSAL: u8;
    /// The most conditions, actions, transitions, and triples or templates.
    const MOST: [u8; 4];

    fn with(front: Front) -> Self;
    fn front(&mut self) -> &mut Front;
    fn transition(&mut self, bytes: [u8; 6]);
    fn transitions(&mut self) -> Vec<&mut [u8; 6]>;
    /// Names conditions in a triple of unit 0, or in a template and a pair on transition 0. A
    /// network without transitions gets one with condition and action 0.
    fn check(&mut self, precondition: u8, postcondition: u8);
    /// As many triples or templates as asked, none of which is crowded.
    fn fill_last(&mut self, count: u8);
    fn last_postcondition(&mut self) -> &mut u8;
    fn bytes(&self) -> Vec<u8>;
    fn places(&self) -> Places;

    fn changed(mut self, change: impl FnOnce(&mut Self)) -> Self {
        change(&mut self);
        self
    }
}

impl Draft for SheetDraft {
    const KIND: Kind = Kind::Sheet;
    const VERSION: u8 = 1;
    const LONGEST: usize = 64;
    const LAST_REFUSAL: u8 = 8;
    const MOST: [u8; 4] = [64, 32, 64, 32];

    fn with(front: Front) -> Self {
        SheetDraft {
            front,
            ..SheetDraft::default()
        }
    }

    fn front(&mut self) -> &mut Front {
        &mut self.front
    }

    fn transition(&mut self, bytes: [u8; 6]) {
        self.transitions.push(bytes);
    }

    fn transitions(&mut self) -> Vec<&mut [u8; 6]> {
        self.transitions.iter_mut().collect()
    }

    fn check(&mut self, precondition: u8, postcondition: u8) {
        self.triple(0, 0, precondition, postcondition);
    }

    fn fill_last(&mut self, count: u8) {
        self.triples = (0..count).map(|n| [n / 4, 0, 0, 0]).collect();
    }

    fn last_postcondition(&mut self) -> &mut u8 {
        let last = self.triples.len() - 1;
        &mut self.triples[last][3]
    }

    fn bytes(&self) -> Vec<u8> {
        SheetDraft::bytes(self)
    }

    fn places(&self) -> Places {
        SheetDraft::places(self)
    }
}

/// A network of version 2 or 3.
#[derive(Clone)]
pub(super) struct Net<const VERSION: u8>(pub(super) NetworkDraft);

impl<const VERSION: u8> Draft for Net<VERSION> {
    const KIND: Kind = Kind::Network;
    const VERSION: u8 = VERSION;
    const LONGEST: usize = if VERSION == 3 { 1_024 } else { 64 };
    const LAST_REFUSAL: u8 = 7;
    const MOST: [u8; 4] = [if VERSION == 3 { 161 } else { 65 }, 33, 96, 32];

    fn with(front: Front) -> Self {
        let mut draft = NetworkDraft {
            front,
            ..NetworkDraft::default()
        };
        draft.front.wide = VERSION == 3;
        Net(draft)
    }

    fn front(&mut self) -> &mut Front {
        &mut self.0.front
    }

    fn transition(&mut self, bytes: [u8; 6]) {
        self.0.transitions.push((bytes, Vec::new()));
    }

    fn transitions(&mut self) -> Vec<&mut [u8; 6]> {
        self.0.transitions.iter_mut().map(|(t, _)| t).collect()
    }

    fn check(&mut self, precondition: u8, postcondition: u8) {
        let template = self.0.templates.len() as u8;
        self.0.templates.push([0, postcondition]);
        if self.0.transitions.is_empty() {
            self.transition([0; 6]);
        }
        self.0.transitions[0].1.push([precondition, template]);
    }

    fn fill_last(&mut self, count: u8) {
        self.0.templates = vec![[0, 0]; count.into()];
    }

    fn last_postcondition(&mut self) -> &mut u8 {
        let last = self.0.templates.len() - 1;
        &mut self.0.templates[last][1]
    }

    fn bytes(&self) -> Vec<u8> {
        self.0.bytes()
    }

    fn places(&self) -> Places {
        self.0.places()
    }
}

// ---- Drafts to start from ---------------------------------------------------------------------

pub(super) const TRUE: &[u8] = &[0];
pub(super) const ON_MONITOR: &[u8] = &[4, 18, 0, 17, 0];
pub(super) const ON_ENTRY: &[u8] = &[5, 17, 0, 19, 0];
const ON_PROGRAM: &[u8] = &[4, 17, 0, 17, 0];
pub(super) const ON_BOTH: &[u8] = &[5, 18, 0, 19, 0];

/// A header alone, 14 bytes: no variables and no tables.
fn empty<D: Draft>() -> D {
    counted(1, 0, 0)
}

/// No tables; these many states, program and monitor variables.
pub(super) fn counted<D: Draft>(states: u8, program: u8, monitor: u8) -> D {
    D::with(Front {
        version: D::VERSION,
        states,
        units: 1,
        program,
        monitor,
        initial: vec![-1; monitor.into()],
        ..Front::default()
    })
}

/// Some of everything. Conditions: 0 true, 1 on the monitor variable, 2 on a value at entry.
/// Actions: 0 empty, 1 assigns. Transition 0 is an entry to unit 0, transition 1 an exit of unit 1.
pub(super) fn base<D: Draft>() -> D {
    let mut draft: D = counted(2, 1, 1);
    draft.front().units = 2;
    draft.front().bad = 0b10;
    for condition in [TRUE, ON_MONITOR, ON_ENTRY] {
        draft.front().conditions.push(condition.to_vec());
    }
    draft.front().actions = vec![vec![], vec![0, 18, 0]];
    draft.transition([0, 0, 0, 1, 1, 1]);
    draft.transition([1, 1, 1, 0, 0, 0]);
    draft.check(0, 2);
    draft
}

/// One of everything in as few bytes as go.
fn least<D: Draft>() -> D {
    let mut draft: D = one_condition(0, 1, TRUE, true);
    draft.front().actions[0] = vec![0, 18, 0];
    draft.check(0, 0);
    draft
}

/// One condition, unused or the guard of the one transition. One state and unit.
fn one_condition<D: Draft>(program: u8, monitor: u8, condition: &[u8], used: bool) -> D {
    let mut draft: D = counted(1, program, monitor);
    draft.front().conditions.push(condition.to_vec());
    if used {
        draft.front().actions.push(vec![]);
        draft.transition([0; 6]);
    }
    draft
}

/// One action, unused or that of the one transition. One state and unit.
fn one_action<D: Draft>(program: u8, monitor: u8, action: &[u8], used: bool) -> D {
    let mut draft: D = counted(1, program, monitor);
    draft.front().actions.push(action.to_vec());
    if used {
        draft.front().conditions.push(TRUE.to_vec());
        draft.transition([0; 6]);
    }
    draft
}

/// A condition of this length: `not` over and over, then `true`.
fn nots(length: usize) -> Vec<u8> {
    let mut bytes = vec![1; length];
    if let Some(last) = bytes.last_mut() {
        *last = 0;
    }
    bytes
}

// ---- Rows -------------------------------------------------------------------------------------

#[derive(Default)]
pub(super) struct Rows {
    rows: Vec<Row>,
}

impl Rows {
    fn add(&mut self, kind: Kind, program: u8, bytes: Vec<u8>, expected: Option<String>) {
        let frame = Frame {
            kind,
            program,
            bytes,
        };
        self.rows.push(Row { frame, expected });
    }

    pub(super) fn judge<D: Draft>(&mut self, draft: &D, answer: Answer) {
        let expected = match answer {
            None => accepted(draft.places()),
            Some(number) => refused(number),
        };
        self.add(D::KIND, 0, draft.bytes(), Some(expected));
    }

    /// The base with a change.
    fn base<D: Draft>(&mut self, answer: Answer, change: impl FnOnce(&mut D)) {
        self.judge(&base::<D>().changed(change), answer);
    }

    /// A header alone with a change.
    fn header<D: Draft>(&mut self, answer: Answer, change: impl FnOnce(&mut Front)) {
        self.judge(&empty::<D>().changed(|d| change(d.front())), answer);
    }

    fn refused<D: Draft>(&mut self, bytes: &[u8], number: u8) {
        self.add(D::KIND, 0, bytes.to_vec(), Some(refused(number)));
    }

    fn unknown(&mut self, kind: Kind, program: u8, bytes: Vec<u8>) {
        self.add(kind, program, bytes, None);
    }

    fn log(&mut self, program: u8, bytes: &[u8], expected: &str) {
        let expected = Some(expected.to_string());
        self.add(Kind::Log, program, bytes.to_vec(), expected);
    }
}

fn refused(number: u8) -> String {
    format!("refused {number}")
}

/// Accepted up to the limit, refused past it.
fn at_most(number: u8, limit: u8, refusal: u8) -> Answer {
    (number > limit).then_some(refusal)
}

fn with_length(mut bytes: Vec<u8>) -> Vec<u8> {
    set_length(&mut bytes);
    bytes
}

// ---- Sheets and networks alike: refusals 1 to 4 -----------------------------------------------

fn lengths<D: Draft>(rows: &mut Rows) {
    let small = empty::<D>().bytes();
    rows.judge(&empty::<D>(), OK);
    for length in 0..14 {
        rows.refused::<D>(&small[..length], 1);
        rows.refused::<D>(&with_length(small[..length].to_vec()), 1);
    }
    for field in [[0, 0], [0, 13], [0, 15], [1, 14], [14, 0], [128, 14]] {
        let mut bytes = small.clone();
        bytes[..2].copy_from_slice(&field);
        rows.refused::<D>(&bytes, 1);
    }
    let long = [&small[..], &[0]].concat();
    rows.refused::<D>(&long, 1);
    rows.refused::<D>(&with_length(long), 4);
    let usual = base::<D>().bytes();
    rows.judge(&base::<D>(), OK);
    for change in [1, 255] {
        let mut bytes = usual.clone();
        bytes[1] = bytes[1].wrapping_add(change);
        rows.refused::<D>(&bytes, 1);
    }
    rows.refused::<D>(&usual[..usual.len() - 1], 1);
    rows.refused::<D>(&[&usual[..], &[0]].concat(), 1);
}

/// A network may be of the other version, but then its conditions' lengths are read in another way.
fn versions<D: Draft>(rows: &mut Rows) {
    for version in [0, 1, 2, 3, 4, 255] {
        let own = version == D::VERSION;
        let other = D::KIND == Kind::Network && [2, 3].contains(&version);
        let (header, base) = match (own, other) {
            (true, _) => (OK, OK),
            (_, true) => (OK, Some(4)),
            _ => (Some(2), Some(2)),
        };
        rows.header::<D>(header, |f| f.version = version);
        rows.base::<D>(base, |d| d.front().version = version);
    }
}

fn header_counts<D: Draft>(rows: &mut Rows) {
    for count in [0, 1, 2, 15, 16, 17, 255] {
        let answer = if count == 0 {
            Some(3)
        } else {
            at_most(count, 16, 3)
        };
        rows.header::<D>(answer, |f| f.states = count);
        rows.header::<D>(answer, |f| f.units = count);
    }
    for count in [1, 7, 8, 9, 10, 255] {
        rows.header::<D>(at_most(count, 8, 3), |f| f.program = count);
    }
    for count in [1, 3, 4, 5, 6] {
        rows.judge(&counted::<D>(1, 0, count), at_most(count, 4, 3));
        // The values are not there.
        let answer = if count > 4 { 3 } else { 4 };
        rows.header::<D>(Some(answer), |f| f.monitor = count);
    }
    rows.header::<D>(Some(3), |f| f.monitor = 255);
}

fn table_counts<D: Draft>(rows: &mut Rows) {
    for (table, most) in D::MOST.into_iter().enumerate() {
        // The tables are not there: 4 up to the most, 3 past it.
        for (count, number) in [(1, 4), (most - 1, 4), (most, 4), (most + 1, 3), (255, 3)] {
            let mut bytes = empty::<D>().bytes();
            bytes[10 + table] = count;
            rows.refused::<D>(&bytes, number);
        }
        rows.judge(&filled::<D>(table, 1), OK);
        rows.judge(&filled::<D>(table, most), OK);
        // One too many of the others would take many bytes and say no more than above.
        if table < 2 {
            rows.judge(&filled::<D>(table, most + 1), Some(3));
        }
    }
    // A count that is one off what the tables hold.
    for place in 10..14 {
        for change in [1, 255] {
            let mut bytes = least::<D>().bytes();
            bytes[place] = bytes[place].wrapping_add(change);
            rows.unknown(D::KIND, 0, bytes);
        }
    }
}

/// A table with these many entries, and what they need of the other tables.
fn filled<D: Draft>(table: usize, count: u8) -> D {
    let mut draft: D = counted(16, 0, 0);
    let number = usize::from(count);
    match table {
        0 => draft.front().conditions = vec![TRUE.to_vec(); number],
        1 => draft.front().actions = vec![vec![]; number],
        2 => {
            draft.front().conditions.push(TRUE.to_vec());
            draft.front().actions.push(vec![]);
            for _ in 0..number {
                draft.transition([0; 6]);
            }
        }
        _ => {
            draft.front().conditions.push(TRUE.to_vec());
            draft.fill_last(count);
        }
    }
    draft
}

fn starts_and_bad_states<D: Draft>(rows: &mut Rows) {
    for states in [1u8, 2, 8, 9, 16] {
        let with = |start: u8, bad: u16| {
            empty::<D>().changed(|d| {
                (d.front().states, d.front().start, d.front().bad) = (states, start, bad);
            })
        };
        rows.judge(&with(states - 1, 0), OK);
        rows.judge(&with(states, 0), Some(3));
        rows.judge(&with(0, 1), Some(3));
        rows.judge(&with(states - 1, 1 << (states - 1)), Some(3));
        if states > 1 {
            rows.judge(&with(0, 1 << (states - 1)), OK);
        }
        if states < 16 {
            rows.judge(&with(0, 1 << states), Some(3));
        }
        let all = ((1u32 << states) - 1) as u16;
        rows.judge(&with(0, all & !1), OK);
        rows.judge(&with(0, all), Some(3));
        rows.judge(&with(255, 0), Some(3));
    }
    // Which of the two bytes holds which states, and a stray bit far up.
    let wide =
        |start: u8, bad: u16| move |f: &mut Front| (f.states, f.start, f.bad) = (16, start, bad);
    rows.header::<D>(OK, wide(8, 0x0001));
    rows.header::<D>(Some(3), wide(8, 0x0100));
    rows.header::<D>(OK, wide(0, 0x0100));
    rows.header::<D>(OK, wide(7, 0x8000));
    rows.header::<D>(Some(3), wide(15, 0x8000));
    rows.header::<D>(Some(3), |f| (f.states, f.bad) = (3, 0x8000));
    rows.header::<D>(Some(3), |f| (f.states, f.bad) = (2, 0x0200));
}

fn length_bytes<D: Draft>(rows: &mut Rows) {
    for length in [0, 1, 2, 64, 65, D::LONGEST - 1, D::LONGEST, D::LONGEST + 1] {
        let answer = (!(1..=D::LONGEST).contains(&length)).then_some(4);
        rows.judge(&one_condition::<D>(0, 0, &nots(length), false), answer);
    }
    for length in [0, 3, 64, 65] {
        let answer = (length > 64).then_some(4);
        rows.judge(&one_action::<D>(0, 1, &assignments(length), false), answer);
    }
    rows.judge(&one_condition::<D>(0, 0, &nots(D::LONGEST), true), OK);
    rows.judge(&one_action::<D>(0, 1, &assignments(64), true), OK);
    // The bytes that a length byte asks for are not there.
    for length in [0, 1, 64, 65, 128, 255] {
        for table in [10, 11] {
            let mut bytes = [empty::<D>().bytes(), vec![length]].concat();
            bytes[table] = 1;
            let expected = match (table, length) {
                (11, 0) => accepted(Places {
                    transitions: 15,
                    last: 15,
                }),
                _ => refused(4),
            };
            rows.add(D::KIND, 0, with_length(bytes), Some(expected));
        }
    }
    // In the last of several.
    let three = |last: usize| {
        let conditions = vec![TRUE.to_vec(), TRUE.to_vec(), nots(last)];
        empty::<D>().changed(|d| d.front().conditions = conditions)
    };
    rows.judge(&three(0), Some(4));
    rows.judge(&three(1), OK);
    rows.judge(&three(D::LONGEST + 1), Some(4));
}

/// An action of this length that assigns variable 0 to itself, in 3 or 7 bytes at a time.
fn assignments(length: usize) -> Vec<u8> {
    let mut bytes = Vec::new();
    while bytes.len() < length {
        let odd = !(length - bytes.len()).is_multiple_of(3);
        bytes.extend(if odd {
            &[0, 22, 0, 18, 0, 18, 0][..]
        } else {
            &[0, 18, 0]
        });
    }
    bytes
}

/// A draft cut at every place, with its length set right; and drafts one byte longer or shorter.
fn tables_end<D: Draft>(rows: &mut Rows) {
    let whole = least::<D>().bytes();
    rows.judge(&least::<D>(), OK);
    for length in 14..whole.len() {
        rows.refused::<D>(&with_length(whole[..length].to_vec()), 4);
    }
    let usual = base::<D>().bytes();
    rows.refused::<D>(&with_length(usual[..usual.len() - 1].to_vec()), 4);
    for bytes in [whole, usual] {
        for extra in [0, 255] {
            rows.refused::<D>(&with_length([&bytes[..], &[extra]].concat()), 4);
        }
    }
}

// ---- Sheets and networks alike: refusal 5 -----------------------------------------------------

/// P is 1 and V is 1 where these are tried.
const NOT_CONDITIONS: [&[u8]; 20] = [
    &[7],
    &[7, 17, 0, 17, 0, 17, 0],
    &[16],
    &[5, 17, 0, 23, 0, 17, 0, 17, 0],
    &[255],
    &[1],
    &[0, 0],
    &[17, 0],
    &[2, 0],
    &[3, 0, 0, 0],
    &[4, 17, 0],
    &[5, 17, 0, 15, 0, 17, 0, 17, 0],
    &[5, 17, 0, 0],
    &[5, 17, 0, 17, 0, 0],
    &[6, 17, 0, 17, 0],
    &[22, 0, 17, 0, 17, 0],
    &[5, 16, 0, 0, 0, 1],
    &[5, 17, 0, 20, 17, 0],
    &[3, 0, 7],
    &[5, 17, 0, 22, 17, 0, 17, 0, 17, 0],
];
const NOT_ACTIONS: [&[u8]; 12] = [
    &[0],
    &[1],
    &[0, 17],
    &[0, 0],
    &[0, 7],
    &[0, 23],
    &[0, 17, 0, 0],
    &[0, 17, 0, 0, 17],
    &[0, 16, 0, 0, 0],
    &[0, 20, 17, 0],
    &[17, 0],
    &[0, 17, 0, 1, 17, 0],
];

fn malformed<D: Draft>(rows: &mut Rows) {
    // Each is tried once, in turn unused and used; in networks the other way round.
    let turn = |number: usize| number.is_multiple_of(2) == (D::KIND == Kind::Sheet);
    for (number, bytes) in NOT_CONDITIONS.into_iter().enumerate() {
        rows.judge(&one_condition::<D>(1, 1, bytes, turn(number)), Some(5));
    }
    for (number, bytes) in NOT_ACTIONS.into_iter().enumerate() {
        rows.judge(&one_action::<D>(1, 1, bytes, turn(number)), Some(5));
    }
    for used in [false, true] {
        rows.judge(&one_condition::<D>(1, 1, ON_PROGRAM, used), OK);
        rows.judge(&one_action::<D>(1, 1, &[0, 17, 0, 0, 18, 0], used), OK);
    }
    // What is missing stands just behind: a length byte, or a transition's first byte.
    let behind = |conditions: &[&[u8]]| {
        let conditions = conditions.iter().map(|c| c.to_vec()).collect();
        counted::<D>(1, 2, 1).changed(|d| d.front().conditions = conditions)
    };
    rows.judge(&behind(&[&[5, 17, 0, 17], TRUE]), Some(5));
    rows.judge(&behind(&[&[1], TRUE]), Some(5));
    rows.judge(&behind(&[TRUE, TRUE, &[7]]), Some(5));
    rows.judge(&behind(&[&[7], TRUE, TRUE]), Some(5));
    rows.judge(&behind(&[TRUE, TRUE, &[1, 0]]), OK);
    rows.judge(&one_action::<D>(1, 1, &[0, 17], true), Some(5));
    let late = |action: &[u8]| {
        let actions = vec![vec![], vec![0, 17, 0], action.to_vec()];
        counted::<D>(1, 1, 1).changed(|d| d.front().actions = actions)
    };
    rows.judge(&late(&[0, 17]), Some(5));
    rows.judge(&late(&[0, 18, 0]), OK);
}

/// Each kind of variable at its count and just below, with more and with fewer of the other kind.
fn variables<D: Draft>(rows: &mut Rows) {
    for (program, monitor) in [(0, 0), (1, 3), (3, 1), (8, 4)] {
        let condition = |bytes: &[u8], used| one_condition::<D>(program, monitor, bytes, used);
        let action = |bytes: &[u8], used| one_action::<D>(program, monitor, bytes, used);
        for (operator, count) in [(17, program), (18, monitor), (19, program)] {
            rows.judge(
                &condition(&[4, operator, count, 16, 0, 0, 0, 0], false),
                Some(5),
            );
            rows.judge(
                &condition(&[4, 16, 0, 0, 0, 0, operator, count], true),
                Some(5),
            );
            if let Some(last) = count.checked_sub(1) {
                rows.judge(&condition(&[4, operator, last, operator, 0], false), OK);
            }
            if let Some(last) = monitor.checked_sub(1) {
                let used = operator == 18;
                rows.judge(&action(&[last, operator, count], used), Some(5));
                let inside = action(&[last, operator, count - 1], !used);
                rows.judge(&inside, (operator == 19).then_some(7));
            }
        }
        for used in [false, true] {
            rows.judge(&action(&[monitor, 16, 0, 0, 0, 0], used), Some(5));
        }
        if let Some(last) = monitor.checked_sub(1) {
            rows.judge(&action(&[last, 16, 0, 0, 0, 0], false), OK);
        }
    }
    rows.judge(
        &one_condition::<D>(1, 0, &[5, 17, 255, 17, 0], true),
        Some(5),
    );
    rows.judge(&one_action::<D>(1, 1, &[255, 17, 0], true), Some(5));
}

// ---- Sheets and networks alike: refusals 6 and 7 ----------------------------------------------

fn transition_numbers<D: Draft>(rows: &mut Rows) {
    // Of the base: states, kinds, units, conditions that may be guards, actions, states.
    for (place, limit) in [2, 2, 2, 3, 2, 2].into_iter().enumerate() {
        rows.base::<D>(Some(6), |d| d.transitions()[1][place] = limit);
    }
    // Of the least draft, which has one of everything but kinds.
    for (place, limit) in [1, 2, 1, 1, 1, 1].into_iter().enumerate() {
        for number in [limit, 255] {
            let draft = least::<D>().changed(|d| d.transitions()[0][place] = number);
            rows.judge(&draft, Some(6));
        }
    }
    for (place, number) in [(0, 0), (0, 1), (2, 0), (3, 1), (4, 1), (5, 1)] {
        rows.base::<D>(OK, |d| d.transitions()[1][place] = number);
    }
    rows.base::<D>(OK, |d| d.transitions()[1][1] = 0);
    // With nothing that could be named.
    let bare = |conditions: usize, actions: usize| {
        empty::<D>().changed(|d| {
            d.front().conditions = vec![TRUE.to_vec(); conditions];
            d.front().actions = vec![vec![]; actions];
            d.transition([0; 6]);
        })
    };
    for (conditions, actions, answer) in [
        (0, 0, Some(6)),
        (0, 1, Some(6)),
        (1, 0, Some(6)),
        (1, 1, OK),
    ] {
        rows.judge(&bare(conditions, actions), answer);
    }
    let last = |d: &mut D, count: u8| {
        d.front().conditions.push(TRUE.to_vec());
        d.fill_last(count);
    };
    rows.judge(&empty::<D>().changed(|d| last(d, 1)), OK);
    rows.judge(&empty::<D>().changed(|d| d.fill_last(1)), Some(6));
}

fn actions_roles<D: Draft>(rows: &mut Rows) {
    let cases: [(&[u8], Answer); 8] = [
        (&[0, 19, 0], Some(7)),
        (&[0, 17, 0], OK),
        (&[0, 18, 0], OK),
        (&[0, 16, 19, 0, 19, 0], OK),
        (&[0, 17, 0, 0, 19, 0], Some(7)),
        (&[0, 20, 17, 0, 19, 0], Some(7)),
        (&[0, 22, 5, 17, 0, 19, 0, 17, 0, 17, 0], Some(7)),
        (&[0, 22, 0, 17, 0, 19, 0], Some(7)),
    ];
    for (action, answer) in cases {
        for used in [false, true] {
            rows.judge(&one_action::<D>(1, 1, action, used), answer);
        }
    }
    rows.base::<D>(Some(7), |d| d.front().actions.push(vec![0, 19, 0]));
}

/// Which of the three roles a condition may have: guard, precondition, postcondition.
const ROLES: [(&[u8], [bool; 3]); 10] = [
    (TRUE, [true, true, true]),
    (ON_PROGRAM, [true, true, true]),
    (ON_MONITOR, [true, true, false]),
    (ON_ENTRY, [false, false, true]),
    (ON_BOTH, [false, false, false]),
    // Not reached, deep, or only looking like a variable.
    (&[3, 0, 4, 18, 0, 17, 0], [true, true, false]),
    (&[3, 0, 4, 17, 0, 19, 0], [false, false, true]),
    (
        &[5, 22, 5, 19, 0, 17, 0, 17, 0, 17, 0, 17, 0],
        [false, false, true],
    ),
    (&[1, 5, 17, 0, 21, 17, 0, 18, 0], [true, true, false]),
    (&[5, 17, 0, 16, 18, 0, 19, 0], [true, true, true]),
];

/// Condition 0 is true, condition 1 the one that is tried; each role where it is asked for.
fn in_roles<D: Draft>(condition: &[u8], roles: [bool; 3]) -> D {
    let mut draft: D = counted(1, 1, 1);
    draft.front().conditions = vec![TRUE.to_vec(), condition.to_vec()];
    draft.front().actions.push(vec![]);
    if roles[1] || roles[2] {
        draft.check(u8::from(roles[1]), u8::from(roles[2]));
    }
    if roles[0] {
        draft.transition([0, 1, 0, 1, 0, 0]);
    }
    draft
}

fn condition_roles<D: Draft>(rows: &mut Rows) {
    for (condition, may) in ROLES {
        for role in 0..3 {
            let mut roles = [false; 3];
            roles[role] = true;
            let answer = (!may[role]).then_some(7);
            rows.judge(&in_roles::<D>(condition, roles), answer);
        }
    }
    // Several roles at once: each must be allowed.
    for (condition, may) in ROLES.into_iter().take(5) {
        rows.judge(&in_roles::<D>(condition, [false; 3]), OK);
        for roles in [
            [true, true, false],
            [true, false, true],
            [false, true, true],
        ] {
            let all = roles.iter().zip(may).all(|(asked, may)| !asked || may);
            rows.judge(&in_roles::<D>(condition, roles), (!all).then_some(7));
        }
    }
    // An entry's guard; and roles in the second of two.
    rows.base::<D>(Some(7), |d| d.transitions()[0][3] = 2);
    rows.base::<D>(Some(7), |d| d.transitions()[1][3] = 2);
    rows.base::<D>(OK, |d| d.transitions()[1][3] = 1);
    for (pre, post, answer) in [
        (0, 0, OK),
        (0, 2, OK),
        (0, 1, Some(7)),
        (1, 0, OK),
        (1, 2, OK),
        (1, 1, Some(7)),
        (2, 0, Some(7)),
    ] {
        rows.base::<D>(answer, |d| d.check(pre, post));
    }
    rows.base::<D>(OK, |d| d.front().conditions.push(ON_BOTH.to_vec()));
}

// ---- Which refusal comes first ----------------------------------------------------------------

/// Breaks a draft in the way that a refusal is for, early in its bytes.
fn spoil_early<D: Draft>(draft: &mut D, number: u8) {
    match number {
        2 => draft.front().version = 9,
        3 => draft.front().states = 0,
        4 => draft.front().conditions[0] = vec![],
        5 => draft.front().conditions[1] = vec![99],
        6 => draft.transitions()[0][0] = 99,
        7 => draft.transitions()[0][3] = 2,
        // Only a sheet has 8.
        _ => (0..4).for_each(|_| draft.check(0, 0)),
    }
}

/// The bytes of a draft that is broken for a refusal late in its bytes, where there is a choice.
fn spoiled_late<D: Draft>(mut draft: D, number: u8) -> Vec<u8> {
    match number {
        3 => draft.front().start = 2,
        4 => return with_length([draft.bytes(), vec![0]].concat()),
        5 => draft.front().actions.push(vec![9]),
        6 => *draft.last_postcondition() = 99,
        7 => *draft.last_postcondition() = 1,
        1 => {
            let mut bytes = draft.bytes();
            bytes[1] ^= 1;
            return bytes;
        }
        _ => spoil_early(&mut draft, number),
    }
    draft.bytes()
}

fn precedence<D: Draft>(rows: &mut Rows) {
    for first in 1..=D::LAST_REFUSAL {
        for second in first + 1..=D::LAST_REFUSAL {
            let draft = base::<D>().changed(|d| spoil_early(d, second));
            rows.refused::<D>(&spoiled_late(draft, first), first);
        }
        // All the later ones at once.
        if first <= 5 {
            let draft = base::<D>().changed(|d| {
                for second in first + 1..=D::LAST_REFUSAL {
                    spoil_early(d, second);
                }
            });
            rows.refused::<D>(&spoiled_late(draft, first), first);
        }
    }
    // A length out of range behind what is no condition.
    let long_condition = nots(D::LONGEST + 1);
    for (conditions, actions) in [
        (vec![vec![]], vec![]),
        (vec![long_condition], vec![]),
        (vec![], vec![assignments(65)]),
    ] {
        rows.base::<D>(Some(4), |d| {
            d.front().conditions[0] = vec![7];
            d.front().conditions.extend(conditions);
            d.front().actions.extend(actions);
        });
    }
    // A wrong count and tables that do not fit; under 14 bytes and everything wrong.
    rows.refused::<D>(&with_length(vec![255; 40]), 2);
    rows.refused::<D>(&[255; 13], 1);
    rows.refused::<D>(&[255; 14], 1);
    rows.refused::<D>(&[0; 14], 1);
    let mut bytes = with_length(vec![255; 40]);
    bytes[2] = D::VERSION;
    rows.refused::<D>(&bytes, 3);
}

// ---- Sheets alone -----------------------------------------------------------------------------

fn triple_numbers(rows: &mut Rows) {
    for (place, limit) in [2, 2, 3, 3].into_iter().enumerate() {
        for number in [limit, 255] {
            rows.base::<SheetDraft>(Some(6), |d| d.triples[0][place] = number);
        }
        let late = |d: &mut SheetDraft| {
            d.triple(1, 1, 0, 0);
            d.triples[1][place] = limit;
        };
        rows.base::<SheetDraft>(Some(6), late);
    }
    rows.base::<SheetDraft>(OK, |d| d.triples[0] = [1, 1, 0, 2]);
    rows.base::<SheetDraft>(OK, |d| d.triples[0] = [0, 0, 0, 0]);
}

/// States and units of triples, and whether five are together.
fn crowding(rows: &mut Rows) {
    let mut with = |places: &[[u8; 2]], answer: Answer| {
        let mut draft: SheetDraft = counted(16, 0, 0);
        draft.front.units = 16;
        draft.front.conditions.push(TRUE.to_vec());
        for [state, unit] in places {
            draft.triple(*state, *unit, 0, 0);
        }
        rows.judge(&draft, answer);
    };
    for place in [[0, 0], [0, 1], [1, 0], [15, 15], [0, 15], [15, 0]] {
        with(&[place; 4], OK);
        with(&[place; 5], Some(8));
    }
    with(&[[3, 3]; 6], Some(8));
    with(&[[4, 3]; 9], Some(8));
    // Equal states with other units, equal units with other states, the two exchanged.
    let spread = |at: fn(u8) -> [u8; 2]| (0..16).map(at).collect::<Vec<_>>();
    with(&spread(|n| [0, n]), OK);
    with(&spread(|n| [n, 0]), OK);
    with(&spread(|n| [n, 15 - n]), OK);
    with(&[[[2, 1]; 4], [[1, 2]; 4]].concat(), OK);
    with(&[[2, 1], [1, 2]].repeat(4), OK);
    let mixed = [[2, 1], [1, 2]].repeat(4);
    with(&[&mixed[..], &[[1, 2]]].concat(), Some(8));
    with(&[&mixed[..], &[[2, 1]]].concat(), Some(8));
    with(&[&mixed[..], &[[2, 2]]].concat(), OK);
    with(&[&mixed[..], &[[1, 1]]].concat(), OK);
    with(&[&[[2, 1]], &mixed[..]].concat(), Some(8));
    // The fifth first, last and between.
    for place in [0, 3, 7] {
        let mut between = vec![[5, 7]; 4];
        between.extend([[5, 8], [6, 7], [7, 5]]);
        between.insert(place, [5, 7]);
        with(&between, Some(8));
        between[0] = [8, 5];
        with(&between, OK);
    }
    // Eight places with four each; and the last of 32 the fifth of the first or of the last.
    let full: Vec<[u8; 2]> = (0..32).map(|n| [n % 4, n / 4 % 2 + 14]).collect();
    with(&full, OK);
    for fifth in [full[0], full[30]] {
        with(&[&full[..31], &[fifth]].concat(), Some(8));
    }
}

// ---- Networks alone ---------------------------------------------------------------------------

fn pairs_and_templates<const VERSION: u8>(rows: &mut Rows) {
    let mut change = |answer: Answer, change: &dyn Fn(&mut NetworkDraft)| {
        rows.base::<Net<VERSION>>(answer, |d| change(&mut d.0));
    };
    for count in [0, 1, 2, 3, 4, 5, 6] {
        let answer = at_most(count, 4, 4);
        change(answer, &|d| d.transitions[0].1 = vec![[0, 0]; count.into()]);
    }
    // n on the last transition, with no pairs behind it.
    for count in [1, 4, 5, 255] {
        let mut bytes = empty::<Net<VERSION>>()
            .changed(|d| d.transition([0; 6]))
            .bytes();
        bytes[20] = count;
        rows.refused::<Net<VERSION>>(&bytes, 4);
    }
    let mut change = |answer: Answer, change: &dyn Fn(&mut NetworkDraft)| {
        rows.base::<Net<VERSION>>(answer, |d| change(&mut d.0));
    };
    for number in [3, 255] {
        change(Some(6), &|d| d.transitions[0].1[0][0] = number);
        change(Some(6), &|d| d.transitions[0].1.push([number, 0]));
        change(Some(6), &|d| d.templates[0][1] = number);
    }
    for number in [1, 255] {
        change(Some(6), &|d| d.transitions[0].1[0][1] = number);
        change(Some(6), &|d| d.transitions[0].1.push([0, number]));
    }
    for number in [2, 255] {
        change(Some(6), &|d| d.templates[0][0] = number);
        change(Some(6), &|d| d.templates.push([number, 0]));
    }
    change(Some(6), &|d| d.templates.push([0, 3]));
    change(OK, &|d| d.templates.push([1, 2]));
    // A template counts though no pair names it.
    change(Some(7), &|d| d.templates.push([1, 1]));
    change(OK, &|d| d.transitions[0].1.clear());
    change(Some(6), &|d| d.templates.clear());
    // Pairs on an exit, whatever they hold.
    for pair in [[0, 0], [9, 9], [2, 0]] {
        change(Some(6), &|d| d.transitions[1].1.push(pair));
    }
    change(Some(6), &|d| d.transitions[0].0[1] = 1);
    change(Some(6), &|d| {
        d.templates.push([1, 0]);
        d.transitions[1].1.push([0, 1]);
    });
    // A template of another unit.
    change(Some(6), &|d| d.templates[0][0] = 1);
    change(Some(6), &|d| d.transitions[0].0[2] = 1);
    change(OK, &|d| {
        d.templates[0][0] = 1;
        d.transitions[0].0[2] = 1;
    });
    let other = |template: u8| {
        move |d: &mut NetworkDraft| {
            d.templates.push([1, 0]);
            d.transitions[0].1.push([0, template]);
        }
    };
    change(OK, &other(0));
    change(Some(6), &other(1));
    // The same template often, and over four pairs for a state and unit over two transitions.
    change(OK, &|d| {
        d.transitions[0].1 = vec![[0, 0]; 4];
        let again = d.transitions[0].clone();
        d.transitions.push(again);
    });
    // Over four templates of one unit.
    change(OK, &|d| d.templates = vec![[0, 0]; 6]);
}

// ---- Version 3 alone --------------------------------------------------------------------------

/// The bytes of a version 3 network with one condition: its length as written, and its bytes.
fn with_length_field(field: [u8; 2], condition: &[u8]) -> Vec<u8> {
    let mut bytes = empty::<Net<3>>().bytes();
    bytes[10] = 1;
    with_length([&bytes[..], &field, condition].concat())
}

/// Two bytes of length: both count, the first one more.
fn length_fields(rows: &mut Rows) {
    for length in [1, 255, 256, 257, 511, 512, 1_023, 1_024] {
        rows.judge(&one_condition::<Net<3>>(0, 0, &nots(length), false), OK);
    }
    for length in [1_025, 1_026, 1_088, 1_280, 2_048] {
        let draft = one_condition::<Net<3>>(0, 0, &nots(length), false);
        rows.judge(&draft, Some(4));
    }
    // The two bytes exchanged.
    rows.refused::<Net<3>>(&with_length_field([1, 0], &nots(1)), 4);
    rows.refused::<Net<3>>(&with_length_field([2, 1], &nots(258)), 4);
    // One byte short of what is asked for, and one too many.
    for (high, length) in [(1, 255), (1, 257), (4, 1_023), (4, 1_025)] {
        rows.refused::<Net<3>>(&with_length_field([high, 0], &nots(length)), 4);
    }
    misread_lengths(rows);
}

/// Nothing behind the length, what its low byte alone would ask for, and what its high one would.
fn misread_lengths(rows: &mut Rows) {
    for number in [0, 1, 256, 257, 258, 513, 1_024, 1_025, u16::MAX] {
        let [high, low] = number.to_be_bytes();
        for length in [0, low, high] {
            let bytes = with_length_field([high, low], &nots(length.into()));
            let right = length > 0 && number == u16::from(length);
            let end = Places {
                transitions: bytes.len(),
                last: bytes.len(),
            };
            let expected = if right { accepted(end) } else { refused(4) };
            rows.add(Kind::Network, 0, bytes, Some(expected));
        }
    }
}

/// Where the tables begin behind long conditions, one of which is in the middle; and what breaks
/// behind them.
fn long_tables(rows: &mut Rows) {
    for length in [64, 65, 255, 256, 257, 1_024] {
        let long = |d: &mut Net<3>| d.front().conditions.insert(3, nots(length));
        rows.base::<Net<3>>(OK, long);
        let between = |d: &mut Net<3>| {
            d.front().conditions.push(nots(length));
            d.front().conditions.push(nots(2));
            d.transitions()[1][3] = 4;
        };
        rows.base::<Net<3>>(OK, between);
        rows.base::<Net<3>>(Some(6), |d| {
            between(d);
            d.transitions()[1][3] = 5;
        });
        rows.base::<Net<3>>(Some(4), |d| {
            between(d);
            d.0.transitions[0].1 = vec![[0, 0]; 5];
        });
        rows.base::<Net<3>>(Some(5), |d| {
            between(d);
            d.front().conditions[3][length - 1] = 1;
        });
        rows.base::<Net<3>>(Some(7), |d| {
            between(d);
            d.front().conditions[4] = ON_ENTRY.to_vec();
        });
    }
    for (count, answer) in [(160, OK), (161, OK), (162, Some(3))] {
        let many = |d: &mut Net<3>| d.front().conditions.resize(count, nots(3));
        rows.base::<Net<3>>(answer, many);
    }
    for (number, answer) in [(159, OK), (160, OK), (161, Some(6)), (255, Some(6))] {
        rows.base::<Net<3>>(answer, |d| {
            d.front().conditions.resize(161, nots(1));
            d.transitions()[1][3] = number;
            d.0.transitions[0].1[0][0] = number.min(160);
            *d.last_postcondition() = number;
        });
    }
}

/// What decides a long condition stands at its end, in each role.
fn long_conditions(rows: &mut Rows) {
    for (end, may) in [
        (ON_PROGRAM, [true; 3]),
        (ON_MONITOR, [true, true, false]),
        (ON_ENTRY, [false, false, true]),
        (ON_BOTH, [false; 3]),
    ] {
        let condition = [&vec![1; 1_024 - end.len()], end].concat();
        for role in 0..3 {
            let mut roles = [false; 3];
            roles[role] = true;
            let answer = (!may[role]).then_some(7);
            rows.judge(&in_roles::<Net<3>>(&condition, roles), answer);
        }
    }
    let at_end = |end: &[u8]| {
        let condition = [&vec![1; 1_024 - end.len()], end].concat();
        one_condition::<Net<3>>(1, 1, &condition, true)
    };
    rows.judge(&at_end(ON_ENTRY), Some(7));
    for end in [
        &[1][..],
        &[7],
        &[0, 0],
        &[4, 17, 0],
        &[5, 17, 0, 17, 1],
        &[5, 18, 1, 17, 0],
    ] {
        rows.judge(&at_end(end), Some(5));
    }
    // The same text is too long for a sheet and for version 2.
    rows.judge(&one_condition::<SheetDraft>(0, 0, &nots(65), true), Some(4));
    rows.judge(&one_condition::<Net<2>>(0, 0, &nots(65), true), Some(4));
    rows.judge(&one_condition::<Net<3>>(0, 0, &nots(65), true), OK);
}

/// The network of document 01's sheet A, and others, with their version byte changed.
fn other_versions(rows: &mut Rows) {
    rows.add(
        Kind::Network,
        0,
        CARD_A.to_vec(),
        Some("accepted 41 66".into()),
    );
    rows.refused::<SheetDraft>(&CARD_A, 2);
    let with = |bytes: &[u8], version: u8| {
        let mut bytes = bytes.to_vec();
        bytes[2] = version;
        bytes
    };
    rows.refused::<Net<2>>(&with(&CARD_A, 2), 4);
    rows.refused::<Net<3>>(&with(&NETWORK_A, 3), 4);
    for version in [0, 1, 4, 255] {
        rows.refused::<Net<3>>(&with(&CARD_A, version), 2);
    }
    // Read in either version: no conditions.
    let none = least::<Net<2>>().changed(|d| d.front().conditions.clear());
    for version in [2, 3] {
        rows.refused::<Net<2>>(&with(&none.bytes(), version), 6);
    }
    let actions = one_action::<Net<2>>(0, 1, &assignments(64), false).bytes();
    for version in [2, 3] {
        let expected = accepted(Places {
            transitions: actions.len(),
            last: actions.len(),
        });
        rows.add(Kind::Network, 0, with(&actions, version), Some(expected));
    }
}

// ---- Document 01 and the greatest -------------------------------------------------------------

/// Document 01's sheet A.
pub const SHEET_A: [u8; 39] = [
    0x00, 0x27, 0x01, 0x02, 0x01, 0x02, 0x00, 0x00, 0x00, 0x00, 0x02, 0x01, 0x02,
    0x01, // header
    0x01, 0x00, 0x05, 0x05, 0x11, 0x01, 0x13, 0x00, // conditions
    0x00, // action
    0x00, 0x00, 0x00, 0x00, 0x00, 0x01, 0x01, 0x01, 0x00, 0x00, 0x00, 0x00, // transitions
    0x00, 0x00, 0x00, 0x01, // triple
];
pub const NETWORK_A: [u8; 53] = [
    0x00, 0x35, 0x02, 0x02, 0x01, 0x02, 0x00, 0x00, 0x00, 0x00, 0x03, 0x02, 0x03,
    0x01, // header
    0x01, 0x00, 0x05, 0x05, 0x11, 0x01, 0x13, 0x00, 0x01, 0x00, // conditions
    0x00, 0x00, // actions
    0x00, 0x00, 0x00, 0x00, 0x00, 0x01, 0x01, 0x00, 0x00, // transitions
    0x01, 0x01, 0x00, 0x00, 0x00, 0x00, 0x00, // an exit
    0x00, 0x00, 0x00, 0x02, 0x01, 0x00, 0x01, 0x00, 0x00, // the added one
    0x00, 0x01, // template
];
/// The network of sheet A in version 3.
pub const CARD_A: [u8; 68] = [
    0x00, 0x44, 0x03, 0x02, 0x01, 0x02, 0x00, 0x00, 0x00, 0x00, 0x06, 0x02, 0x03,
    0x01, // header
    0x00, 0x01, 0x00, 0x00, 0x05, 0x05, 0x11, 0x01, 0x13, 0x00, // the sheet's conditions
    0x00, 0x01, 0x00, // the added one
    0x00, 0x01, 0x00, 0x00, 0x01, 0x00, 0x00, 0x04, 0x02, 0x01, 0x00, 0x00, // joined
    0x00, 0x00, // actions
    0x00, 0x00, 0x00, 0x03, 0x00, 0x01, 0x01, 0x00, 0x00, // transitions
    0x01, 0x01, 0x00, 0x04, 0x00, 0x00, 0x00, // an exit
    0x00, 0x00, 0x00, 0x05, 0x01, 0x00, 0x01, 0x00, 0x00, // the added one
    0x00, 0x01, // template
];
/// Document 01's log on sheet A.
pub const LOG_A: [u8; 30] = [
    0x00, 0x00, 0x00, 0x1E, 0x01, 0x02, // header
    0x00, 0x00, 0x00, 0x07, 0x00, 0x00, 0x00, 0x08, 0x00, 0x00, 0x00, 0x00, // entry
    0x01, 0x00, 0x00, 0x07, 0x00, 0x00, 0x00, 0x08, 0x00, 0x00, 0x00, 0x07, // exit
];

fn document(rows: &mut Rows) {
    let some = |text: &str| Some(text.to_string());
    rows.add(Kind::Sheet, 0, SHEET_A.to_vec(), some("accepted 23 35"));
    rows.add(Kind::Network, 0, NETWORK_A.to_vec(), some("accepted 26 51"));
    rows.log(2, &LOG_A, "records 2");
    // Each read as the others.
    rows.add(Kind::Network, 0, SHEET_A.to_vec(), some("refused 2"));
    rows.add(Kind::Sheet, 0, NETWORK_A.to_vec(), some("refused 2"));
    rows.add(Kind::Sheet, 0, LOG_A.to_vec(), some("refused 1"));
    rows.add(Kind::Network, 0, LOG_A.to_vec(), some("refused 1"));
    for program in [0, 1, 3, 8, 255] {
        rows.log(program, &LOG_A, "refused 17");
    }
    rows.log(2, &SHEET_A, "refused 16");
}

fn greatest(rows: &mut Rows) {
    let sheet = generate::sheet(&mut Random::new(SEED), Size::Full);
    rows.judge(&sheet, OK);
    let network = greatest_network(&sheet);
    rows.judge(&Net::<2>(network.clone()), OK);
    // The longest of which a frame fits into a page.
    rows.judge(&Net::<3>(network_of_length(network, 65_532)), OK);
}

/// From the greatest network of version 2: 161 conditions in version 3, of 1,024 bytes while there is
/// room, and then of as many as are left.
pub(crate) fn network_of_length(network: NetworkDraft, length: usize) -> NetworkDraft {
    let mut draft = network.in_version_3();
    draft.front.conditions.resize(161, nots(1));
    let missing = length - draft.bytes().len();
    for (number, condition) in draft.front.conditions[65..].iter_mut().enumerate() {
        let more = missing.saturating_sub(1_023 * number).min(1_023);
        *condition = nots(1 + more);
    }
    let (last, pairs) = &mut draft.transitions[95];
    (last[3], pairs[3][0]) = (160, 160);
    draft
}

/// From a sheet of the greatest length: every table filled, every transition an entry with four
/// pairs, and the highest numbers named at least once.
pub(crate) fn greatest_network(sheet: &SheetDraft) -> NetworkDraft {
    let Net(mut draft) = Net::<2>::with(sheet.front.clone());
    draft.front.version = 2;
    draft.front.conditions.push(nots(64));
    draft.front.actions.push(assignments(64));
    draft.templates = sheet.triples.iter().map(|t| [t[1], t[3]]).collect();
    let transitions = sheet.transitions.iter().cycle();
    let triples = sheet.triples.iter().cycle();
    for (transition, triple) in transitions.zip(triples).take(96) {
        let [from, _, _, condition, action, to] = *transition;
        let unit = triple[1];
        let fitting = (0u8..).zip(&sheet.triples).filter(|(_, t)| t[1] == unit);
        let pairs = fitting.map(|(template, t)| [t[2], template]).cycle();
        let transition = [from, 0, unit, condition, action, to];
        draft
            .transitions
            .push((transition, pairs.take(4).collect()));
    }
    let (last, pairs) = &mut draft.transitions[95];
    (last[0], last[3], last[4], last[5]) = (15, 64, 32, 15);
    pairs[3][0] = 64;
    draft
}

// ---- Logs -------------------------------------------------------------------------------------

/// A log of version 1 with its length set right.
fn log(program: u8, body: usize) -> Vec<u8> {
    let length = 6 + body as u32;
    let mut bytes = length.to_be_bytes().to_vec();
    bytes.extend([1, program]);
    // Records are counted, not judged.
    bytes.extend((0..body).map(|n| 255 - n as u8));
    bytes
}

fn log_headers(rows: &mut Rows) {
    for length in 0..6 {
        rows.log(0, &log(0, 0)[..length], "refused 16");
        let mut bytes = log(0, 0);
        bytes[3] = length as u8;
        rows.log(0, &bytes[..length], "refused 16");
    }
    rows.log(0, &log(0, 0), "records 0");
    for (program, body) in [(0, 0), (1, 8), (2, 12)] {
        let good = log(program, body);
        let count = body / (4 + 4 * usize::from(program));
        rows.log(program, &good, &records(count));
        for (place, change) in [(3, 1), (3, 255), (2, 1), (1, 1), (0, 1), (0, 128)] {
            let mut bytes = good.clone();
            bytes[place] = bytes[place].wrapping_add(change);
            rows.log(program, &bytes, "refused 16");
        }
        for version in [0, 2, 3, 255] {
            let mut bytes = good.clone();
            bytes[4] = version;
            rows.log(program, &bytes, "refused 16");
        }
        rows.log(program, &[&good[..], &[0]].concat(), "refused 16");
        rows.log(program, &good[..good.len() - 1], "refused 16");
        for other in [program + 1, program.wrapping_sub(1), 8, 255] {
            rows.log(other, &good, "refused 17");
        }
    }
    // 16 before 17 before 18.
    let mut both = log(1, 8);
    both[4] = 0;
    rows.log(2, &both, "refused 16");
    rows.log(2, &log(1, 7), "refused 17");
    rows.log(2, &log(1, 12), "refused 17");
    both = log(1, 7);
    both[3] += 1;
    rows.log(1, &both, "refused 16");
}

fn log_records(rows: &mut Rows) {
    for program in 0..=8u8 {
        let one = 4 + 4 * usize::from(program);
        rows.log(program, &log(program, 0), "records 0");
        rows.log(program, &log(program, one), "records 1");
        rows.log(program, &log(program, 2 * one), "records 2");
        for body in [1, one - 1, one + 1] {
            rows.log(program, &log(program, body), "refused 18");
        }
        if program > 0 {
            // Whole words.
            rows.log(program, &log(program, 4), "refused 18");
            rows.log(program, &log(program, one - 4), "refused 18");
            rows.log(program, &log(program, one + 4), "refused 18");
        }
    }
    // More variables than a sheet may have; at 63 and 64 one byte does not hold a record's length.
    for program in [9, 62, 63, 64, 127, 128, 254, 255] {
        rows.log(program, &log(program, 0), "records 0");
        for body in [1, 3, 4, 5, 8] {
            rows.log(program, &log(program, body), "refused 18");
        }
        rows.log(program, &log(program - 1, 4), "refused 17");
        rows.log(program - 1, &log(program, 4), "refused 17");
    }
    rows.log(63, &log(63, 256), "records 1");
    rows.log(0, &log(0, 4 * 256), "records 256");
}

// ---- All chosen cases -------------------------------------------------------------------------

fn alike<D: Draft>(rows: &mut Rows) {
    for add in [
        lengths::<D>,
        versions::<D>,
        header_counts::<D>,
        table_counts::<D>,
        starts_and_bad_states::<D>,
        length_bytes::<D>,
        tables_end::<D>,
        malformed::<D>,
        variables::<D>,
        transition_numbers::<D>,
        actions_roles::<D>,
        condition_roles::<D>,
        precedence::<D>,
    ] {
        add(rows);
    }
}

/// The cases chosen by hand, each with its answer save for a few where a count is one off.
pub fn chosen() -> Vec<Row> {
    let mut rows = Rows::default();
    for add in [
        document,
        alike::<SheetDraft>,
        triple_numbers,
        crowding,
        alike::<Net<2>>,
        pairs_and_templates::<2>,
        alike::<Net<3>>,
        pairs_and_templates::<3>,
        length_fields,
        long_tables,
        long_conditions,
        other_versions,
        precondition_roles::add,
        log_headers,
        log_records,
        greatest,
    ] {
        add(&mut rows);
    }
    rows.rows
}

// ---- Random cases -----------------------------------------------------------------------------

const SEED: u64 = 0x5741_5443_4802;
/// Of each sort below.
const SOUND: usize = 14;
const ONE_BYTE: usize = 30;
const BROKEN: usize = 8;
const LOGS: usize = 36;
/// The longest random sheet, network or log, to keep the file small; and the longest of version 3.
const LONGEST_RANDOM: usize = 60;
const LONGEST_CARD: usize = 110;

/// Tries again until the result is short enough and meets a wish.
fn short<T>(
    random: &mut Random,
    longest: usize,
    make: fn(&mut Random) -> T,
    bytes: fn(&T) -> Vec<u8>,
    wish: fn(&T) -> bool,
) -> T {
    loop {
        let made = make(random);
        if bytes(&made).len() <= longest && wish(&made) {
            return made;
        }
    }
}

/// With transitions and triples.
fn short_sheet(random: &mut Random) -> SheetDraft {
    let make = |random: &mut Random| generate::sheet(random, Size::Small);
    let wish = |d: &SheetDraft| !d.transitions.is_empty() && !d.triples.is_empty();
    short(random, LONGEST_RANDOM, make, SheetDraft::bytes, wish)
}

/// With pairs.
fn short_network(random: &mut Random) -> NetworkDraft {
    let make = |random: &mut Random| generate::network(random, Size::Small);
    let wish = |d: &NetworkDraft| d.transitions.iter().any(|(_, pairs)| !pairs.is_empty());
    short(random, LONGEST_RANDOM, make, NetworkDraft::bytes, wish)
}

/// What translating a sheet gives.
fn short_translation(random: &mut Random) -> Vec<u8> {
    let make = |random: &mut Random| translated(&short_sheet(random), Version::Two);
    short(random, LONGEST_RANDOM, make, Vec::clone, |bytes| {
        !bytes.is_empty()
    })
}

/// The same in version 3.
fn short_card(random: &mut Random) -> Vec<u8> {
    let make = |random: &mut Random| translated(&short_sheet(random), Version::Three);
    short(random, LONGEST_CARD, make, Vec::clone, |bytes| {
        !bytes.is_empty()
    })
}

/// No bytes where it is refused.
fn translated(draft: &SheetDraft, version: Version) -> Vec<u8> {
    let mut buffer = vec![0; CARD_BUFFER];
    let length = translate_to(version, &draft.bytes(), &mut buffer).unwrap_or(0);
    buffer.truncate(length);
    buffer
}

fn short_broken_sheet(random: &mut Random) -> Vec<u8> {
    let make = |random: &mut Random| {
        let draft = short_sheet(random);
        generate::break_sheet(random, &draft)
    };
    short(random, LONGEST_RANDOM, make, Vec::clone, |_| true)
}

fn short_broken_network(random: &mut Random) -> Vec<u8> {
    let make = |random: &mut Random| {
        let draft = short_network(random);
        generate::break_network(random, &draft)
    };
    short(random, LONGEST_RANDOM, make, Vec::clone, |_| true)
}

fn short_broken_card(random: &mut Random) -> Vec<u8> {
    let make = |random: &mut Random| {
        let draft = short_network(random).in_version_3();
        generate::break_network(random, &draft)
    };
    short(random, LONGEST_CARD, make, Vec::clone, |_| true)
}

/// Another value for one byte behind the length: one more, one less, a small one, or any.
fn change_one_byte(random: &mut Random, mut bytes: Vec<u8>) -> Vec<u8> {
    let place = random.between(2, bytes.len() - 1);
    let before = bytes[place];
    while bytes[place] == before {
        bytes[place] = match random.below(4) {
            0 => before.wrapping_add(1),
            1 => before.wrapping_sub(1),
            2 => random.below(24) as u8,
            _ => random.byte(),
        };
    }
    bytes
}

fn random_sheets_and_networks(random: &mut Random, rows: &mut Rows) {
    for _ in 0..SOUND {
        rows.judge(&short_sheet(random), OK);
        rows.judge(&Net::<2>(short_network(random)), OK);
        rows.unknown(Kind::Network, 0, short_translation(random));
    }
    for _ in 0..ONE_BYTE {
        let sheet = short_sheet(random).bytes();
        rows.unknown(Kind::Sheet, 0, change_one_byte(random, sheet));
        let network = short_network(random).bytes();
        rows.unknown(Kind::Network, 0, change_one_byte(random, network));
    }
    for _ in 0..BROKEN {
        rows.unknown(Kind::Sheet, 0, short_broken_sheet(random));
        rows.unknown(Kind::Network, 0, short_broken_network(random));
    }
}

fn random_cards(random: &mut Random, rows: &mut Rows) {
    for _ in 0..SOUND {
        let draft = short_network(random);
        rows.judge(&Net::<3>(generate::lengthened(random, draft)), OK);
        rows.unknown(Kind::Network, 0, short_card(random));
    }
    for _ in 0..ONE_BYTE {
        let network = short_network(random).in_version_3().bytes();
        rows.unknown(Kind::Network, 0, change_one_byte(random, network));
        let card = short_card(random);
        rows.unknown(Kind::Network, 0, change_one_byte(random, card));
    }
    for _ in 0..2 * BROKEN {
        rows.unknown(Kind::Network, 0, short_broken_card(random));
    }
}

fn random_logs(random: &mut Random, rows: &mut Rows) {
    for number in 0..LOGS {
        let program = random.between(0, 3);
        let shape = generate::Shape {
            units: 3,
            program: program as u8,
        };
        let count = random.between(0, 6 / (1 + program));
        let manner = generate::Manner::any(random);
        let made = generate::records(random, shape, manner, count);
        let log = write_log(shape.program, &made);
        match number % 4 {
            0 => rows.log(shape.program, &log, &records(count)),
            1 => rows.unknown(Kind::Log, shape.program, change_one_byte(random, log)),
            _ => rows.unknown(Kind::Log, shape.program, generate::break_log(random, log)),
        }
    }
}

/// All the cases, each once: the chosen ones, then the random ones.
pub fn all() -> Vec<Row> {
    let mut rows = Rows { rows: chosen() };
    let mut random = Random::new(SEED);
    random_sheets_and_networks(&mut random, &mut rows);
    random_logs(&mut random, &mut rows);
    random_cards(&mut random, &mut rows);
    let mut seen = HashSet::new();
    rows.rows.retain(|row| seen.insert(row.frame.clone()));
    rows.rows
}
