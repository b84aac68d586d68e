//! Sheets whose version 3 networks have joined conditions: rivals, which are transitions of the same
//! state, kind and unit, among others in several orders, and of lengths at the edges.

use crate::implementation::expr::LONGEST;
use crate::making::cases::translation_cases::{
    long_action, nots, numbered_action, numbered_condition,
};
use crate::making::draft::SheetDraft;

/// A transition's state, kind and unit.
type Place = [u8; 3];

const HERE: Place = [0, 0, 0];
/// The others of two states, both kinds and two units.
const ELSEWHERE: [Place; 7] = [
    [1, 0, 0],
    [0, 1, 0],
    [0, 0, 1],
    [1, 1, 0],
    [1, 0, 1],
    [0, 1, 1],
    [1, 1, 1],
];
/// Which transitions are here; the others are elsewhere.
const PATTERNS: [&[bool]; 6] = [
    &[true, true],
    &[true, false, true],
    &[false, true, true, false],
    &[true, true, false, true],
    &[true, false, true, false, true],
    &[false, false, true, true, true],
];

/// Below a number, behind `not` a few times: another length and other bytes for each.
fn guard(number: u8) -> Vec<u8> {
    let mut bytes = vec![1; number.into()];
    bytes.extend([4, 17, 0, 16, 0, 0, 0, 20 + number]);
    bytes
}

/// Seven conditions, of which a transition has another than that of its own number.
fn with_guards(places: &[Place]) -> SheetDraft {
    let mut draft = SheetDraft::new(2, 2, 1, &[]);
    draft.front.conditions = (0..7).map(guard).collect();
    draft.front.actions = vec![vec![]];
    for (number, [from, kind, unit]) in (0u8..).zip(places) {
        let condition = (3 * number + 2) % 7;
        let to = (from + number) % 2;
        draft
            .transitions
            .push([*from, *kind, *unit, condition, 0, to]);
    }
    draft
}

/// Rivals with one transition or more between them, before or behind them that is elsewhere. Every
/// second sheet has a triple, so that the added transition is the last of the rivals.
fn interleaved() -> Vec<SheetDraft> {
    let pairs = ELSEWHERE
        .iter()
        .flat_map(|there| PATTERNS.map(|pattern| (there, pattern)));
    let mut drafts = Vec::new();
    for (number, (there, pattern)) in pairs.enumerate() {
        let places: Vec<Place> = pattern
            .iter()
            .map(|here| if *here { HERE } else { *there })
            .collect();
        let mut draft = with_guards(&places);
        if number % 2 == 1 {
            draft.triple(0, 0, 1, 0);
        }
        drafts.push(draft);
    }
    drafts
}

/// All eight places in turn, twice and thrice; with triples in two of them.
fn in_turn() -> Vec<SheetDraft> {
    let all = [&[HERE][..], &ELSEWHERE].concat();
    [2, 3]
        .map(|times| {
            let mut draft = with_guards(&all.repeat(times));
            draft.triple(1, 1, 2, 3);
            draft.triple(0, 1, 4, 4);
            draft
        })
        .into()
}

/// The same condition more than once, and `true` before others.
fn same_conditions() -> Vec<SheetDraft> {
    [[2, 2, 2], [2, 0, 2], [0, 2, 0], [0, 0, 1]]
        .map(|conditions| {
            let mut draft = with_guards(&[HERE; 3]);
            draft.front.conditions[0] = vec![0];
            for (transition, condition) in draft.transitions.iter_mut().zip(conditions) {
                transition[3] = condition;
            }
            draft.triple(0, 0, 0, 0);
            draft
        })
        .into()
}

/// Rivals with conditions of these lengths at a place, one after the other.
fn of_lengths(lengths: &[usize], [from, kind, unit]: Place) -> SheetDraft {
    let mut draft = SheetDraft::new(2, 2, 0, &[]);
    draft.front.conditions = lengths.iter().map(|length| nots(*length)).collect();
    draft.front.actions = vec![vec![]];
    for number in 0..lengths.len() as u8 {
        draft.transitions.push([from, kind, unit, number, 0, from]);
    }
    draft
}

/// Fifteen of 64 bytes take 990 with `and` and `not`; then these.
fn behind_fifteen(last: &[usize], place: Place) -> SheetDraft {
    of_lengths(&[&[LONGEST; 15][..], last].concat(), place)
}

/// Joined conditions of 254 to 258 bytes, the length's first byte beginning to count at 256.
fn around_256() -> Vec<SheetDraft> {
    let own = 56..=60;
    own.map(|own| of_lengths(&[LONGEST, LONGEST, LONGEST, own], HERE))
        .collect()
}

/// The longest joined condition has 1,023 or 1,024 bytes: a sheet's, or the added transition's.
fn at_the_limit() -> Vec<SheetDraft> {
    let mut drafts: Vec<SheetDraft> = [33, 34].map(|own| behind_fifteen(&[own], [1, 1, 1])).into();
    for earlier in [30, 31] {
        let mut draft = behind_fifteen(&[earlier], HERE);
        draft.triple(0, 0, 0, 0);
        drafts.push(draft);
    }
    drafts
}

/// It has 1,025 bytes or more, and is a sheet's last, the added one, one in the middle, or one of a
/// place whose transitions come behind another's.
fn past_the_limit() -> Vec<SheetDraft> {
    let mut added = behind_fifteen(&[32], HERE);
    added.triple(0, 0, 0, 0);
    let mut middle = behind_fifteen(&[35], HERE);
    middle.transitions.push([1, 0, 0, 0, 0, 0]);
    let mut late = behind_fifteen(&[34, 1], HERE);
    for transition in &mut late.transitions[..2] {
        transition[0] = 1;
    }
    for number in [0, 1, 2] {
        late.transitions.push([0, 0, 0, number, 0, 1]);
    }
    vec![
        behind_fifteen(&[35], [0, 1, 0]),
        behind_fifteen(&[LONGEST], HERE),
        added,
        middle,
        late,
    ]
}

/// 64 conditions and 96 transitions in the network of version 2: 161 conditions in that of version 3.
fn most_conditions() -> SheetDraft {
    let mut draft = SheetDraft::new(16, 16, 1, &[]);
    draft.front.conditions = (0..64).map(|n| vec![4, 17, 0, 16, 0, 0, 0, n]).collect();
    draft.front.actions = vec![vec![]];
    for number in 0..64 {
        let (from, unit) = (number % 16, number / 32);
        let transition = [from, number / 16 % 2, unit, 63 - number, 0, 15 - from];
        draft.transitions.push(transition);
    }
    for number in 0..32 {
        draft.triple(number / 2, number % 2, number, 63 - number);
    }
    draft
}

/// A network of 62,979 bytes: 64 rivals, of which the first few take up nearly all that the last may
/// have, and every table is full.
pub fn longest() -> SheetDraft {
    let mut draft = SheetDraft::new(16, 16, 8, &[-1, 1, i32::MIN, 0x0102_0304]);
    draft.front.conditions = (0..64).map(numbered_condition).collect();
    draft.front.conditions[62] = nots(13);
    draft.front.conditions[63] = nots(1);
    draft.front.actions = (0..31).map(numbered_action).collect();
    draft.front.actions.push(long_action());
    for number in 0..64 {
        let condition = match number {
            0..13 => number,
            13 => 62,
            _ => 63,
        };
        draft
            .transitions
            .push([0, 0, 0, condition, number % 32, number % 16]);
    }
    for number in 0..32u8 {
        let crowd = number.saturating_sub(3);
        draft.triple(crowd % 16, crowd / 16, number, 61 - number);
    }
    draft
}

/// All of them but the longest. Some are refused 21 in version 3, and none in version 2.
pub fn all() -> Vec<SheetDraft> {
    let mut drafts = interleaved();
    for more in [
        in_turn,
        same_conditions,
        around_256,
        at_the_limit,
        past_the_limit,
    ] {
        drafts.extend(more());
    }
    drafts.push(most_conditions());
    drafts
}
