//! The page that `monitor_cases` and `network_cases` have for what 9 asks about entry positions (document
//! 02, slip 4): each clause on both sides, alone, and before and behind the other refusals.

use crate::framing::network_frames::Checkers;
use crate::framing::script_frames::Field::*;
use crate::framing::script_frames::{Bench, Own, Rules, Set};
use crate::implementation::network::Network;
use crate::implementation::run::Record;
use crate::making::scripts::network_cases::crowd_state;
use crate::making::scripts::script::{entry, event, exit, refused, Script, Sort};
use crate::making::scripts::settling::Settling;
use crate::making::scripts::shared_cases::{
    base, changed, clauses_of, full_state, held, taken, tiny_state, Events, Subject, LAST,
};
use crate::making::scripts::shared_clauses::{clause, judged, Clause, HIGH, MOST};
use std::marker::PhantomData;

// ---- The state that is changed ----------------------------------------------------------------

/// The base with calls 7, 8 and 9 open, of units 0, 1 and 0, which were entered at 2, 5 and 9; the position
/// is 11. For the first and the last triples 0 and 3 are armed, for the second triple 4. Saves the state.
fn spaced_state<R: Subject>(script: &mut Script<R>) {
    let calls = [
        entry(0, 7, &[2, 1]),
        entry(1, 8, &[3, 4]),
        entry(0, 9, &[7, 5]),
    ];
    let open = [(2, vec![0, 3]), (5, vec![4]), (9, vec![0, 3])];
    let open = calls.iter().zip(open);
    let open: Vec<_> = open
        .map(|(call, (at, armed))| (held(call, at), armed))
        .collect();
    let [seven, eight, nine] = calls;
    script.sort = Sort::Reached;
    script.rules(&R::of_sheet(&base()));
    script.fresh("accepted x0=5 x1=-1");
    for event in [
        entry(1, 20, &[5, 1]),
        seven,
        exit(1, 20, &[5, 5]),
        entry(1, 21, &[6, 0]),
        eight,
        exit(1, 21, &[6, 6]),
        entry(0, 22, &[4, 4]),
        exit(0, 22, &[9, 4]),
        nine,
        entry(1, 23, &[1, 0]),
    ] {
        script.step(&event, "taken");
    }
    let line = taken::<R>((0, [8, -1, 0, 0]), &open, 11, None);
    script.step(&exit(1, 23, &[3, 1]), &line);
    script.save();
}

/// Events that are taken in that state.
fn usual() -> Events {
    Events::new(entry(0, 10, &[1, 3]), "taken", exit(0, 7, &[2, 2]))
}

// ---- Calls ------------------------------------------------------------------------------------

/// A position, and the entry positions of the three calls there.
type At = (u32, [u32; 3]);

/// What is sound and what is not.
type Sides<T> = (&'static [T], &'static [T]);

/// None is 0. Behind the first call it would not rise either.
const NOT_ZERO: Sides<At> = (
    &[(11, [1, 5, 9]), (11, [2, 5, 9]), (11, [1, 2, 3])],
    &[
        (11, [0, 5, 9]),
        (11, [0, 1, 2]),
        (11, [0, 5, 11]),
        (11, [2, 0, 9]),
        (11, [2, 5, 0]),
        (11, [0, 0, 0]),
    ],
);

/// They rise: none is the one before it, nor below it.
const RISE: Sides<At> = (
    &[
        (11, [2, 3, 9]),
        (11, [2, 8, 9]),
        (11, [4, 5, 9]),
        (11, [2, 5, 6]),
        (11, [9, 10, 11]),
        (11, [1, 10, 11]),
    ],
    &[
        (11, [2, 2, 9]),
        (11, [5, 5, 9]),
        (11, [2, 9, 9]),
        (11, [2, 5, 5]),
        (11, [9, 9, 9]),
        (11, [1, 1, 1]),
        (11, [2, 1, 9]),
        (11, [6, 5, 9]),
        (11, [10, 5, 9]),
        (11, [2, 10, 9]),
        (11, [2, 5, 4]),
        (11, [2, 5, 1]),
        (11, [2, 5, 2]),
        (11, [9, 5, 2]),
        (11, [5, 9, 2]),
        (11, [9, 2, 5]),
    ],
);

/// None is above the position.
const NOT_ABOVE: Sides<At> = (
    &[
        (11, [2, 5, 10]),
        (11, [2, 5, 11]),
        (9, [2, 5, 9]),
        (10, [2, 5, 9]),
        (12, [2, 5, 9]),
    ],
    &[
        (11, [2, 5, 12]),
        (11, [2, 5, 13]),
        (11, [2, 5, 256]),
        (11, [2, 5, 266]),
        (11, [2, 5, HIGH]),
        (11, [2, 5, MOST]),
        (8, [2, 5, 9]),
        (5, [2, 5, 9]),
        (2, [2, 5, 9]),
        (1, [2, 5, 9]),
        (0, [2, 5, 9]),
        (11, [2, 12, 13]),
        (11, [12, 13, 14]),
    ],
);

/// All four bytes count where they are compared with each other, and none as a sign.
const RISE_WHOLE: Sides<At> = (
    &[
        (MOST - 1, [255, 256, 257]),
        (MOST - 1, [256, 511, 512]),
        (MOST - 1, [0xFFFF, 0x1_0000, 0x1_0001]),
        (MOST - 1, [0x1_00FF, 0x1_0100, 0x2_0000]),
        (MOST - 1, [0xFF_FFFF, 0x100_0000, 0x1FF_FFFF]),
        (MOST - 1, [0x100_0000, 0x101_0000, 0x101_0100]),
        (MOST - 1, [HIGH - 1, HIGH, HIGH + 1]),
        (MOST - 1, [1, HIGH, MOST - 1]),
    ],
    &[
        (MOST - 1, [256, 255, 257]),
        (MOST - 1, [256, 512, 511]),
        (MOST - 1, [0x1_0000, 0xFFFF, 0x1_0001]),
        (MOST - 1, [1, 0x1_0100, 0x1_00FF]),
        (MOST - 1, [0x100_0000, 0xFF_FFFF, 0x1FF_FFFF]),
        (MOST - 1, [1, 0x101_0000, 0x100_FFFF]),
        (MOST - 1, [HIGH, HIGH - 1, HIGH + 1]),
        (MOST - 1, [1, MOST - 1, HIGH]),
        (MOST - 1, [256, 256, 257]),
        (MOST - 1, [1, 0x101_0101, 0x101_0101]),
    ],
);

/// The same where they are compared with the position.
const NOT_ABOVE_WHOLE: Sides<At> = (
    &[
        (256, [2, 5, 255]),
        (0x1_0000, [2, 5, 0xFFFF]),
        (0x102_0304, [2, 5, 0x102_0304]),
        (0x102_0304, [2, 5, 0x102_0300]),
        (0x102_0304, [2, 5, 0x101_FFFF]),
        (0x102_0304, [2, 5, 0xFF_FFFF]),
        (HIGH, [2, 5, HIGH - 1]),
        (HIGH, [2, 5, HIGH]),
    ],
    &[
        (255, [2, 5, 256]),
        (0xFFFF, [2, 5, 0x1_0000]),
        (0x102_0304, [2, 5, 0x102_0305]),
        (0x102_0304, [2, 5, 0x102_0400]),
        (0x102_0304, [2, 5, 0x103_0000]),
        (0x102_0304, [2, 5, 0x200_0000]),
        (0x102_0304, [2, 5, HIGH]),
        (HIGH - 1, [2, 5, HIGH]),
        (HIGH, [2, 5, HIGH + 1]),
    ],
);

/// One before the last position.
const NEAR_LAST: Sides<At> = (
    &[
        (MOST - 1, [MOST - 3, MOST - 2, MOST - 1]),
        (MOST - 1, [1, 2, MOST - 1]),
    ],
    &[
        (MOST - 1, [MOST - 3, MOST - 2, MOST]),
        (MOST - 1, [MOST - 2, MOST - 1, MOST]),
        (MOST - 1, [MOST - 2, MOST - 1, MOST - 1]),
        (MOST - 1, [MOST - 1, MOST - 2, MOST - 3]),
        (MOST - 1, [0, MOST - 2, MOST - 1]),
    ],
);

/// At the last position, where a sound state refuses 12.
const AT_LAST: Sides<At> = (
    &[
        (MOST, [2, 5, 9]),
        (MOST, [MOST - 2, MOST - 1, MOST]),
        (MOST, [1, 2, MOST]),
    ],
    &[
        (MOST, [MOST, MOST, MOST]),
        (MOST, [MOST - 1, MOST, MOST]),
        (MOST, [MOST - 1, MOST - 2, MOST]),
        (MOST, [0, 1, MOST]),
    ],
);

/// The smallest sheet or network with one call: a position and the call's entry position.
const OF_ONE: Sides<(u32, u32)> = (
    &[(1, 1), (9, 9), (9, 1), (MOST - 1, MOST - 1)],
    &[
        (1, 0),
        (1, 2),
        (1, HIGH),
        (1, MOST),
        (0, 1),
        (0, 0),
        (9, 10),
        (9, 0),
        (MOST - 1, MOST),
    ],
);

/// The checkers follow their calls.
fn follow<R: Subject>(bench: &Bench<R>) -> Vec<Set<R::Own>> {
    R::settling_checkers(&bench.state)
}

/// Nothing else is set.
fn leave<R: Subject>(_: &Bench<R>) -> Vec<Set<R::Own>> {
    Vec::new()
}

/// Each state with two events, from the saved one.
fn both_sides<R: Subject, T: Copy>(
    script: &mut Script<R>,
    (sound, unsound): Sides<T>,
    events: &Events,
    answer: fn(T) -> Option<&'static str>,
    change: impl Fn(T) -> Vec<Set<R::Own>>,
) {
    script.sort = Sort::Neighbour;
    for side in sound {
        changed(script, &change(*side), events, answer(*side), follow);
    }
    script.sort = Sort::Broken;
    for side in unsound {
        changed(script, &change(*side), events, Some("refused 9"), follow);
    }
}

/// At the last position no event is taken.
fn at_last(position: u32) -> Option<&'static str> {
    (position == MOST).then_some("refused 12")
}

fn of_calls<R: Subject>(script: &mut Script<R>) {
    spaced_state(script);
    for sides in [
        NOT_ZERO,
        RISE,
        NOT_ABOVE,
        RISE_WHOLE,
        NOT_ABOVE_WHOLE,
        NEAR_LAST,
        AT_LAST,
    ] {
        let answer = |(position, _): At| at_last(position);
        both_sides(script, sides, &usual(), answer, |(position, entries)| {
            let entries = (0..).zip(entries).map(|(i, entry)| (Entry(i), entry));
            [(Position, position)].into_iter().chain(entries).collect()
        });
    }
    clauses_of(script, &[Behind::CALLS], &usual(), leave);
    clauses_of(script, R::ENTRY_CLAUSES, &usual(), leave);
    tiny_state(script);
    let of_tiny = Events::new(entry(0, 9, &[]), "taken", exit(0, 7, &[]));
    both_sides(
        script,
        OF_ONE,
        &of_tiny,
        |_| None,
        |(position, entered)| vec![(Position, position), (Entry(0), entered)],
    );
}

struct Behind<O>(PhantomData<O>);

impl<O: Own> Behind<O> {
    /// A place behind the open calls has none, and one that is opened has one that fits.
    const CALLS: Clause<O> = clause(
        &[],
        &[
            &[(Open, 4), (Number(3), 5), (Entry(3), 10)],
            &[(Open, 4), (Number(3), 5), (Entry(3), 11)],
        ],
        &[
            &[(Entry(3), 1)],
            &[(Entry(3), 10)],
            &[(Entry(3), 12)],
            &[(Entry(4), 256)],
            &[(Entry(9), HIGH)],
            &[(Entry(15), 1)],
            &[(Entry(15), MOST)],
            &[(Open, 4), (Number(3), 5)],
            &[(Open, 4), (Number(3), 5), (Entry(3), 9)],
            &[(Open, 4), (Number(3), 5), (Entry(3), 12)],
        ],
    );
}

/// Each of sixteen calls: one less than its own, which the call before has, its own, and one more, which the
/// next one has.
fn of_sixteen<R: Subject>(script: &mut Script<R>) {
    full_state(script);
    for place in 0..16 {
        let own = u32::from(place) + 1;
        let is_last = place == 15;
        for (entered, sound) in [(own - 1, false), (own, true), (own + 1, is_last)] {
            of_place(script, place, entered, sound);
        }
    }
    for (entered, sound) in [
        (39, true),
        (40, true),
        (41, false),
        (MOST, false),
        (1, false),
    ] {
        of_place(script, 15, entered, sound);
    }
}

/// Another entry position of the call at a place, at position 40.
fn of_place<R: Subject>(script: &mut Script<R>, place: u8, entered: u32, sound: bool) {
    let change = [(Position, 40), (Entry(place), entered)];
    let (sort, answer) = match sound {
        true => (Sort::Neighbour, None),
        false => (Sort::Broken, Some("refused 9")),
    };
    script.sort = sort;
    changed(script, &change, &of_full(), answer, follow);
}

/// Events for the state with sixteen calls.
fn of_full() -> Events {
    Events::new(entry(0, 9, &[1, 3]), "refused 14", exit(0, 102, &[2, 2]))
}

// ---- Verdicts ---------------------------------------------------------------------------------

/// What a verdict with a triple may carry at 11, of the calls that are open too, and what not.
const WITH_TRIPLE: Sides<u32> = (
    &[1, 2, 5, 7, 9, 10],
    &[0, 11, 12, 256, 257, HIGH, HIGH + 1, MOST],
);
/// The same of one without a triple.
const WITHOUT_TRIPLE: Sides<u32> = (
    &[0],
    &[1, 2, 9, 10, 11, 12, 256, 0x1_0000, 0x100_0000, HIGH, MOST],
);

/// Where no call is open: a position, and what a verdict with a triple carries there. Below 2 no call can have
/// been entered and left.
const FROM_2: Sides<(u32, u32)> = (
    &[(2, 1), (3, 1), (3, 2)],
    &[
        (0, 0),
        (0, 1),
        (0, MOST),
        (1, 0),
        (1, 1),
        (1, 2),
        (2, 0),
        (2, 2),
        (2, 3),
        (3, 0),
        (3, 3),
        (3, HIGH),
        (3, MOST),
    ],
);
/// All four bytes count, and none as a sign.
const BELOW_WHOLE: Sides<(u32, u32)> = (
    &[
        (256, 255),
        (0x1_0000, 0xFFFF),
        (0x100_0000, 0xFF_FFFF),
        (HIGH, HIGH - 1),
        (HIGH + 1, HIGH),
        (MOST, 1),
        (MOST, HIGH),
        (MOST, MOST - 1),
    ],
    &[
        (255, 256),
        (256, 256),
        (256, 0),
        (0xFFFF, 0x1_0000),
        (0x1_0000, 0x1_0000),
        (0xFF_FFFF, 0x100_0000),
        (0x100_0000, 0x100_0000),
        (HIGH - 1, HIGH),
        (HIGH, HIGH),
        (MOST - 1, MOST),
        (MOST, 0),
        (MOST, MOST),
    ],
);
/// Without a triple.
const BAD_ALONE: Sides<(u32, u32)> = (
    &[(0, 0), (1, 0), (2, 0), (MOST, 0)],
    &[(0, 1), (1, 1), (2, 1), (3, 2), (MOST, 1), (MOST, MOST - 1)],
);

fn of_verdicts<R: Subject>(script: &mut Script<R>) {
    spaced_state(script);
    let judged = |_| Some("refused 10");
    for (sides, verdict) in [
        (WITH_TRIPLE, vec![(Failed(3), 11)]),
        (WITH_TRIPLE, vec![(Main, 2), (Both(2, 7), 11)]),
        // A triple alone, where the main state is bad.
        (WITH_TRIPLE, vec![(Main, 3), (Failed(4), 11)]),
        (WITHOUT_TRIPLE, vec![(Main, 2), (BadState(2), 11)]),
    ] {
        both_sides(script, sides, &usual(), judged, |carried| {
            [&verdict[..], &[(Carried, carried)]].concat()
        });
    }
    clauses_of(script, &[Anew::VERDICTS], &usual(), leave);
    script.sort = Sort::Reached;
    script.fresh("accepted x0=5 x1=-1");
    script.save();
    let judged = |_| Some("refused 10");
    for sides in [FROM_2, BELOW_WHOLE] {
        both_sides(script, sides, &usual(), judged, |(position, carried)| {
            let at = [(Position, position), (Failed(0), position)];
            [&at[..], &[(Carried, carried)]].concat()
        });
    }
    both_sides(
        script,
        BAD_ALONE,
        &usual(),
        judged,
        |(position, carried)| {
            let at = [(Main, 2), (Position, position), (BadState(2), position)];
            [&at[..], &[(Carried, carried)]].concat()
        },
    );
}

struct Anew<O>(PhantomData<O>);

impl<O: Own> Anew<O> {
    /// A verdict that is set carries nothing at first, whatever the one before it carried.
    const VERDICTS: Clause<O> = judged(
        &[(Main, 2), (Failed(3), 11), (Carried, 7)],
        &[
            &[],
            &[(BadState(2), 11)],
            &[(Failed(0), 11), (Carried, 8)],
            &[(Both(2, 0), 11), (Carried, 9)],
        ],
        &[
            &[(Failed(0), 11)],
            &[(Both(2, 0), 11)],
            &[(BadState(2), 11), (Carried, 7)],
        ],
    );
}

// ---- Checkers ---------------------------------------------------------------------------------

/// The entry position of the checker at a place.
const fn checker(place: u8, entry: u32) -> Set<Checkers> {
    (Own(Checkers::Entry(place)), entry)
}

/// One more checker, of call 9 and template 5.
const SIXTH: [Set<Checkers>; 3] = [
    (Own(Checkers::Living), 6),
    (Own(Checkers::Call(5)), 9),
    (Own(Checkers::Template(5)), 5),
];

/// Of the three calls: checkers 0 and 1 are of the first, 2 of the second, 3 and 4 of the third.
pub const OF_CHECKERS: &[Clause<Checkers>] = &[
    // Each is its call's: not one less, one more, another call's, none, or the same in part.
    clause(
        &[],
        &[
            &[],
            &[checker(0, 2)],
            &[(Entry(0), 1), checker(0, 1), checker(1, 1)],
            &[(Entry(1), 6), checker(2, 6)],
            &[(Entry(2), 11), checker(3, 11), checker(4, 11)],
        ],
        &[
            &[checker(0, 1)],
            &[checker(0, 3)],
            &[checker(0, 5)],
            &[checker(0, 9)],
            &[checker(0, 0)],
            &[checker(0, 11)],
            &[checker(0, 258)],
            &[checker(0, 0x1_0002)],
            &[checker(0, 0x100_0002)],
            &[checker(0, HIGH + 2)],
            &[checker(0, MOST)],
            &[checker(1, 1)],
            &[checker(1, 3)],
            &[checker(1, 0)],
            &[checker(2, 4)],
            &[checker(2, 6)],
            &[checker(2, 2)],
            &[checker(2, 9)],
            &[checker(2, 0)],
            &[checker(3, 8)],
            &[checker(3, 10)],
            &[checker(3, 5)],
            &[checker(4, 8)],
            &[checker(4, 10)],
            &[checker(4, 0)],
            &[checker(0, 3), checker(1, 3)],
            &[checker(0, 5), checker(1, 5), checker(2, 2)],
        ],
    ),
    // A call's alone, or with some of its checkers' only.
    clause(
        &[],
        &[],
        &[
            &[(Entry(0), 1)],
            &[(Entry(0), 1), checker(0, 1)],
            &[(Entry(0), 1), checker(1, 1)],
            &[(Entry(1), 6)],
            &[(Entry(2), 10)],
            &[(Entry(2), 10), checker(4, 10)],
        ],
    ),
    // A place behind the living ones has none, and one that lives has its call's.
    clause(
        &[],
        &[&[SIXTH[0], SIXTH[1], SIXTH[2], checker(5, 9)]],
        &[
            &[checker(5, 9)],
            &[checker(5, 1)],
            &[checker(9, HIGH)],
            &[checker(40, 0x1_0000)],
            &[checker(63, 1)],
            &[checker(63, MOST)],
            &SIXTH,
            &[SIXTH[0], SIXTH[1], SIXTH[2], checker(5, 5)],
        ],
    ),
];

/// The four checkers of the last of sixteen calls.
const fn last_four(entry: u32) -> [Set<Checkers>; 4] {
    [
        checker(60, entry),
        checker(61, entry),
        checker(62, entry),
        checker(63, entry),
    ]
}

/// Four checkers on each of sixteen calls, which were entered at 1 to 16.
const OF_SIXTY_FOUR: &[Clause<Checkers>] = &[
    clause(
        &[],
        &[&[], &last_four(16)],
        &[
            &[checker(63, 15)],
            &[checker(63, 17)],
            &[checker(63, 0)],
            &[checker(60, 15)],
            &[checker(59, 16)],
            &[checker(4, 1)],
            &[checker(3, 2)],
            &[checker(0, 0)],
            &[checker(0, 2)],
            &last_four(15),
            &last_four(17),
        ],
    ),
    clause(
        &[(Position, 40), (Entry(15), 17)],
        &[&last_four(17)],
        &[&[], &last_four(18), &[checker(60, 17), checker(61, 17)]],
    ),
];

pub fn of_sixty_four(script: &mut Script<Network>) {
    crowd_state(script);
    let events = Events::new(entry(0, 9, &[1]), "refused 14", exit(0, 102, &[20]));
    clauses_of(script, OF_SIXTY_FOUR, &events, leave);
    full_state(script);
    clauses_of(script, &[BEHIND_FEWER], &of_full(), leave);
}

/// Sixteen calls with fewer checkers.
const BEHIND_FEWER: Clause<Checkers> =
    clause(&[], &[&[]], &[&[checker(63, 1)], &[checker(63, 16)]]);

// ---- Before and behind the other refusals -----------------------------------------------------

/// What is set of a state, and what behind it.
type Way<R> = (Vec<Set<<R as Rules>::Own>>, Settling<R>);

/// Ways to break a clause in the state with three calls, whatever the position is.
fn ways<R: Subject>() -> Vec<Way<R>> {
    let calls: [&[Set<R::Own>]; 5] = [
        &[(Entry(0), 0)],
        &[(Entry(1), 2)],
        &[(Entry(2), 4)],
        &[(Entry(3), 1)],
        &[(Entry(0), 9), (Entry(2), 2)],
    ];
    let calls = calls.into_iter().map(|way| (way.to_vec(), follow as _));
    let own = R::ENTRY_CLAUSES.iter().filter_map(|c| c.broken.first());
    let own = own.map(|way| (way.to_vec(), leave as _));
    calls.chain(own).collect()
}

/// The saved state with some fields set, and then in this way; offers an event.
fn set_and_offer<R: Subject>(
    script: &mut Script<R>,
    fields: &[Set<R::Own>],
    (way, settling): &Way<R>,
    (event, answer): (&Record, &str),
) {
    script.restore();
    script.set(fields);
    script.set(way);
    script.set(&settling(&script.bench));
    script.offer(event, answer);
}

/// What refuses an event besides, the state that goes with it, and the event.
type Besides<O> = (u8, Vec<Set<O>>, Record);

fn besides<O>() -> Vec<Besides<O>> {
    let failed = |position: u32| vec![(Position, position), (Failed(3), position), (Carried, 1)];
    let bad = vec![(Main, 2), (BadState(2), 11)];
    let last = || vec![(Position, LAST)];
    vec![
        (10, failed(11), entry(0, 10, &[1, 3])),
        (10, bad, exit(0, 7, &[2, 2])),
        (10, failed(LAST), event(2, 9, 8, &[])),
        (11, vec![], event(2, 0, 10, &[1, 3])),
        (11, vec![], entry(2, 10, &[1, 3])),
        (11, vec![], exit(0, 7, &[1])),
        (11, last(), event(255, 0, 7, &[2, 2])),
        (12, last(), entry(0, 10, &[1, 3])),
        (12, last(), exit(1, 8, &[2, 2])),
        (12, last(), entry(0, 9, &[1, 3])),
        (12, last(), exit(0, 8, &[1, 3])),
        (13, vec![], entry(1, 8, &[1, 3])),
        (13, vec![], entry(1, 9, &[1, 3])),
        (15, vec![], exit(0, 10, &[2, 2])),
        (15, vec![], exit(1, 9, &[2, 2])),
    ]
}

/// With each of the others a sound state, which that refuses, and then each way to break it, which 9 does.
fn before_others<R: Subject>(script: &mut Script<R>) {
    spaced_state(script);
    script.sort = Sort::Together;
    for (number, state, event) in besides() {
        let sound = (Vec::new(), leave as _);
        set_and_offer(script, &state, &sound, (&event, &refused(number)));
        for way in ways() {
            set_and_offer(script, &state, &way, (&event, "refused 9"));
        }
    }
    above_before_others(script);
    carried_before_others(script);
    before_14(script);
}

/// A call's entry position above the position, with each that goes with another position than the last.
fn above_before_others<R: Subject>(script: &mut Script<R>) {
    let above: Way<R> = (vec![(Entry(2), 12)], follow);
    for (_, state, event) in besides::<R::Own>() {
        if !state.contains(&(Position, LAST)) {
            set_and_offer(script, &state, &above, (&event, "refused 9"));
        }
    }
}

/// What a verdict carries, with 10 and all that comes behind it.
fn carried_before_others<R: Subject>(script: &mut Script<R>) {
    for event in [
        entry(0, 10, &[1, 3]),
        event(2, 9, 8, &[]),
        entry(0, 9, &[1, 3]),
        exit(1, 9, &[2, 2]),
    ] {
        for position in [11, LAST] {
            carried_at(script, position, &event);
        }
    }
}

/// A verdict with a triple and one without, at a position: what they may carry, which 10 refuses, and what not.
fn carried_at<R: Subject>(script: &mut Script<R>, position: u32, event: &Record) {
    let failed = [(Position, position), (Failed(3), position)];
    let bad = [(Position, position), (Main, 3), (BadState(3), position)];
    let verdicts: [(&[Set<R::Own>], _); 2] = [
        (
            &failed,
            [
                (1, "refused 10"),
                (position - 1, "refused 10"),
                (0, "refused 9"),
                (position, "refused 9"),
            ],
        ),
        (
            &bad,
            [
                (0, "refused 10"),
                (1, "refused 9"),
                (position - 1, "refused 9"),
                (position, "refused 9"),
            ],
        ),
    ];
    for (verdict, all) in verdicts {
        for (carried, answer) in all {
            let way: Way<R> = (vec![(Carried, carried)], leave);
            set_and_offer(script, verdict, &way, (event, answer));
        }
    }
}

/// With sixteen calls: 14, and 13 with it.
fn before_14<R: Subject>(script: &mut Script<R>) {
    full_state(script);
    script.sort = Sort::Together;
    for (event, answer) in [
        (entry(1, 9, &[2, 2]), "refused 14"),
        (entry(1, 115, &[2, 2]), "refused 13"),
    ] {
        let ways: [&[Set<R::Own>]; 5] = [
            &[(Entry(0), 0)],
            &[(Entry(15), 15)],
            &[(Entry(15), 17)],
            &[(Entry(7), 10)],
            &[(Position, 15)],
        ];
        script.restore();
        script.offer(&event, answer);
        for way in ways {
            let way = (way.to_vec(), follow as _);
            set_and_offer(script, &[], &way, (&event, "refused 9"));
        }
        carried_at(script, 16, &event);
    }
}

/// Sheets or networks that are refused, each with its number: the first of each number, with each way to
/// break a state.
pub fn reading<R: Subject>(script: &mut Script<R>, all: &[(u8, Vec<u8>)]) {
    spaced_state(script);
    script.sort = Sort::Reading;
    let is_first = |place: usize| all[..place].iter().all(|(n, _)| *n != all[place].0);
    for place in (0..all.len()).filter(|place| is_first(*place)) {
        let (number, rules) = &all[place];
        script.rules(rules);
        let others: [Way<R>; 3] = [
            (vec![(Entry(2), 12)], follow),
            (vec![(Failed(3), 11), (Carried, 11)], leave),
            (vec![(Main, 2), (BadState(2), 11), (Carried, 1)], leave),
        ];
        for way in ways().into_iter().chain(others) {
            let event = entry(0, 10, &[1, 3]);
            set_and_offer(script, &[], &way, (&event, &refused(*number)));
        }
    }
}

// ---- All --------------------------------------------------------------------------------------

/// The parts on sheets or networks that are accepted.
pub fn parts<R: Subject>() -> [fn(&mut Script<R>); 4] {
    [of_calls, of_sixteen, of_verdicts, before_others]
}
