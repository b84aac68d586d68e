//! The clauses of a sound state of a sheet, for `monitor_cases`: what breaks each of them alone, and
//! next to it what does not. They change the states that are laid out in `shared_cases`.

use crate::framing::monitor_frames::Arms;
use crate::framing::script_frames;
use crate::framing::script_frames::Field::*;
use crate::making::scripts::shared_clauses::{clause, judged, Shared, HIGH, MOST};

type Set = script_frames::Set<Arms>;
type Clause = crate::making::scripts::shared_clauses::Clause<Arms>;

/// How many triples are armed for the call at a place.
const fn armed(place: u8, count: u32) -> Set {
    (Own(Arms::Count(place)), count)
}

const fn triple(place: u8, number: u8, triple: u32) -> Set {
    (Own(Arms::Triple(place, number)), triple)
}

/// What is armed for the first call.
const fn first(count: u32, triples: [u32; 4]) -> [Set; 5] {
    [
        armed(0, count),
        triple(0, 0, triples[0]),
        triple(0, 1, triples[1]),
        triple(0, 2, triples[2]),
        triple(0, 3, triples[3]),
    ]
}

// ---- The base: Q 4, U 2, P 2, V 2, 8 triples, 2 and 3 bad; two calls, position 2 ---------------

pub const BASE_CLAUSES: &[Clause] = &[
    Shared::MAIN,
    Shared::numbers(&[]),
    Shared::number_zero(&[(Open, 3)]),
    Shared::units(&[armed(1, 0), triple(1, 0, 0)]),
    // How many triples are armed.
    clause(
        &first(4, [0, 1, 3, 5]),
        &[&[]],
        &[&[armed(0, 5)], &[armed(0, 16)], &[armed(0, 255)]],
    ),
    // They rise.
    clause(
        &[],
        &[
            &first(0, [0, 0, 0, 0]),
            &first(1, [5, 0, 0, 0]),
            &first(2, [0, 1, 0, 0]),
            &first(2, [3, 5, 0, 0]),
            &first(3, [0, 1, 3, 0]),
            &first(3, [1, 3, 5, 0]),
        ],
        &[
            &first(2, [3, 0, 0, 0]),
            &first(2, [0, 0, 0, 0]),
            &first(2, [5, 5, 0, 0]),
            &first(3, [0, 3, 1, 0]),
            &first(3, [1, 0, 3, 0]),
            &first(3, [0, 3, 3, 0]),
            &first(4, [0, 1, 5, 3]),
            &first(4, [0, 3, 1, 5]),
            &first(4, [0, 1, 3, 3]),
        ],
    ),
    // They exist.
    clause(
        &[],
        &[&[(Unit(1), 1), triple(1, 0, 7)]],
        &[
            &[triple(0, 1, 8)],
            &[triple(0, 1, 255)],
            &[triple(1, 0, 8)],
            &[triple(1, 0, 32)],
            &[triple(1, 0, 255)],
            &first(4, [0, 1, 3, 8]),
        ],
    ),
    // They are of the call's unit.
    clause(
        &[],
        &[&first(1, [1, 0, 0, 0]), &[(Unit(1), 0), triple(1, 0, 5)]],
        &[
            &first(1, [4, 0, 0, 0]),
            &first(2, [0, 4, 0, 0]),
            &first(3, [0, 4, 5, 0]),
            &[(Unit(1), 0)],
            &[triple(1, 0, 5)],
        ],
    ),
    // They are of one state, which need not be the main one (reading 8).
    clause(
        &[],
        &[
            &first(2, [2, 6, 0, 0]),
            &first(1, [6, 0, 0, 0]),
            &[(Main, 1), triple(1, 0, 7)],
        ],
        &[
            &first(2, [0, 2, 0, 0]),
            &first(2, [2, 3, 0, 0]),
            &first(2, [1, 6, 0, 0]),
            &first(3, [0, 1, 2, 0]),
            &first(4, [0, 1, 3, 6]),
            &[armed(1, 2), triple(1, 1, 7)],
        ],
    ),
    Shared::VARIABLES,
    Shared::KEPT,
    Shared::BEHIND,
    // What is armed behind the open calls: the count, a triple.
    clause(
        &[],
        &[
            &[(Open, 3), armed(2, 1)],
            &[(Open, 3), armed(2, 1), triple(2, 0, 5)],
        ],
        &[
            &[armed(2, 1)],
            &[armed(3, 255)],
            &[armed(15, 4)],
            &[triple(2, 0, 5)],
            &[triple(2, 3, 1)],
            &[triple(10, 1, 9)],
            &[triple(15, 0, 1)],
            &[triple(15, 3, 255)],
        ],
    ),
    // A triple behind the armed ones.
    clause(
        &[],
        &[&[armed(0, 3), triple(0, 2, 5)], &first(0, [0, 0, 0, 0])],
        &[
            &[triple(0, 2, 5)],
            &[triple(0, 3, 5)],
            &[triple(1, 1, 7)],
            &[triple(1, 3, 255)],
            &first(0, [1, 0, 0, 0]),
            &first(0, [0, 0, 0, 1]),
            &first(1, [0, 3, 0, 0]),
            &first(3, [0, 1, 3, 5]),
        ],
    ),
    Shared::POSITION_OF_BAD,
    Shared::POSITION_OF_FAILED,
    Shared::IS_MAIN,
    Shared::IS_BAD,
    Shared::EXISTS,
    Shared::HAS_VERDICT,
];

// ---- The base with sixteen calls ---------------------------------------------------------------

pub const FULL_CLAUSES: &[Clause] = &[
    Shared::OPENED,
    // Two calls with one number, far apart and side by side.
    clause(
        &[],
        &[
            &[(Number(15), 200)],
            &[(Number(0), 65_535)],
            &[(Number(8), 0)],
        ],
        &[
            &[(Number(15), 100)],
            &[(Number(0), 115)],
            &[(Number(15), 114)],
            &[(Number(8), 109)],
            &[(Number(14), 101)],
        ],
    ),
    // The last place, each clause that a call has.
    clause(
        &[armed(15, 0), triple(15, 0, 0)],
        &[&[(Unit(15), 0)], &[(Kept(15, 1), MOST)]],
        &[
            &[(Unit(15), 2)],
            &[(Unit(15), 255)],
            &[(Kept(15, 2), 1)],
            &[(Kept(15, 7), HIGH)],
            &[armed(15, 1)],
            &[armed(15, 5)],
            &[triple(15, 0, 4)],
            &[triple(15, 3, 4)],
        ],
    ),
    clause(
        &[],
        &[&[triple(15, 0, 7)]],
        &[
            &[triple(15, 0, 5)],
            &[triple(15, 0, 8)],
            &[armed(15, 2), triple(15, 1, 7)],
            &[armed(15, 2), triple(15, 1, 4)],
            &[(Variable(2), 1)],
            &[(Main, 4)],
        ],
    ),
];

// ---- A header alone: Q 1, U 1, P 0, V 0, no triples; call 7 open --------------------------------

pub const TINY_CLAUSES: &[Clause] = &[clause(
    &[],
    &[&[], &[(Position, 2)], &[(Open, 2), (Number(1), 65_535)]],
    &[
        &[(Main, 1)],
        &[(Main, 255)],
        &[(Variable(0), 1)],
        &[(Variable(3), HIGH)],
        &[(Unit(0), 1)],
        &[(Unit(0), 255)],
        &[(Kept(0, 0), 1)],
        &[(Kept(0, 7), MOST)],
        &[armed(0, 1)],
        &[triple(0, 0, 1)],
        &[(Open, 2), (Number(1), 7)],
        &[(Failed(0), 1)],
        &[(BadState(0), 1)],
        &[(Both(0, 0), 1)],
    ],
)];

// ---- Everything at its limit: Q 16, U 16, P 8, V 4, 32 triples, 14 bad; call 65535 open ---------

pub const EDGE_CLAUSES: &[Clause] = &[
    clause(
        &[],
        &[
            &[],
            &[(Main, 13)],
            &[(Main, 0)],
            &[(Variable(3), MOST)],
            &[(Kept(0, 7), HIGH)],
            &first(4, [28, 29, 30, 31]),
            &first(1, [31, 0, 0, 0]),
            &[(Open, 2), (Unit(1), 15)],
            &[(Open, 2), armed(1, 0), (Unit(1), 7)],
        ],
        &[
            &[(Main, 14)],
            &[(Main, 16)],
            &[(Main, 30)],
            &[(Main, 255)],
            &[(Open, 2), (Unit(1), 16)],
            &[(Open, 2), (Unit(1), 255)],
            &[(Open, 2), (Number(1), 65_535), (Unit(1), 15)],
            &first(4, [29, 30, 31, 32]),
            &first(1, [32, 0, 0, 0]),
            &first(2, [27, 28, 0, 0]),
            &first(2, [31, 30, 0, 0]),
            &[(Unit(0), 14)],
            &[(Kept(1, 7), 1)],
        ],
    ),
    judged(
        &[],
        &[
            &[(Main, 14), (BadState(14), 1)],
            &[(Main, 14), (Both(14, 31), 1)],
            &[(Failed(31), 1)],
        ],
        &[
            &[(BadState(15), 1)],
            &[(BadState(14), 1)],
            &[(Main, 14), (BadState(15), 1)],
            &[(Main, 14), (Both(14, 32), 1)],
            &[(Failed(32), 1)],
        ],
    ),
];
