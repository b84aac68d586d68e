//! The clauses of a sound state of a network, for `network_cases`: what breaks each of them alone,
//! and next to it what does not. They change the states that are laid out in `shared_cases` and, with
//! sixty-four checkers, in `network_cases`.

use crate::framing::network_frames::Checkers;
use crate::framing::script_frames;
use crate::framing::script_frames::Field::*;
use crate::making::scripts::shared_clauses::{clause, judged, Shared, HIGH, MOST};

type Set = script_frames::Set<Checkers>;
type Clause = crate::making::scripts::shared_clauses::Clause<Checkers>;

const fn living(count: u32) -> Set {
    (Own(Checkers::Living), count)
}

/// The number of the call that the checker at a place is bound to.
const fn call(place: u8, number: u32) -> Set {
    (Own(Checkers::Call(place)), number)
}

const fn template(place: u8, template: u32) -> Set {
    (Own(Checkers::Template(place)), template)
}

// ---- The base: templates 0 to 7, of which 4 and 7 are of unit 1; calls 7 of unit 0 and 8 of unit 1;
// ---- checkers 7:0, 7:3 and 8:4, a call's number before its template's -------------------------

pub const BASE_CLAUSES: &[Clause] = &[
    Shared::MAIN,
    Shared::numbers(&[living(2), call(2, 0), template(2, 0)]),
    Shared::number_zero(&[(Open, 3), living(2), call(2, 0), template(2, 0)]),
    Shared::units(&[living(2), call(2, 0), template(2, 0)]),
    Shared::VARIABLES,
    Shared::KEPT,
    Shared::BEHIND,
    // At most four on call 7.
    clause(
        &[call(2, 7), template(2, 1), call(3, 7), template(3, 5)],
        &[&[living(4)], &[living(5), call(4, 8), template(4, 4)]],
        &[
            &[living(5), call(4, 7), template(4, 6)],
            &[living(5), call(4, 7)],
            &[living(6), call(4, 7), call(5, 8), template(5, 4)],
            &[living(6), call(4, 7), call(5, 7)],
        ],
    ),
    // At most four on call 8, and on each though not more than eight in all.
    clause(
        &[call(3, 8), template(3, 4), call(4, 8), template(4, 7)],
        &[&[living(5)], &[living(6), call(5, 8), template(5, 4)]],
        &[
            &[
                living(7),
                call(5, 8),
                template(5, 4),
                call(6, 8),
                template(6, 4),
            ],
            &[
                living(5),
                call(0, 8),
                template(0, 4),
                call(1, 8),
                template(1, 7),
            ],
        ],
    ),
    // Any order on one call, and one template twice or more (reading 10).
    clause(
        &[],
        &[
            &[template(0, 3), template(1, 0)],
            &[template(1, 0)],
            &[template(0, 5), template(1, 5)],
            &[template(0, 6), template(1, 1)],
            &[
                living(5),
                template(0, 5),
                template(1, 1),
                call(2, 7),
                template(2, 5),
                call(3, 7),
                call(4, 8),
                template(4, 7),
            ],
            &[
                living(4),
                call(0, 8),
                template(0, 4),
                call(1, 8),
                template(1, 4),
                call(3, 8),
                template(3, 4),
            ],
        ],
        &[],
    ),
    // In their calls' order.
    clause(
        &[],
        &[
            &[living(4), call(3, 8), template(3, 7)],
            &[call(1, 8), template(1, 7)],
            &[call(2, 7), template(2, 0)],
        ],
        &[
            &[call(0, 8), template(0, 4), call(2, 7), template(2, 0)],
            &[call(1, 8), template(1, 4), call(2, 7), template(2, 5)],
            &[call(0, 8), template(0, 7)],
            &[living(4), call(3, 7), template(3, 1)],
            &[
                living(2),
                call(0, 8),
                template(0, 4),
                call(2, 0),
                template(2, 0),
            ],
        ],
    ),
    // That order goes by the calls' places, not by their numbers.
    clause(
        &[(Number(1), 3), call(2, 3)],
        &[&[]],
        &[
            &[call(0, 3), template(0, 4), call(2, 7), template(2, 0)],
            &[call(1, 3), template(1, 4), call(2, 7), template(2, 5)],
        ],
    ),
    // On open calls. Behind the open ones stands number 0, of unit 0.
    clause(
        &[],
        &[
            &[(Number(1), 12), call(2, 12)],
            &[(Number(1), 0), call(2, 0)],
            &[(Open, 3), (Number(2), 12), (Unit(2), 1), call(2, 12)],
            &[(Open, 3), call(2, 0), template(2, 5)],
        ],
        &[
            &[call(2, 12)],
            &[call(2, 0)],
            &[call(2, 0), template(2, 5)],
            &[call(2, 65_535)],
            &[call(2, 264)],
            &[call(1, 263)],
            &[call(0, 6)],
            &[call(0, 0)],
            &[(Number(1), 12)],
            &[(Number(0), 263)],
        ],
    ),
    // A checker of call 0 and template 0 is one as any other.
    clause(
        &[living(4)],
        &[&[(Open, 3)], &[(Open, 3), living(7)]],
        &[&[], &[(Open, 3), (Unit(2), 1)], &[(Open, 3), living(8)]],
    ),
    // Their templates exist.
    clause(
        &[],
        &[&[template(2, 7)], &[template(1, 6)]],
        &[
            &[template(0, 8)],
            &[template(1, 8)],
            &[template(1, 128)],
            &[template(2, 8)],
            &[template(2, 32)],
            &[template(2, 255)],
        ],
    ),
    // Their templates are of their calls' units.
    clause(
        &[],
        &[&[template(0, 2)], &[(Unit(1), 0), template(2, 5)]],
        &[
            &[template(0, 4)],
            &[template(1, 7)],
            &[template(2, 0)],
            &[template(2, 6)],
            &[(Unit(1), 0)],
            &[(Unit(0), 1)],
            &[(Unit(0), 1), template(0, 4)],
            &[(Unit(0), 1), template(1, 4)],
        ],
    ),
    // A checker behind the living ones: its call, its template.
    clause(
        &[],
        &[
            &[living(4), call(3, 8), template(3, 4)],
            &[living(2), call(2, 0), template(2, 0)],
            &[
                living(0),
                call(0, 0),
                call(1, 0),
                template(1, 0),
                call(2, 0),
                template(2, 0),
            ],
        ],
        &[
            &[call(3, 8)],
            &[call(3, 256)],
            &[template(3, 4)],
            &[call(3, 8), template(3, 4)],
            &[call(9, 7)],
            &[template(40, 1)],
            &[call(63, 65_535)],
            &[template(63, 255)],
            &[living(2)],
            &[living(2), call(2, 0)],
            &[living(2), template(2, 0)],
            &[living(1)],
            &[living(0)],
        ],
    ),
    Shared::POSITION_OF_BAD,
    Shared::POSITION_OF_FAILED,
    Shared::IS_MAIN,
    Shared::IS_BAD,
    Shared::EXISTS,
    Shared::HAS_VERDICT,
];

// ---- Sixty-four checkers: templates 0 to 4, of which 2 and 4 are of unit 1; calls 100 to 115, of units
// ---- 0 and 1 by turns; four checkers on each ---------------------------------------------------

/// Nothing is bound to the last call.
const LAST_FREE: &[Set] = &[
    living(60),
    call(60, 0),
    call(61, 0),
    call(62, 0),
    call(63, 0),
    template(60, 0),
    template(61, 0),
    template(62, 0),
    template(63, 0),
];

pub const CROWD_CLAUSES: &[Clause] = &[
    Shared::OPENED,
    // How many checkers live.
    clause(
        &[],
        &[&[living(64)]],
        &[
            &[living(65)],
            &[living(66)],
            &[living(128)],
            &[living(255)],
            // The last checker is behind them.
            &[living(63)],
            &[living(0)],
        ],
    ),
    // Two calls with one number, far apart and side by side.
    clause(
        LAST_FREE,
        &[&[], &[(Number(15), 200)], &[(Number(15), 0)]],
        &[&[(Number(15), 100)], &[(Number(15), 114)]],
    ),
    // The last place, each clause that a call has.
    clause(
        LAST_FREE,
        &[&[(Unit(15), 0)]],
        &[&[(Unit(15), 2)], &[(Kept(15, 1), MOST)]],
    ),
    // The last checker, each clause that a checker has.
    clause(
        &[],
        &[&[template(63, 4)]],
        &[
            &[template(63, 3)],
            &[template(63, 5)],
            &[template(63, 255)],
            &[call(63, 99)],
            &[call(63, 0)],
            &[(Unit(15), 0)],
            &[(Number(15), 99)],
        ],
    ),
    // Five on a call and three on the next; in their calls' order all the same.
    clause(
        &[],
        &[],
        &[
            &[call(4, 100), template(4, 1)],
            &[call(3, 101), template(3, 4)],
            &[call(60, 114), template(60, 0)],
            &[call(59, 115), template(59, 2)],
        ],
    ),
    // Four on each, but not in their calls' order.
    clause(
        &[],
        &[&[template(2, 1), template(3, 0)]],
        &[
            &[call(3, 101), template(3, 2), call(4, 100), template(4, 0)],
            &[call(0, 115), template(0, 2), call(63, 100), template(63, 0)],
            &[
                call(59, 115),
                template(59, 2),
                call(60, 114),
                template(60, 0),
            ],
            &[
                call(59, 115),
                template(59, 2),
                call(63, 114),
                template(63, 0),
            ],
        ],
    ),
];

// ---- A header alone: Q 1, U 1, P 0, V 0, no templates; call 7 open ------------------------------

pub const TINY_CLAUSES: &[Clause] = &[clause(
    &[],
    &[&[], &[(Position, 2)], &[(Open, 2), (Number(1), 65_535)]],
    &[
        &[(Main, 1)],
        &[(Main, 255)],
        &[(Variable(0), 1)],
        &[(Variable(3), HIGH)],
        &[(Unit(0), 1)],
        &[(Unit(0), 255)],
        &[(Kept(0, 0), 1)],
        &[(Kept(0, 7), MOST)],
        &[living(1)],
        &[living(1), call(0, 7)],
        &[call(0, 7)],
        &[template(0, 1)],
        &[(Open, 2), (Number(1), 7)],
        &[(Failed(0), 1)],
        &[(BadState(0), 1)],
        &[(Both(0, 0), 1)],
    ],
)];

// ---- Everything at its limit: Q 16, U 16, P 8, V 4, 32 templates of unit 15, 14 bad; call 65535 open
// ---- with checkers of templates 0 to 3 ---------------------------------------------------------

pub const EDGE_CLAUSES: &[Clause] = &[
    clause(
        &[],
        &[
            &[],
            &[(Main, 13)],
            &[(Variable(3), MOST)],
            &[(Kept(0, 7), HIGH)],
            &[template(0, 31)],
            &[template(0, 28), template(3, 31)],
            &[(Open, 2), (Unit(1), 15)],
            &[
                (Open, 2),
                (Unit(1), 15),
                living(6),
                template(4, 31),
                template(5, 31),
            ],
        ],
        &[
            &[(Main, 14)],
            &[(Main, 16)],
            &[(Main, 255)],
            &[(Open, 2), (Unit(1), 16)],
            &[(Open, 2), (Number(1), 65_535), (Unit(1), 15)],
            &[template(3, 32)],
            &[template(0, 255)],
            &[living(5), call(4, 65_535), template(4, 4)],
            &[(Unit(0), 14)],
            &[(Kept(1, 7), 1)],
        ],
    ),
    judged(
        &[],
        &[
            &[(Main, 14), (BadState(14), 1)],
            &[(Main, 14), (Both(14, 31), 1)],
            &[(Failed(31), 1)],
        ],
        &[
            &[(BadState(15), 1)],
            &[(BadState(14), 1)],
            &[(Main, 14), (BadState(15), 1)],
            &[(Main, 14), (Both(14, 32), 1)],
            &[(Failed(32), 1)],
        ],
    ),
];
