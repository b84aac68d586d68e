//! Clauses of a sound state, for `monitor_cases` and `network_cases`: what breaks each of them
//! alone, and next to it what does not. Here are those that sheets' and networks' states share.

use crate::framing::script_frames::Field::*;
use crate::framing::script_frames::{Own, Set};
use std::marker::PhantomData;

/// What is set first, then in turn each of the sound and of the broken changes.
#[derive(Clone, Copy)]
pub struct Clause<O: 'static> {
    /// What refuses events where the state is sound, if something does.
    pub answer: Option<&'static str>,
    pub before: &'static [Set<O>],
    pub sound: &'static [&'static [Set<O>]],
    pub broken: &'static [&'static [Set<O>]],
}

pub const fn clause<O>(
    before: &'static [Set<O>],
    sound: &'static [&'static [Set<O>]],
    broken: &'static [&'static [Set<O>]],
) -> Clause<O> {
    Clause {
        answer: None,
        before,
        sound,
        broken,
    }
}

/// The sound states have a verdict.
pub const fn judged<O>(
    before: &'static [Set<O>],
    sound: &'static [&'static [Set<O>]],
    broken: &'static [&'static [Set<O>]],
) -> Clause<O> {
    Clause {
        answer: Some("refused 10"),
        before,
        sound,
        broken,
    }
}

pub const HIGH: u32 = 0x8000_0000;
pub const MOST: u32 = u32::MAX;

/// For the state of `base_state`: Q 4, U 2, P 2, V 2, 8 triples or templates, 2 and 3 bad; calls 7
/// and 8 open, position 2.
pub struct Shared<O>(PhantomData<O>);

impl<O: Own> Shared<O> {
    /// The main state. At 1 what is armed is of another state than the main one (reading 8).
    pub const MAIN: Clause<O> = clause(
        &[],
        &[&[], &[(Main, 1)]],
        &[&[(Main, 4)], &[(Main, 15)], &[(Main, 16)], &[(Main, 255)]],
    );

    /// Two calls with one number. First set what leaves nothing bound to call 8.
    pub const fn numbers(before: &'static [Set<O>]) -> Clause<O> {
        clause(
            before,
            &[&[(Number(1), 6)], &[(Number(1), 65_535)], &[(Number(1), 0)]],
            &[
                &[(Number(1), 7)],
                &[(Open, 4), (Number(2), 5), (Number(3), 8)],
            ],
        )
    }

    /// Number 0 is a number as any other. First set the same, and a third call.
    pub const fn number_zero(before: &'static [Set<O>]) -> Clause<O> {
        clause(before, &[&[]], &[&[(Number(1), 0)], &[(Open, 4)]])
    }

    /// A unit. First set what leaves nothing armed for call 8.
    pub const fn units(before: &'static [Set<O>]) -> Clause<O> {
        clause(
            before,
            &[&[(Unit(1), 0)], &[(Unit(1), 1)]],
            &[&[(Unit(1), 2)], &[(Unit(1), 16)], &[(Unit(1), 255)]],
        )
    }

    /// Variables from V on.
    pub const VARIABLES: Clause<O> = clause(
        &[],
        &[&[(Variable(0), 0)], &[(Variable(1), HIGH)]],
        &[
            &[(Variable(2), 1)],
            &[(Variable(2), HIGH)],
            &[(Variable(3), 0x100)],
            &[(Variable(3), MOST)],
        ],
    );

    /// Kept values from P on.
    pub const KEPT: Clause<O> = clause(
        &[],
        &[&[(Kept(0, 1), MOST)], &[(Kept(1, 0), HIGH)]],
        &[
            &[(Kept(0, 2), 1)],
            &[(Kept(0, 7), 1)],
            &[(Kept(1, 2), HIGH)],
            &[(Kept(1, 3), 1)],
            &[(Kept(1, 4), 0x1_0000)],
            &[(Kept(1, 5), MOST)],
            &[(Kept(1, 6), 1)],
            &[(Kept(1, 7), 0x100)],
        ],
    );

    /// A call behind the open ones: its number, its unit, a kept value.
    pub const BEHIND: Clause<O> = clause(
        &[],
        &[
            &[(Open, 3), (Number(2), 5)],
            &[(Open, 3), (Unit(2), 1)],
            &[(Open, 3), (Kept(2, 0), 5)],
            &[(Open, 3), (Kept(2, 1), 5)],
        ],
        &[
            &[(Number(2), 5)],
            &[(Number(2), 256)],
            &[(Number(9), 9)],
            &[(Number(15), 65_535)],
            &[(Unit(2), 1)],
            &[(Unit(8), 2)],
            &[(Unit(15), 255)],
            &[(Kept(2, 0), 5)],
            &[(Kept(2, 7), HIGH)],
            &[(Kept(7, 3), 1)],
            &[(Kept(15, 0), MOST)],
            &[(Kept(15, 7), 1)],
        ],
    );

    /// The position of a verdict by a bad state.
    pub const POSITION_OF_BAD: Clause<O> = judged(
        &[(Main, 2)],
        &[
            &[(BadState(2), 2)],
            &[(Both(2, 0), 2)],
            &[(Position, MOST), (BadState(2), MOST)],
        ],
        &[
            &[(BadState(2), 1)],
            &[(BadState(2), 3)],
            &[(BadState(2), 0)],
            &[(BadState(2), MOST)],
            &[(Position, 3), (Both(2, 0), 2)],
            &[(Both(2, 0), 258)],
            &[(Position, 258), (BadState(2), 2)],
            &[(Position, 255), (Both(2, 0), MOST)],
        ],
    );

    /// The same of one by a triple or template.
    pub const POSITION_OF_FAILED: Clause<O> = judged(
        &[],
        &[
            &[(Failed(0), 2)],
            &[(Position, 3), (Failed(0), 3)],
            &[(Position, HIGH), (Failed(4), HIGH)],
        ],
        &[
            &[(Position, 3), (Failed(0), 2)],
            &[(Failed(0), 3)],
            &[(Position, 258), (Failed(0), 2)],
            &[(Failed(4), HIGH)],
            &[(Position, MOST), (Failed(0), 2)],
        ],
    );

    /// A verdict's bad state is the main state.
    pub const IS_MAIN: Clause<O> = judged(
        &[(Main, 3)],
        &[&[(BadState(3), 2)], &[(Both(3, 7), 2)]],
        &[
            &[(BadState(2), 2)],
            &[(Both(2, 7), 2)],
            &[(BadState(0), 2)],
            &[(BadState(255), 2)],
            &[(Both(7, 3), 2)],
        ],
    );

    /// Its bad state is bad.
    pub const IS_BAD: Clause<O> = judged(
        &[],
        &[&[(Main, 1), (Failed(1), 2)], &[(Main, 2), (BadState(2), 2)]],
        &[
            &[(BadState(0), 2)],
            &[(Both(0, 0), 2)],
            &[(Main, 1), (BadState(1), 2)],
            &[(Main, 1), (Both(1, 1), 2)],
            &[(Main, 4), (BadState(4), 2)],
            &[(Main, 16), (BadState(16), 2)],
            &[(Main, 255), (Both(255, 0), 2)],
        ],
    );

    /// Its triple or template exists, and alone is enough where the main state is bad (reading 9).
    pub const EXISTS: Clause<O> = judged(
        &[],
        &[
            &[(Failed(7), 2)],
            &[(Main, 2), (Failed(7), 2)],
            &[(Main, 3), (Failed(0), 2)],
            &[(Main, 2), (Both(2, 7), 2)],
        ],
        &[
            &[(Failed(8), 2)],
            &[(Failed(32), 2)],
            &[(Failed(255), 2)],
            &[(Main, 2), (Failed(8), 2)],
            &[(Main, 2), (Both(2, 8), 2)],
            &[(Main, 2), (Both(2, 255), 2)],
        ],
    );

    /// A bad main state has a verdict.
    pub const HAS_VERDICT: Clause<O> = judged(
        &[],
        &[&[(Main, 3), (BadState(3), 2)]],
        &[&[(Main, 2)], &[(Main, 3)], &[(Main, 2), (Position, 77)]],
    );

    /// How many calls are open, where it is sixteen.
    pub const OPENED: Clause<O> = clause(
        &[],
        &[&[], &[(Open, 16)]],
        &[
            &[(Open, 17)],
            &[(Open, 18)],
            &[(Open, 32)],
            &[(Open, 128)],
            &[(Open, 255)],
            // The last call is behind them.
            &[(Open, 15)],
            &[(Open, 0)],
        ],
    );
}
