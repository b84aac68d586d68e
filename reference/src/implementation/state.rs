//! States of a sheet's and of a network's run, and when they are sound.
//!
//! Places are fixed and counted, as document 01 speaks of them, so that unsound states can be
//! written down too.

use crate::implementation::machine::{Header, Machine, MOST_MONITOR, MOST_PROGRAM};
use crate::implementation::network::Network;
use crate::implementation::sheet::Sheet;

pub const MOST_CALLS: usize = 16;
pub const MOST_ARMED: usize = 4;
pub const MOST_CHECKERS: usize = MOST_CALLS * MOST_ARMED;

#[derive(Clone, Copy, Debug, PartialEq, Eq)]
pub enum Cause {
    State(u8),
    /// A triple on a sheet, a template on a network.
    Triple(u8),
    Both {
        state: u8,
        triple: u8,
    },
}

impl Cause {
    pub fn new(state: Option<u8>, triple: Option<u8>) -> Option<Cause> {
        match (state, triple) {
            (None, None) => None,
            (Some(state), None) => Some(Cause::State(state)),
            (None, Some(triple)) => Some(Cause::Triple(triple)),
            (Some(state), Some(triple)) => Some(Cause::Both { state, triple }),
        }
    }

    pub fn state(self) -> Option<u8> {
        match self {
            Cause::State(state) | Cause::Both { state, .. } => Some(state),
            Cause::Triple(_) => None,
        }
    }

    pub fn triple(self) -> Option<u8> {
        match self {
            Cause::Triple(triple) | Cause::Both { triple, .. } => Some(triple),
            Cause::State(_) => None,
        }
    }
}

#[derive(Clone, Copy, Debug, PartialEq, Eq)]
pub struct Verdict {
    pub position: u32,
    pub cause: Cause,
    /// The entry position of the call that broke the triple; 0 where no triple failed.
    pub entry: u32,
}

#[derive(Clone, Copy, Debug, Default, PartialEq, Eq)]
pub struct Call {
    pub number: u16,
    pub unit: u8,
    /// The position of its entry: the state's after taking it.
    pub entry: u32,
    pub kept: [i32; MOST_PROGRAM as usize],
}

/// The part that both kinds of state have.
#[derive(Clone, Debug, Default, PartialEq, Eq)]
pub struct Common {
    pub main: u8,
    pub variables: [i32; MOST_MONITOR as usize],
    pub position: u32,
    pub verdict: Option<Verdict>,
    pub open: u8,
    pub calls: [Call; MOST_CALLS],
}

/// The triples armed for the call at the same place.
#[derive(Clone, Copy, Debug, Default, PartialEq, Eq)]
pub struct Armed {
    pub count: u8,
    pub triples: [u8; MOST_ARMED],
}

#[derive(Clone, Debug, Default, PartialEq, Eq)]
pub struct SheetState {
    pub common: Common,
    pub armed: [Armed; MOST_CALLS],
}

/// A checker is bound to a call by the call's number; the kept values stand in the call.
#[derive(Clone, Copy, Debug, Default, PartialEq, Eq)]
pub struct Checker {
    pub call: u16,
    pub template: u8,
    /// Its call's entry position.
    pub entry: u32,
}

#[derive(Clone, Debug, PartialEq, Eq)]
pub struct NetworkState {
    pub common: Common,
    pub living: u8,
    pub checkers: [Checker; MOST_CHECKERS],
}

impl Default for NetworkState {
    fn default() -> NetworkState {
        NetworkState {
            common: Common::default(),
            living: 0,
            checkers: [Checker::default(); MOST_CHECKERS],
        }
    }
}

// ---- Fresh states and places ------------------------------------------------------------------

impl Common {
    pub fn fresh(machine: &Machine) -> Common {
        let mut common = Common {
            main: machine.header.start,
            ..Common::default()
        };
        for (place, value) in common.variables.iter_mut().zip(&machine.initial) {
            *place = *value;
        }
        common
    }

    pub fn open_calls(&self) -> &[Call] {
        front(&self.calls, self.open)
    }

    /// Where the call with this number stands.
    pub fn place_of(&self, number: u16) -> Option<usize> {
        self.open_calls()
            .iter()
            .position(|call| call.number == number)
    }
}

impl Armed {
    pub fn numbers(&self) -> &[u8] {
        front(&self.triples, self.count)
    }
}

impl NetworkState {
    pub fn living_checkers(&self) -> &[Checker] {
        front(&self.checkers, self.living)
    }

    /// The values at entry of the living checker at a place: those that its call keeps. Zeros where
    /// there is no such checker, or where its call is not open.
    pub fn entry_values(&self, place: usize) -> [i32; MOST_PROGRAM as usize] {
        let checker = self.living_checkers().get(place);
        let place = checker.and_then(|checker| self.common.place_of(checker.call));
        place.map_or([0; MOST_PROGRAM as usize], |place| {
            self.common.calls[place].kept
        })
    }
}

/// The places in use; all of them where the count is too large.
fn front<T>(places: &[T], count: u8) -> &[T] {
    places.get(..usize::from(count)).unwrap_or(places)
}

/// The places not in use; none where the count is too large.
fn back<T>(places: &[T], count: u8) -> &[T] {
    places.get(usize::from(count)..).unwrap_or(&[])
}

fn all_zero<T: Default + PartialEq>(places: &[T]) -> bool {
    places.iter().all(|place| *place == T::default())
}

// ---- Soundness --------------------------------------------------------------------------------

impl Common {
    /// `causes` is how many triples or templates there are.
    fn is_sound(&self, header: &Header, causes: usize) -> bool {
        self.main < header.states
            && all_zero(back(&self.variables, header.monitor))
            && self.calls_are_sound(header)
            && self.verdict_is_sound(header, causes)
    }

    fn calls_are_sound(&self, header: &Header) -> bool {
        let calls = self.open_calls();
        let call_is_sound =
            |call: &Call| call.unit < header.units && all_zero(back(&call.kept, header.program));
        let differs = |(place, call): (usize, &Call)| self.place_of(call.number) == Some(place);
        usize::from(self.open) <= MOST_CALLS
            && all_zero(back(&self.calls, self.open))
            && calls.iter().all(call_is_sound)
            && calls.iter().enumerate().all(differs)
            && self.entries_are_from_1()
            && self.entries_are_not_above()
            && self.entries_rise()
    }

    /// No open call's entry position is 0.
    fn entries_are_from_1(&self) -> bool {
        self.open_calls().iter().all(|call| call.entry != 0)
    }

    /// No open call's entry position is above the state's position.
    fn entries_are_not_above(&self) -> bool {
        let calls = self.open_calls();
        calls.iter().all(|call| call.entry <= self.position)
    }

    /// The entry positions rise along the calls.
    fn entries_rise(&self) -> bool {
        let calls = self.open_calls();
        calls.windows(2).all(|two| two[0].entry < two[1].entry)
    }

    fn verdict_is_sound(&self, header: &Header, causes: usize) -> bool {
        let Some(verdict) = self.verdict else {
            return !header.is_bad(self.main);
        };
        let state_fits = |state: u8| state == self.main && header.is_bad(state);
        verdict.position == self.position
            && verdict.entry_is_sound()
            && verdict.cause.state().is_none_or(state_fits)
            && verdict
                .cause
                .triple()
                .is_none_or(|t| usize::from(t) < causes)
    }
}

impl Verdict {
    /// With a triple its entry position is from 1 to below its own position, without one 0.
    fn entry_is_sound(&self) -> bool {
        match self.cause.triple() {
            Some(_) => (1..self.position).contains(&self.entry),
            None => self.entry == 0,
        }
    }
}

impl SheetState {
    pub fn is_sound(&self, sheet: &Sheet) -> bool {
        self.common
            .is_sound(&sheet.machine.header, sheet.triples.len())
            && all_zero(back(&self.armed, self.common.open))
            && self.armed_are_sound(sheet)
    }

    fn armed_are_sound(&self, sheet: &Sheet) -> bool {
        let calls = self.common.open_calls().iter();
        calls
            .zip(&self.armed)
            .all(|(call, armed)| armed_is_sound(armed, call.unit, sheet))
    }
}

/// At most four, rising, all of one state and of the call's unit.
fn armed_is_sound(armed: &Armed, unit: u8, sheet: &Sheet) -> bool {
    let numbers = armed.numbers();
    let triple = |number: &u8| sheet.triples.get(usize::from(*number));
    let first_state = numbers.first().and_then(triple).map(|t| t.state);
    let fits = |number: &u8| {
        triple(number).is_some_and(|t| t.unit == unit && Some(t.state) == first_state)
    };
    usize::from(armed.count) <= MOST_ARMED
        && all_zero(back(&armed.triples, armed.count))
        && numbers.windows(2).all(|two| two[0] < two[1])
        && numbers.iter().all(fits)
}

impl NetworkState {
    pub fn is_sound(&self, network: &Network) -> bool {
        self.common
            .is_sound(&network.machine.header, network.templates.len())
            && usize::from(self.living) <= MOST_CHECKERS
            && all_zero(back(&self.checkers, self.living))
            && self.checkers_are_sound(network)
            && self.checkers_entries_are_their_calls()
    }

    fn checkers_are_sound(&self, network: &Network) -> bool {
        let checkers = self.living_checkers().iter();
        let Some(places) = checkers.map(|c| self.checker_place(c, network)).collect() else {
            return false;
        };
        let places: Vec<usize> = places;
        let at_most_four =
            |place: &usize| places.iter().filter(|other| *other == place).count() <= MOST_ARMED;
        places.windows(2).all(|two| two[0] <= two[1]) && places.iter().all(at_most_four)
    }

    /// No living checker's entry position is another than that of its call, if that is open.
    fn checkers_entries_are_their_calls(&self) -> bool {
        let is_its_call_s = |checker: &Checker| {
            let place = self.common.place_of(checker.call);
            place.is_none_or(|place| self.common.calls[place].entry == checker.entry)
        };
        self.living_checkers().iter().all(is_its_call_s)
    }

    /// The place of a checker's call, if that is open and of the template's unit.
    fn checker_place(&self, checker: &Checker, network: &Network) -> Option<usize> {
        let place = self.common.place_of(checker.call)?;
        let template = network.templates.get(usize::from(checker.template))?;
        let call = self.common.open_calls().get(place)?;
        (call.unit == template.unit).then_some(place)
    }
}
