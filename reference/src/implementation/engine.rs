//! One event, on a sheet and on a network. Its count (document 02, slip 3) is that of the conditions tried, of the
//! values assigned and of the pre- and postconditions judged.

use crate::implementation::expr::{Counted, Lent};
use crate::implementation::machine::{Header, Kind, Machine, Transition};
use crate::implementation::network::{Network, Pair};
use crate::implementation::refusal::Refusal;
use crate::implementation::sheet::Sheet;
use crate::implementation::state::{
    Armed, Call, Cause, Checker, Common, NetworkState, SheetState, Verdict, MOST_CALLS,
    MOST_CHECKERS,
};

/// An event as offered: nothing in it has been judged yet.
#[derive(Clone, Copy, Debug, PartialEq, Eq)]
pub struct Event<'a> {
    pub kind: u8,
    pub unit: u8,
    pub call: u16,
    pub values: &'a [i32],
}

/// What a run needs from a sheet or a network.
pub trait Engine: Sized {
    type State: Clone + Default;

    /// The first of the reading refusals that applies, or what the bytes say.
    fn read(bytes: &[u8]) -> Result<Self, Refusal>;
    fn machine(&self) -> &Machine;
    fn fresh(&self) -> Self::State;
    fn is_sound(&self, state: &Self::State) -> bool;
    /// The state after the event with its count, or the lowest of refusals 10-15, for a state that is
    /// sound.
    fn take(&self, state: &Self::State, event: &Event) -> Result<Counted<Self::State>, Refusal>;
    fn common(state: &Self::State) -> &Common;

    /// The state after the event with its count, or the lowest of refusals 9-15; then the state stays as it
    /// was, and the count is 0.
    fn counted_event(
        &self,
        state: &Self::State,
        event: &Event,
    ) -> Result<Counted<Self::State>, Refusal> {
        if !self.is_sound(state) {
            return Err(Refusal::Unsound);
        }
        self.take(state, event)
    }

    /// The same without the count.
    fn event(&self, state: &Self::State, event: &Event) -> Result<Self::State, Refusal> {
        Ok(self.counted_event(state, event)?.result)
    }
}

/// An event that is taken: an entry, or the exit of the call at a place.
#[derive(Clone, Copy)]
enum Taken {
    Entry,
    Exit(usize),
}

impl Taken {
    fn kind(self) -> Kind {
        match self {
            Taken::Entry => Kind::Entry,
            Taken::Exit(_) => Kind::Exit,
        }
    }
}

/// Refusals 10 to 15.
fn admit(common: &Common, event: &Event, header: &Header) -> Result<Taken, Refusal> {
    if common.verdict.is_some() {
        return Err(Refusal::HasVerdict);
    }
    let kind = Kind::from_byte(event.kind).ok_or(Refusal::Arguments)?;
    if event.unit >= header.units || event.values.len() != usize::from(header.program) {
        return Err(Refusal::Arguments);
    }
    if common.position == u32::MAX {
        return Err(Refusal::LastPosition);
    }
    let place = common.place_of(event.call);
    match kind {
        Kind::Entry => admit_entry(common, place),
        Kind::Exit => admit_exit(common, event.unit, place),
    }
}

fn admit_entry(common: &Common, place: Option<usize>) -> Result<Taken, Refusal> {
    if place.is_some() {
        return Err(Refusal::AlreadyOpen);
    }
    if usize::from(common.open) >= MOST_CALLS {
        return Err(Refusal::NoPlace);
    }
    Ok(Taken::Entry)
}

fn admit_exit(common: &Common, unit: u8, place: Option<usize>) -> Result<Taken, Refusal> {
    let place = place.ok_or(Refusal::NotOpen)?;
    match common.open_calls().get(place) {
        Some(call) if call.unit == unit => Ok(Taken::Exit(place)),
        _ => Err(Refusal::NotOpen),
    }
}

/// What an exit breaks: the lowest failing triple or template, and the entry position of its call.
#[derive(Clone, Copy)]
struct Failing {
    triple: u8,
    entry: u32,
}

impl Common {
    /// Appends the call, entered at the present position, and gives its place.
    fn enter(&mut self, event: &Event) -> usize {
        let mut call = Call {
            number: event.call,
            unit: event.unit,
            entry: self.position,
            ..Call::default()
        };
        for (kept, value) in call.kept.iter_mut().zip(event.values) {
            *kept = *value;
        }
        let place = usize::from(self.open);
        if let Some(free) = self.calls.get_mut(place) {
            *free = call;
            self.open += 1;
        }
        place
    }

    /// Takes the call out; the later ones move up.
    fn leave(&mut self, place: usize) -> Call {
        self.open = self.open.saturating_sub(1);
        close_up(&mut self.calls, place)
    }

    /// The action and then the new state; without a transition both stay. Gives the action's count.
    fn finish(&mut self, taken: Option<&Transition>, event: &Event, machine: &Machine) -> u64 {
        let Some(transition) = taken else { return 0 };
        let action = machine.actions.get(usize::from(transition.action));
        let monitor = usize::from(machine.header.monitor).min(self.variables.len());
        let count = action.map_or(0, |action| {
            action.carry_out(event.values, &mut self.variables[..monitor], &[])
        });
        self.main = transition.to;
        count
    }

    /// A verdict where the new state is bad or a postcondition fails.
    fn judge(&mut self, header: &Header, failing: Option<Failing>) {
        let bad = header.is_bad(self.main).then_some(self.main);
        let cause = Cause::new(bad, failing.map(|failing| failing.triple));
        self.verdict = cause.map(|cause| Verdict {
            position: self.position,
            cause,
            entry: failing.map_or(0, |failing| failing.entry),
        });
    }
}

/// Removes the element at `place`, moves the rest up and zeroes the last.
fn close_up<T: Copy + Default>(places: &mut [T], place: usize) -> T {
    let Some(tail) = places.get_mut(place..) else {
        return T::default();
    };
    let Some(out) = tail.first().copied() else {
        return T::default();
    };
    tail.rotate_left(1);
    if let Some(last) = tail.last_mut() {
        *last = T::default();
    }
    out
}

/// An event that is taken, and what was before it.
struct Trial<'a> {
    machine: &'a Machine,
    before: &'a Common,
    event: &'a Event<'a>,
    taken: Taken,
}

impl<'a> Trial<'a> {
    /// Refusals 10 to 15.
    fn of(
        machine: &'a Machine,
        before: &'a Common,
        event: &'a Event,
    ) -> Result<Trial<'a>, Refusal> {
        let taken = admit(before, event, &machine.header)?;
        Ok(Trial {
            machine,
            before,
            event,
            taken,
        })
    }

    /// Whether a transition is the one for this event. Its condition is tried, and counts, only where it is of
    /// this state, kind and unit.
    fn takes(&self, t: &Transition, count: &mut u64) -> bool {
        (t.from, t.kind, t.unit) == (self.before.main, self.taken.kind(), self.event.unit)
            && self.holds_before(t.condition, count)
    }

    /// Whether a condition holds with the event's values and the variables as they stood before the event:
    /// a transition's, and by document 02's slip 13 a precondition and a pair's too.
    fn holds_before(&self, condition: u8, count: &mut u64) -> bool {
        let lent = Lent {
            program: self.event.values,
            monitor: &self.before.variables,
            kept: &[],
        };
        self.machine.evaluate_condition(condition, &lent, count)
    }

    /// Whether a postcondition holds at the exit of the call.
    fn holds_after(&self, condition: u8, call: &Call, count: &mut u64) -> bool {
        let lent = Lent {
            program: self.event.values,
            monitor: &[],
            kept: &call.kept,
        };
        self.machine.evaluate_condition(condition, &lent, count)
    }
}

// ---- Sheets -----------------------------------------------------------------------------------

impl Engine for Sheet {
    type State = SheetState;

    fn read(bytes: &[u8]) -> Result<Sheet, Refusal> {
        Sheet::read(bytes)
    }

    fn machine(&self) -> &Machine {
        &self.machine
    }

    fn fresh(&self) -> SheetState {
        SheetState {
            common: Common::fresh(&self.machine),
            ..SheetState::default()
        }
    }

    fn is_sound(&self, state: &SheetState) -> bool {
        state.is_sound(self)
    }

    fn take(&self, state: &SheetState, event: &Event) -> Result<Counted<SheetState>, Refusal> {
        let trial = Trial::of(&self.machine, &state.common, event)?;
        Ok(Counted::of(|count| {
            let mut next = state.clone();
            next.common.position += 1;
            let failing = match trial.taken {
                Taken::Entry => {
                    self.arm(&trial, &mut next, count);
                    None
                }
                Taken::Exit(place) => self.disarm(&trial, &mut next, place, count),
            };
            let mut transitions = self.transitions.iter();
            let transition = transitions.find(|t| trial.takes(t, count));
            *count += next.common.finish(transition, event, &self.machine);
            next.common.judge(&self.machine.header, failing);
            next
        }))
    }

    fn common(state: &SheetState) -> &Common {
        &state.common
    }
}

impl Sheet {
    /// Opens the call, with the triples of the state before the event whose preconditions hold.
    fn arm(&self, trial: &Trial, next: &mut SheetState, count: &mut u64) {
        let mut armed = Armed::default();
        for number in self.triples_of(trial.before.main, trial.event.unit) {
            let precondition = self.triples[usize::from(number)].precondition;
            let holds = trial.holds_before(precondition, count);
            let free = armed.triples.get_mut(usize::from(armed.count));
            if let (true, Some(free)) = (holds, free) {
                *free = number;
                armed.count += 1;
            }
        }
        let place = next.common.enter(trial.event);
        if let Some(free) = next.armed.get_mut(place) {
            *free = armed;
        }
    }

    /// Closes the call and gives the lowest armed triple whose postcondition fails. All are judged.
    fn disarm(
        &self,
        trial: &Trial,
        next: &mut SheetState,
        place: usize,
        count: &mut u64,
    ) -> Option<Failing> {
        let call = next.common.leave(place);
        let armed = close_up(&mut next.armed, place);
        let fails = |number: &&u8| {
            let triple = self.triples.get(usize::from(**number));
            triple.is_some_and(|t| !trial.holds_after(t.postcondition, &call, count))
        };
        let lowest = armed.numbers().iter().filter(fails).min();
        lowest.map(|triple| Failing {
            triple: *triple,
            entry: call.entry,
        })
    }
}

// ---- Networks ---------------------------------------------------------------------------------

impl Engine for Network {
    type State = NetworkState;

    fn read(bytes: &[u8]) -> Result<Network, Refusal> {
        Network::read(bytes)
    }

    fn machine(&self) -> &Machine {
        &self.machine
    }

    fn fresh(&self) -> NetworkState {
        NetworkState {
            common: Common::fresh(&self.machine),
            ..NetworkState::default()
        }
    }

    fn is_sound(&self, state: &NetworkState) -> bool {
        state.is_sound(self)
    }

    fn take(&self, state: &NetworkState, event: &Event) -> Result<Counted<NetworkState>, Refusal> {
        let trial = Trial::of(&self.machine, &state.common, event)?;
        Ok(Counted::of(|count| {
            let mut next = state.clone();
            next.common.position += 1;
            let failing = match trial.taken {
                Taken::Entry => {
                    next.common.enter(event);
                    None
                }
                Taken::Exit(place) => self.end_checkers(&trial, &mut next, place, count),
            };
            let mut transitions = self.transitions.iter();
            let creating = transitions.find(|c| trial.takes(&c.transition, count));
            let pairs = creating.map_or(&[][..], |c| &c.pairs);
            next.create_all(&trial, pairs, count);
            let transition = creating.map(|c| &c.transition);
            *count += next.common.finish(transition, event, &self.machine);
            next.common.judge(&self.machine.header, failing);
            next
        }))
    }

    fn common(state: &NetworkState) -> &Common {
        &state.common
    }
}

impl Network {
    /// Closes the call, ends its checkers and gives the lowest template that fails. All are judged.
    fn end_checkers(
        &self,
        trial: &Trial,
        next: &mut NetworkState,
        place: usize,
        count: &mut u64,
    ) -> Option<Failing> {
        let call = next.common.leave(place);
        let (ending, staying): (Vec<Checker>, Vec<Checker>) = next
            .living_checkers()
            .iter()
            .partition(|c| c.call == call.number);
        next.set_checkers(&staying);
        let fails = |checker: &&Checker| {
            let template = self.templates.get(usize::from(checker.template));
            template.is_some_and(|t| !trial.holds_after(t.postcondition, &call, count))
        };
        let lowest = ending.iter().filter(fails).min_by_key(|c| c.template);
        lowest.map(|checker| Failing {
            triple: checker.template,
            entry: checker.entry,
        })
    }
}

impl NetworkState {
    /// A checker for each pair of the transition that is taken whose condition holds.
    fn create_all(&mut self, trial: &Trial, pairs: &[Pair], count: &mut u64) {
        for pair in pairs {
            if trial.holds_before(pair.condition, count) {
                self.create(Checker {
                    call: trial.event.call,
                    template: pair.template,
                    entry: self.common.position,
                });
            }
        }
    }

    /// The call is the last one opened, so the checkers stay in their calls' order.
    fn create(&mut self, checker: Checker) {
        if let Some(free) = self.checkers.get_mut(usize::from(self.living)) {
            *free = checker;
            self.living += 1;
        }
    }

    fn set_checkers(&mut self, checkers: &[Checker]) {
        self.checkers = [Checker::default(); MOST_CHECKERS];
        self.living = 0;
        for checker in checkers {
            self.create(*checker);
        }
    }
}

// ---- From bytes -------------------------------------------------------------------------------

/// A fresh state; what is refused gives an all-zero state.
pub fn fresh_state<E: Engine>(bytes: &[u8]) -> (E::State, Option<Refusal>) {
    match E::read(bytes) {
        Ok(engine) => (engine.fresh(), None),
        Err(refusal) => (E::State::default(), Some(refusal)),
    }
}

/// One event: the reading refusals and 9-15.
pub fn offer<E: Engine>(
    bytes: &[u8],
    state: &E::State,
    event: &Event,
) -> Result<Counted<E::State>, Refusal> {
    E::read(bytes)?.counted_event(state, event)
}

pub fn fresh_sheet_state(sheet: &[u8]) -> (SheetState, Option<Refusal>) {
    fresh_state::<Sheet>(sheet)
}

pub fn fresh_network_state(network: &[u8]) -> (NetworkState, Option<Refusal>) {
    fresh_state::<Network>(network)
}

/// One event on a sheet's bytes: refusals 1-15.
pub fn sheet_event(
    sheet: &[u8],
    state: &SheetState,
    event: &Event,
) -> Result<Counted<SheetState>, Refusal> {
    offer::<Sheet>(sheet, state, event)
}

/// One event on a network's bytes: refusals 1-7 and 9-15.
pub fn network_event(
    network: &[u8],
    state: &NetworkState,
    event: &Event,
) -> Result<Counted<NetworkState>, Refusal> {
    offer::<Network>(network, state, event)
}
