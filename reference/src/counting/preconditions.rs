//! Whether it decides that preconditions and pairs read the monitor variables, and read them as they stood
//! before the event (document 02, slip 13): what rules answer is another thing where they are read as the
//! event's action leaves them, or where none are lent.

use crate::counting::deciding::{each_step, short_log};
use crate::counting::ends::Written;
use crate::implementation::engine::Event;
use crate::implementation::expr::Lent;
use crate::implementation::machine::{Kind, Transition};
use crate::implementation::network::Network;
use crate::implementation::refusal::Refusal;
use crate::implementation::run::{follow, run_records, Record};
use crate::implementation::sheet::Sheet;
use crate::implementation::state::{Armed, Checker, Common, NetworkState, SheetState, MOST_ARMED};

// ---- What an entry arms -----------------------------------------------------------------------

/// A precondition's number, and that of its triple or template.
pub type Asked = (u8, u8);

/// A sheet or network, of which it can be said what an entry may arm.
pub trait Arming: Written {
    /// All preconditions that there are.
    fn preconditions(&self) -> Vec<u8>;
    /// What is asked at an entry: of triples, or of the pairs of the transition that is taken.
    fn asked(&self, before: &Common, event: &Event) -> Vec<Asked>;
    /// The triples or templates of the call that was opened last.
    fn armed(state: &Self::State) -> Vec<u8>;
    /// Puts these in their place.
    fn arm_anew(state: &mut Self::State, armed: &[u8]);
}

/// The place of the call that was opened last.
fn last_place(common: &Common) -> Option<usize> {
    usize::from(common.open).checked_sub(1)
}

impl Arming for Sheet {
    fn preconditions(&self) -> Vec<u8> {
        self.triples.iter().map(|t| t.precondition).collect()
    }

    fn asked(&self, before: &Common, event: &Event) -> Vec<Asked> {
        let numbers = self.triples_of(before.main, event.unit).into_iter();
        let asked = |n: u8| (self.triples[usize::from(n)].precondition, n);
        numbers.map(asked).collect()
    }

    fn armed(state: &SheetState) -> Vec<u8> {
        let place = last_place(&state.common);
        place.map_or(Vec::new(), |place| state.armed[place].numbers().to_vec())
    }

    fn arm_anew(state: &mut SheetState, armed: &[u8]) {
        if let Some(place) = last_place(&state.common) {
            let mut triples = [0; MOST_ARMED];
            triples[..armed.len()].copy_from_slice(armed);
            let count = armed.len() as u8;
            state.armed[place] = Armed { count, triples };
        }
    }
}

impl Arming for Network {
    fn preconditions(&self) -> Vec<u8> {
        let pairs = self.transitions.iter().flat_map(|c| &c.pairs);
        pairs.map(|pair| pair.condition).collect()
    }

    fn asked(&self, before: &Common, event: &Event) -> Vec<Asked> {
        let lent = lent(event, &before.variables);
        let is_taken = |t: &Transition| {
            (t.from, t.kind, t.unit) == (before.main, Kind::Entry, event.unit)
                && self.machine.condition_holds(t.condition, &lent)
        };
        let taken = self.transitions.iter().find(|c| is_taken(&c.transition));
        let pairs = taken.into_iter().flat_map(|c| &c.pairs);
        pairs.map(|pair| (pair.condition, pair.template)).collect()
    }

    fn armed(state: &NetworkState) -> Vec<u8> {
        let place = last_place(&state.common);
        let call = place.map(|place| state.common.calls[place].number);
        let own = state.living_checkers().iter();
        let own = own.filter(|checker| Some(checker.call) == call);
        own.map(|checker| checker.template).collect()
    }

    fn arm_anew(state: &mut NetworkState, armed: &[u8]) {
        let Some(place) = last_place(&state.common) else {
            return;
        };
        let call = state.common.calls[place];
        // They stand behind all others.
        let first = usize::from(state.living) - Network::armed(state).len();
        state.checkers[first..].fill(Checker::default());
        for (free, template) in state.checkers[first..].iter_mut().zip(armed) {
            *free = Checker {
                call: call.number,
                template: *template,
                entry: call.entry,
            };
        }
        state.living = (first + armed.len()) as u8;
    }
}

/// What a condition may read that is asked at an entry.
fn lent<'a>(event: &'a Event, variables: &'a [i32]) -> Lent<'a> {
    Lent {
        program: event.values,
        monitor: variables,
        kept: &[],
    }
}

// ---- Misreading -------------------------------------------------------------------------------

/// What preconditions could read in place of the variables before the event.
#[derive(Clone, Copy, Debug, PartialEq, Eq)]
pub enum Misreading {
    /// The variables as the event's action leaves them.
    After,
    /// No variables.
    Nothing,
}

impl Misreading {
    pub const ALL: [Misreading; 2] = [Misreading::After, Misreading::Nothing];

    /// What a run shows where its answer is another one.
    fn label(self) -> &'static str {
        match self {
            Misreading::After => "that preconditions read before the action decides",
            Misreading::Nothing => "that preconditions read variables decides",
        }
    }

    /// What an event shows where something is armed that would not be, and where something is not that
    /// would be.
    fn labels_of_armed(self) -> [&'static str; 2] {
        match self {
            Misreading::After => [
                "a precondition holds before the action and not after",
                "a precondition holds after the action and not before",
            ],
            Misreading::Nothing => [
                "a precondition holds with the variables and not without",
                "a precondition holds without the variables and not with them",
            ],
        }
    }

    /// The answer where preconditions are read in this way. They decide neither which transition is taken
    /// nor what refuses an event, so all else is as it is.
    pub fn offer<R: Arming>(
        self,
        rules: &R,
        state: &R::State,
        event: &Event,
    ) -> Result<R::State, Refusal> {
        let next = rules.event(state, event)?;
        let after = R::common(&next).variables;
        Ok(match self {
            Misreading::After => reading(rules, R::common(state), event, next, &after),
            Misreading::Nothing => reading(rules, R::common(state), event, next, &[]),
        })
    }
}

/// The state after an event where preconditions have read these variables.
pub fn reading<R: Arming>(
    rules: &R,
    before: &Common,
    event: &Event,
    mut next: R::State,
    variables: &[i32],
) -> R::State {
    if event.kind == Kind::Entry.byte() {
        let lent = lent(event, variables);
        let mut asked = rules.asked(before, event);
        asked.retain(|(condition, _)| rules.machine().condition_holds(*condition, &lent));
        let armed: Vec<u8> = asked.into_iter().map(|(_, number)| number).collect();
        R::arm_anew(&mut next, &armed);
    }
    next
}

// ---- Runs and events --------------------------------------------------------------------------

/// Whether a precondition names a monitor variable.
pub fn names_variables<R: Arming>(rules: &R) -> bool {
    let conditions = &rules.machine().conditions;
    let names = |number: &u8| conditions[usize::from(*number)].mentions().monitor;
    rules.preconditions().iter().any(names)
}

fn named<R: Arming>(rules: &R, of: &str, label: &str) -> String {
    format!("{} {of}: {label}", rules.name())
}

const NAMED: &str = "a precondition names a variable";

/// What decides in the run of a log.
pub fn of_log<R: Arming>(rules: &R, log: &[u8]) -> Vec<String> {
    if !names_variables(rules) {
        return Vec::new();
    }
    let records = short_log(rules, log);
    let outcome = run_records(rules, &records).result;
    let decides = |misreading: &Misreading| {
        let offer =
            |rules: &R, state: &R::State, event: &Event| misreading.offer(rules, state, event);
        follow(rules, &records, offer) != outcome
    };
    let deciding = Misreading::ALL.into_iter().filter(decides);
    let labels = deciding.map(Misreading::label).chain([NAMED]);
    labels.map(|label| named(rules, "run", label)).collect()
}

/// What decides where the event is offered to the state.
pub fn of_event<R: Arming>(rules: &R, state: &R::State, event: &Record) -> Vec<String> {
    let mut labels = Vec::new();
    let right = rules.event(state, &event.event());
    let (true, Ok(right)) = (names_variables(rules), right) else {
        return labels;
    };
    let right = R::armed(&right);
    for misreading in Misreading::ALL {
        let other = misreading.offer(rules, state, &event.event());
        let other = other.map_or(Vec::new(), |other| R::armed(&other));
        let both = [has_more(&right, &other), has_more(&other, &right)];
        for (label, is) in misreading.labels_of_armed().into_iter().zip(both) {
            labels.extend(is.then(|| named(rules, "event", label)));
        }
    }
    labels
}

/// Whether some number stands more often in the first row.
fn has_more(one: &[u8], other: &[u8]) -> bool {
    let count = |row: &[u8], number: u8| row.iter().filter(|n| **n == number).count();
    one.iter().any(|n| count(one, *n) > count(other, *n))
}

/// The same of a log's records, offered one by one up to one that is refused.
pub fn of_steps<R: Arming>(rules: &R, log: &[u8]) -> Vec<String> {
    let mut labels = Vec::new();
    if names_variables(rules) {
        each_step(rules, &short_log(rules, log), |state, record, _| {
            labels.extend(of_event(rules, state, record));
        });
    }
    labels
}

// ---- What must occur --------------------------------------------------------------------------

/// In generated runs and events, on a sheet and on a network of each version.
pub fn wanted() -> Vec<String> {
    let mut labels = Vec::new();
    for name in ["sheet", "version 2", "version 3"] {
        labels.push(format!("{name} run: {NAMED}"));
        for misreading in Misreading::ALL {
            labels.push(format!("{name} run: {}", misreading.label()));
            let armed = misreading.labels_of_armed();
            labels.extend(armed.map(|label| format!("{name} event: {label}")));
        }
    }
    labels
}
