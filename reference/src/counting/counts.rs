//! What is counted of an evaluation, an event and a run (document 02, slip 3): a second definition, beside what they
//! come to, and the same with one mistake in it. A mistake decides where the count is another.

use crate::counting::deciding::{each_step, short_log};
use crate::counting::preconditions::Arming;
use crate::implementation::expr::{Action, Condition, Lent, Value};
use crate::implementation::machine::{Kind, Transition};
use crate::implementation::network::Network;
use crate::implementation::refusal::Refusal;
use crate::implementation::run::Record;
use crate::implementation::sheet::Sheet;
use crate::implementation::state::{Call, Common, NetworkState, SheetState};

/// Longer logs are not looked at, which saves time.
const MOST_RECORDS: usize = 16;

// ---- Mistakes ---------------------------------------------------------------------------------

/// What could be counted otherwise.
#[derive(Clone, Copy, Debug, PartialEq, Eq)]
pub enum Mistake {
    // Of expressions.
    AndAlways,
    OrAlways,
    BothBranches,
    /// A part that is not reached counts 1.
    Skipped,
    /// Constants and variables count 0.
    NoOperands,
    /// Each byte that is read counts.
    Bytes,
    // Of the values assigned.
    NoValues,
    FirstValueAlone,
    /// The assigned variable counts too.
    AssignedVariable,
    /// Later values see the variables before the action.
    ValuesBefore,
    // Of the conditions tried.
    TakenLeftOut,
    TakenAlone,
    BehindTaken,
    OtherState,
    OtherKind,
    OtherUnit,
    // Of what is judged.
    NoPreconditions,
    HoldingAlone,
    UpToFirstHolding,
    /// Preconditions read the variables as the action leaves them.
    PreconditionsAfter,
    NoPostconditions,
    UpToFirstFailing,
    OtherCalls,
    /// A refused event counts as though it were taken.
    Refused,
    // Of runs.
    LastLeftOut,
    LastAlone,
    BehindVerdict,
    /// A run with a refused event counts 0.
    RefusedRun,
    SixteenBits,
    // Of networks alone.
    /// The pairs of every transition that is tried.
    PairsOfTried,
    /// Several checkers from one template count once.
    TemplatesOnce,
}

impl Mistake {
    /// Those that an evaluation shows on its own.
    pub const OF_EXPRESSIONS: [Mistake; 6] = [
        Mistake::AndAlways,
        Mistake::OrAlways,
        Mistake::BothBranches,
        Mistake::Skipped,
        Mistake::NoOperands,
        Mistake::Bytes,
    ];
    /// Those that an action shows besides.
    pub const OF_ACTIONS: [Mistake; 4] = [
        Mistake::NoValues,
        Mistake::FirstValueAlone,
        Mistake::AssignedVariable,
        Mistake::ValuesBefore,
    ];
    /// Those that an event shows besides.
    pub const OF_EVENTS: [Mistake; 14] = [
        Mistake::TakenLeftOut,
        Mistake::TakenAlone,
        Mistake::BehindTaken,
        Mistake::OtherState,
        Mistake::OtherKind,
        Mistake::OtherUnit,
        Mistake::NoPreconditions,
        Mistake::HoldingAlone,
        Mistake::UpToFirstHolding,
        Mistake::PreconditionsAfter,
        Mistake::NoPostconditions,
        Mistake::UpToFirstFailing,
        Mistake::OtherCalls,
        Mistake::Refused,
    ];
    /// Those that a run alone shows.
    pub const OF_RUNS: [Mistake; 5] = [
        Mistake::LastLeftOut,
        Mistake::LastAlone,
        Mistake::BehindVerdict,
        Mistake::RefusedRun,
        Mistake::SixteenBits,
    ];
    pub const OF_NETWORKS: [Mistake; 2] = [Mistake::PairsOfTried, Mistake::TemplatesOnce];

    /// What events of sheets and of networks show.
    pub fn of_events() -> Vec<Mistake> {
        [
            &Mistake::OF_EXPRESSIONS[..],
            &Mistake::OF_ACTIONS,
            &Mistake::OF_EVENTS,
        ]
        .concat()
    }

    /// What their runs show.
    pub fn of_runs() -> Vec<Mistake> {
        [&Mistake::of_events()[..], &Mistake::OF_RUNS].concat()
    }
}

/// How it is counted: rightly, or with a mistake.
#[derive(Clone, Copy, Debug, PartialEq, Eq)]
pub struct Counting {
    mistake: Option<Mistake>,
}

// ---- Expressions ------------------------------------------------------------------------------

impl Counting {
    pub const RIGHT: Counting = Counting { mistake: None };

    pub fn with(mistake: Mistake) -> Counting {
        Counting {
            mistake: Some(mistake),
        }
    }

    fn is(self, mistake: Mistake) -> bool {
        self.mistake == Some(mistake)
    }

    /// An operand of so many bytes.
    fn operand(self, bytes: u64) -> u64 {
        match self.mistake {
            Some(Mistake::NoOperands) => 0,
            Some(Mistake::Bytes) => bytes,
            _ => 1,
        }
    }

    pub fn condition(self, condition: &Condition, lent: &Lent) -> u64 {
        match condition {
            Condition::True => self.operand(1),
            Condition::Not(c) => 1 + self.condition(c, lent),
            Condition::And(c, d) => {
                let is_reached = c.holds(lent) || self.is(Mistake::AndAlways);
                1 + self.condition(c, lent) + self.right_side(d, lent, is_reached)
            }
            Condition::Or(c, d) => {
                let is_reached = !c.holds(lent) || self.is(Mistake::OrAlways);
                1 + self.condition(c, lent) + self.right_side(d, lent, is_reached)
            }
            Condition::Less(a, b) | Condition::Equal(a, b) => {
                1 + self.value(a, lent) + self.value(b, lent)
            }
            Condition::Within(a, b, k) => {
                1 + self.value(a, lent) + self.value(b, lent) + self.value(k, lent)
            }
        }
    }

    fn right_side(self, condition: &Condition, lent: &Lent, is_reached: bool) -> u64 {
        match is_reached {
            true => self.condition(condition, lent),
            false => self.skipped(),
        }
    }

    fn skipped(self) -> u64 {
        u64::from(self.is(Mistake::Skipped))
    }

    pub fn value(self, value: &Value, lent: &Lent) -> u64 {
        match value {
            Value::Constant(_) => self.operand(5),
            Value::Program(_) | Value::Monitor(_) | Value::AtEntry(_) => self.operand(2),
            Value::Plus(a, b) | Value::Minus(a, b) => 1 + self.value(a, lent) + self.value(b, lent),
            Value::Choose(c, a, b) => {
                let (chosen, other) = if c.holds(lent) { (a, b) } else { (b, a) };
                let other = match self.is(Mistake::BothBranches) {
                    true => self.value(other, lent),
                    false => self.skipped(),
                };
                1 + self.condition(c, lent) + self.value(chosen, lent) + other
            }
        }
    }

    /// The values that an action assigns, each with what the assignments before it have left.
    pub fn action(self, action: &Action, lent: &Lent) -> u64 {
        let mut monitor = lent.monitor.to_vec();
        let mut count = 0;
        for (place, assignment) in action.assignments.iter().enumerate() {
            let seen = Lent {
                monitor: &monitor,
                ..*lent
            };
            let value = assignment.value.of(&seen);
            let own = match self.is(Mistake::ValuesBefore) {
                true => self.value(&assignment.value, lent),
                false => self.value(&assignment.value, &seen),
            };
            count += match self.mistake {
                Some(Mistake::NoValues) => 0,
                Some(Mistake::FirstValueAlone) if place > 0 => 0,
                Some(Mistake::AssignedVariable) => own + 1,
                _ => own,
            };
            if let Some(place) = monitor.get_mut(usize::from(assignment.variable)) {
                *place = value;
            }
        }
        count
    }
}

// ---- Rules ------------------------------------------------------------------------------------

/// A sheet or network, of which it can be said what an exit judges.
pub trait Judging: Arming {
    fn transitions(&self) -> Vec<&Transition>;
    /// The conditions of the pairs of a transition, if there are pairs.
    fn pairs_of(&self, transition: usize) -> Vec<u8>;
    /// The triples or templates that live for a call, in order.
    fn armed_for(state: &Self::State, place: usize) -> Vec<u8>;
    /// The postcondition of a triple or template.
    fn postcondition(&self, number: u8) -> Option<u8>;
}

impl Judging for Sheet {
    fn transitions(&self) -> Vec<&Transition> {
        self.transitions.iter().collect()
    }

    fn pairs_of(&self, _: usize) -> Vec<u8> {
        Vec::new()
    }

    fn armed_for(state: &SheetState, place: usize) -> Vec<u8> {
        state.armed[place].numbers().to_vec()
    }

    fn postcondition(&self, number: u8) -> Option<u8> {
        let triple = self.triples.get(usize::from(number));
        triple.map(|triple| triple.postcondition)
    }
}

impl Judging for Network {
    fn transitions(&self) -> Vec<&Transition> {
        self.transitions.iter().map(|c| &c.transition).collect()
    }

    fn pairs_of(&self, transition: usize) -> Vec<u8> {
        let pairs = self.transitions[transition].pairs.iter();
        pairs.map(|pair| pair.condition).collect()
    }

    fn armed_for(state: &NetworkState, place: usize) -> Vec<u8> {
        let number = state.common.calls[place].number;
        let own = state.living_checkers().iter();
        let own = own.filter(|checker| checker.call == number);
        own.map(|checker| checker.template).collect()
    }

    fn postcondition(&self, number: u8) -> Option<u8> {
        let template = self.templates.get(usize::from(number));
        template.map(|template| template.postcondition)
    }
}

// ---- Events -----------------------------------------------------------------------------------

/// An event, and what was before it.
struct Offered<'a, R: Judging> {
    rules: &'a R,
    state: &'a R::State,
    before: &'a Common,
    event: &'a Record,
    kind: Kind,
    counting: Counting,
}

/// What comes of an event, or its refusal.
type Answer<S> = Result<S, Refusal>;

impl Counting {
    /// The count of an event that is offered to a state, of which this is the answer.
    pub fn event<R: Judging>(
        self,
        rules: &R,
        state: &R::State,
        event: &Record,
        answer: &Answer<R::State>,
    ) -> u64 {
        let Some(kind) = Kind::from_byte(event.kind) else {
            return 0;
        };
        if answer.is_err() && !self.is(Mistake::Refused) {
            return 0;
        }
        let offered = Offered {
            rules,
            state,
            before: R::common(state),
            event,
            kind,
            counting: self,
        };
        offered.count()
    }
}

/// The transition that is taken and its place, or the number of transitions.
type Taken<'a> = (usize, Option<&'a Transition>);

impl<R: Judging> Offered<'_, R> {
    fn lent(&self) -> Lent<'_> {
        Lent {
            program: &self.event.values,
            monitor: &self.before.variables,
            kept: &[],
        }
    }

    fn condition(&self, number: u8, lent: &Lent) -> u64 {
        let condition = self.rules.machine().conditions.get(usize::from(number));
        condition.map_or(0, |c| self.counting.condition(c, lent))
    }

    fn holds(&self, number: u8, lent: &Lent) -> bool {
        self.rules.machine().condition_holds(number, lent)
    }

    fn count(&self) -> u64 {
        let transitions = self.rules.transitions();
        let taken = self.taken(&transitions);
        let judged = match self.kind {
            Kind::Entry => self.preconditions(&transitions, taken),
            Kind::Exit => self.postconditions(),
        };
        self.tried(&transitions, taken) + self.assigned(taken) + judged
    }

    fn is_own(&self, t: &Transition) -> bool {
        (t.from, t.kind, t.unit) == (self.before.main, self.kind, self.event.unit)
    }

    fn taken<'a>(&self, transitions: &[&'a Transition]) -> Taken<'a> {
        let is_taken = |t: &&Transition| self.is_own(t) && self.holds(t.condition, &self.lent());
        match transitions.iter().position(is_taken) {
            Some(place) => (place, Some(transitions[place])),
            None => (transitions.len(), None),
        }
    }

    /// The conditions of this state, kind and unit, up to and including that of the one taken.
    fn tried(&self, transitions: &[&Transition], (last, _): Taken) -> u64 {
        let all = transitions.iter().enumerate();
        let counted = all.filter(|(place, t)| self.is_counted(*place, last, t));
        counted
            .map(|(_, t)| self.condition(t.condition, &self.lent()))
            .sum()
    }

    fn is_counted(&self, place: usize, last: usize, t: &Transition) -> bool {
        let (from, kind, unit) = (
            t.from == self.before.main,
            t.kind == self.kind,
            t.unit == self.event.unit,
        );
        let is_tried = place <= last;
        match self.counting.mistake {
            Some(Mistake::OtherState) => is_tried && kind && unit,
            Some(Mistake::OtherKind) => is_tried && from && unit,
            Some(Mistake::OtherUnit) => is_tried && from && kind,
            Some(Mistake::TakenLeftOut) => place < last && self.is_own(t),
            Some(Mistake::TakenAlone) => place == last,
            Some(Mistake::BehindTaken) => self.is_own(t),
            _ => is_tried && self.is_own(t),
        }
    }

    fn action(&self, (_, taken): Taken) -> Option<&Action> {
        let actions = &self.rules.machine().actions;
        taken.and_then(|t| actions.get(usize::from(t.action)))
    }

    fn assigned(&self, taken: Taken) -> u64 {
        let action = self.action(taken);
        action.map_or(0, |action| self.counting.action(action, &self.lent()))
    }

    /// Those of the state's and unit's triples, or of the pairs of the transition that is taken.
    fn preconditions(&self, transitions: &[&Transition], taken: Taken) -> u64 {
        let asked = self.rules.asked(self.before, &self.event.event());
        let mut conditions: Vec<u8> = asked.into_iter().map(|(condition, _)| condition).collect();
        let after = self.after(taken);
        let mut lent = self.lent();
        match self.counting.mistake {
            Some(Mistake::NoPreconditions) => return 0,
            Some(Mistake::HoldingAlone) => conditions.retain(|c| self.holds(*c, &lent)),
            Some(Mistake::UpToFirstHolding) => {
                let first = conditions.iter().position(|c| self.holds(*c, &lent));
                conditions.truncate(first.map_or(conditions.len(), |first| first + 1));
            }
            Some(Mistake::PreconditionsAfter) => lent.monitor = &after,
            Some(Mistake::PairsOfTried) => {
                let tried = (0..taken.0).filter(|place| self.is_own(transitions[*place]));
                conditions.extend(tried.flat_map(|place| self.rules.pairs_of(place)));
            }
            _ => {}
        }
        conditions.iter().map(|c| self.condition(*c, &lent)).sum()
    }

    /// The variables as the action leaves them.
    fn after(&self, taken: Taken) -> Vec<i32> {
        let mut variables = self.before.variables.to_vec();
        if let Some(action) = self.action(taken) {
            action.carry_out(&self.event.values, &mut variables, &[]);
        }
        variables
    }

    /// Those of all that is armed for the call.
    fn postconditions(&self) -> u64 {
        let open = self.before.open_calls();
        let Some(own) = self.before.place_of(self.event.call) else {
            return 0;
        };
        match self.counting.mistake {
            Some(Mistake::NoPostconditions) => 0,
            Some(Mistake::OtherCalls) => {
                let all = open.iter().enumerate();
                all.map(|(place, call)| self.judged(place, call)).sum()
            }
            _ => self.judged(own, &open[own]),
        }
    }

    fn judged(&self, place: usize, call: &Call) -> u64 {
        let mut armed = R::armed_for(self.state, place);
        let lent = Lent {
            program: &self.event.values,
            monitor: &[],
            kept: &call.kept,
        };
        let holds = |number: &u8| {
            let condition = self.rules.postcondition(*number);
            condition.is_none_or(|condition| self.holds(condition, &lent))
        };
        match self.counting.mistake {
            Some(Mistake::UpToFirstFailing) => {
                let first = armed.iter().position(|number| !holds(number));
                armed.truncate(first.map_or(armed.len(), |first| first + 1));
            }
            Some(Mistake::TemplatesOnce) => {
                armed.sort_unstable();
                armed.dedup();
            }
            _ => {}
        }
        let conditions = armed.iter().filter_map(|n| self.rules.postcondition(*n));
        conditions.map(|c| self.condition(c, &lent)).sum()
    }
}

// ---- Runs -------------------------------------------------------------------------------------

impl Counting {
    /// The sum over the events that are taken, up to and with the one that completes the verdict.
    pub fn run<R: Judging>(self, rules: &R, records: &[Record]) -> u64 {
        let (mut state, mut total) = (rules.fresh(), 0);
        for record in records {
            let answer = rules.event(&state, &record.event());
            let count = self.event(rules, &state, record, &answer);
            let Ok(next) = answer else {
                return match self.is(Mistake::RefusedRun) {
                    true => 0,
                    false => self.sum(total, count),
                };
            };
            state = next;
            if R::common(&state).verdict.is_some() {
                if self.is(Mistake::LastLeftOut) {
                    return total;
                }
                if !self.is(Mistake::BehindVerdict) {
                    return self.sum(total, count);
                }
                R::common_mut(&mut state).verdict = None;
            }
            total = self.sum(total, count);
        }
        total
    }

    fn sum(self, total: u64, count: u64) -> u64 {
        match self.mistake {
            Some(Mistake::LastAlone) => count,
            Some(Mistake::SixteenBits) => (total + count) % (1 << 16),
            _ => total + count,
        }
    }
}

// ---- Generated cases --------------------------------------------------------------------------

fn named<R: Judging>(rules: &R, of: &str, mistake: Mistake) -> String {
    label(rules.name(), of, mistake)
}

/// What is shown where the count would be another with the mistake.
pub fn label(engine: &str, of: &str, mistake: Mistake) -> String {
    format!("{engine} {of}: the count is not that with {mistake:?}")
}

fn looked_at<R: Judging>(rules: &R, log: &[u8]) -> Vec<Record> {
    let records = short_log(rules, log);
    match records.len() <= MOST_RECORDS {
        true => records,
        false => Vec::new(),
    }
}

/// What decides in the run of a log.
pub fn of_log<R: Judging>(rules: &R, log: &[u8]) -> Vec<String> {
    let records = looked_at(rules, log);
    let right = Counting::RIGHT.run(rules, &records);
    let all = Mistake::of_runs().into_iter();
    let deciding = all.filter(|mistake| Counting::with(*mistake).run(rules, &records) != right);
    deciding
        .map(|mistake| named(rules, "run", mistake))
        .collect()
}

/// What decides at a log's records, offered one by one up to one that is refused.
pub fn of_steps<R: Judging>(rules: &R, log: &[u8]) -> Vec<String> {
    let mut labels = Vec::new();
    each_step(rules, &looked_at(rules, log), |state, record, answer| {
        let count = |counting: Counting| counting.event(rules, state, record, answer);
        let right = count(Counting::RIGHT);
        let all = Mistake::of_events().into_iter();
        let deciding = all.filter(|mistake| count(Counting::with(*mistake)) != right);
        labels.extend(deciding.map(|mistake| named(rules, "event", mistake)));
    });
    labels
}

/// In generated runs and events, on a sheet and on a network of each version. Few runs are long enough to count
/// over sixteen bits.
pub fn wanted() -> Vec<String> {
    let mut labels = Vec::new();
    for engine in ["sheet", "version 2", "version 3"] {
        let runs = Mistake::of_runs().into_iter();
        let runs = runs.filter(|mistake| *mistake != Mistake::SixteenBits);
        labels.extend(runs.map(|mistake| label(engine, "run", mistake)));
        let events = Mistake::of_events().into_iter();
        labels.extend(events.map(|mistake| label(engine, "event", mistake)));
    }
    labels
}
