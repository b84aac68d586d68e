//! What decides: a run, or one event, has another answer where something is overlooked. So the tally
//! cannot count what makes no difference.

use crate::framing::script_frames::{Frame, Rules};
use crate::implementation::engine::{Engine, Event};
use crate::implementation::machine::{Kind, MOST_MONITOR, MOST_PROGRAM, MOST_UNITS};
use crate::implementation::network::Network;
use crate::implementation::refusal::Refusal;
use crate::implementation::run::{follow, read_log, run_records, Record};
use crate::implementation::sheet::Sheet;
use crate::implementation::state::{Call, Common};
use crate::making::scripts::script::{visit, Page};
use crate::making::wide::{orders, FIRST_UNIT, LAST_VALUE, LAST_VARIABLE};

/// Longer logs are not looked at, which saves time; on wide rules these.
const MOST_RECORDS: usize = 60;
const MOST_WIDE_RECORDS: usize = 40;
/// Numbers from here on have a high byte.
const OVER_A_BYTE: u16 = 256;

// ---- Overlooking ------------------------------------------------------------------------------

type Answer<R> = Result<<R as Engine>::State, Refusal>;

/// What is overlooked at every event.
#[derive(Clone, Copy, Debug, PartialEq, Eq)]
enum Oversight {
    /// Taken for 0.
    ProgramValue,
    /// Taken for 0 in every open call.
    KeptValue,
    /// Taken for 0 before every event.
    Variable,
    /// A byte of the numbers, where events of this kind look for an open call.
    Byte(Kind, Byte),
    /// Whether units are below 8: of rules, calls and events alike.
    Unit,
}

#[derive(Clone, Copy, Debug, PartialEq, Eq)]
enum Byte {
    High,
    Low,
}

/// A sheet or network, which can also be had with units that differ by 8 taken for the same.
pub trait Narrow: Rules {
    fn narrow(&self) -> Self;
}

fn narrow_unit(unit: &mut u8) {
    *unit %= FIRST_UNIT;
}

impl Narrow for Sheet {
    fn narrow(&self) -> Sheet {
        let mut sheet = self.clone();
        let units = sheet.transitions.iter_mut().map(|t| &mut t.unit);
        units.for_each(narrow_unit);
        let units = sheet.triples.iter_mut().map(|t| &mut t.unit);
        units.for_each(narrow_unit);
        sheet
    }
}

impl Narrow for Network {
    fn narrow(&self) -> Network {
        let mut network = self.clone();
        let units = network.transitions.iter_mut();
        let units = units.map(|creating| &mut creating.transition.unit);
        units.for_each(narrow_unit);
        let units = network.templates.iter_mut().map(|t| &mut t.unit);
        units.for_each(narrow_unit);
        network
    }
}

/// Rules, and the same narrow.
struct Both<'a, R> {
    rules: &'a R,
    narrow: R,
}

impl<'a, R: Narrow> Both<'a, R> {
    fn of(rules: &'a R) -> Both<'a, R> {
        let narrow = rules.narrow();
        Both { rules, narrow }
    }
}

pub(crate) const STATE: &str = "the state";
pub(crate) const VARIABLE: &str = "a variable";
pub(crate) const ARMED: &str = "what is armed";
pub(crate) const TRIPLE: &str = "the triple";

impl Byte {
    /// The same but for this byte; both are over 255.
    fn alone_differs(self, a: u16, b: u16) -> bool {
        let mask = match self {
            Byte::High => 0xFF00,
            Byte::Low => 0x00FF,
        };
        let over = a >= OVER_A_BYTE && b >= OVER_A_BYTE;
        over && a != b && (a ^ b) & !mask == 0
    }
}

/// The first open number that is the same, or differs in the byte alone.
fn overlooked_number(common: &Common, number: u16, byte: Byte) -> u16 {
    let like = |n: &u16| *n == number || byte.alone_differs(*n, number);
    let mut open = common.open_calls().iter().map(|call| call.number);
    open.find(like).unwrap_or(number)
}

fn narrow_calls(common: &mut Common) {
    let calls = common.calls.iter_mut();
    calls.for_each(|call| narrow_unit(&mut call.unit));
}

impl Oversight {
    const ALL: [Oversight; 8] = [
        Oversight::ProgramValue,
        Oversight::KeptValue,
        Oversight::Variable,
        Oversight::Byte(Kind::Entry, Byte::High),
        Oversight::Byte(Kind::Entry, Byte::Low),
        Oversight::Byte(Kind::Exit, Byte::High),
        Oversight::Byte(Kind::Exit, Byte::Low),
        Oversight::Unit,
    ];

    fn label(self) -> &'static str {
        match self {
            Oversight::ProgramValue => "the last program value decides",
            Oversight::KeptValue => "the last value at entry decides",
            Oversight::Variable => "the last variable decides",
            Oversight::Byte(Kind::Entry, Byte::High) => "an entry's high byte decides",
            Oversight::Byte(Kind::Entry, Byte::Low) => "an entry's low byte decides",
            Oversight::Byte(Kind::Exit, Byte::High) => "an exit's high byte decides",
            Oversight::Byte(Kind::Exit, Byte::Low) => "an exit's low byte decides",
            Oversight::Unit => "whether a unit is below 8 decides",
        }
    }

    /// What of a state it must decide at one event; the bytes decide which call it is.
    fn wanted_parts(self) -> &'static [&'static str] {
        match self {
            Oversight::ProgramValue => &[STATE, VARIABLE, ARMED, TRIPLE],
            Oversight::KeptValue => &[TRIPLE],
            Oversight::Variable => &[STATE, VARIABLE, ARMED],
            Oversight::Byte(..) => &[],
            Oversight::Unit => &[STATE, ARMED],
        }
    }

    fn offer<R: Narrow>(self, both: &Both<R>, state: &R::State, event: &Event) -> Answer<R> {
        let (mut state, mut event) = (state.clone(), *event);
        let mut values = event.values.to_vec();
        let common = R::common_mut(&mut state);
        let last = usize::from(LAST_VALUE);
        match self {
            Oversight::ProgramValue => values.iter_mut().skip(last).for_each(|v| *v = 0),
            Oversight::KeptValue => common.calls.iter_mut().for_each(|c| c.kept[last] = 0),
            Oversight::Variable => common.variables[usize::from(LAST_VARIABLE)] = 0,
            Oversight::Byte(kind, byte) if kind.byte() == event.kind => {
                event.call = overlooked_number(common, event.call, byte);
            }
            // Units that there are not are left alone.
            Oversight::Unit if event.unit < MOST_UNITS => {
                narrow_calls(common);
                narrow_unit(&mut event.unit);
                return both.narrow.event(&state, &event);
            }
            Oversight::Byte(..) | Oversight::Unit => {}
        }
        event.values = &values;
        both.rules.event(&state, &event)
    }

    /// What shows of a state: what is kept does not, nor a variable that may not have been looked at.
    fn shown<R: Rules>(self, state: &R::State) -> R::State {
        let mut state = state.clone();
        let common = R::common_mut(&mut state);
        common
            .calls
            .iter_mut()
            .for_each(|c| c.kept = Default::default());
        match self {
            Oversight::Variable => common.variables[usize::from(LAST_VARIABLE)] = 0,
            Oversight::Unit => narrow_calls(common),
            _ => {}
        }
        state
    }

    /// What it decides where one answer was given with it and the other without.
    fn decided<R: Rules>(self, one: &Answer<R>, other: &Answer<R>) -> Vec<String> {
        let label = self.label();
        match (one, other) {
            (Ok(a), Ok(b)) if self.shown::<R>(a) == self.shown::<R>(b) => Vec::new(),
            (Ok(a), Ok(b)) => {
                let parts = parts::<R>(self.shown::<R>(a), self.shown::<R>(b)).into_iter();
                let parts = parts.map(|part| format!("{label} {part}"));
                parts.chain([label.into()]).collect()
            }
            (Err(a), Err(b)) if a == b => Vec::new(),
            _ => vec![label.into()],
        }
    }
}

/// The parts in which two states differ.
pub(crate) fn parts<R: Rules>(mut a: R::State, mut b: R::State) -> Vec<&'static str> {
    let one = std::mem::take(R::common_mut(&mut a));
    let other = std::mem::take(R::common_mut(&mut b));
    let triple = |common: &Common| common.verdict.and_then(|v| v.cause.triple());
    [
        (STATE, one.main != other.main),
        (VARIABLE, one.variables != other.variables),
        (ARMED, a != b),
        (TRIPLE, triple(&one) != triple(&other)),
    ]
    .iter()
    .filter(|(_, differ)| *differ)
    .map(|(part, _)| *part)
    .collect()
}

// ---- Runs and events --------------------------------------------------------------------------

/// Only with every count at its limit are the last ones there.
fn is_wide<R: Rules>(rules: &R) -> bool {
    let header = &rules.machine().header;
    (header.units, header.program, header.monitor) == (MOST_UNITS, MOST_PROGRAM, MOST_MONITOR)
}

fn is_looked_at<R: Rules>(rules: &R, records: &[Record]) -> bool {
    is_wide(rules) && records.len() <= MOST_WIDE_RECORDS
}

/// What occurs in a run from the fresh state.
fn of_run<R: Narrow>(rules: &R, records: &[Record]) -> Vec<String> {
    if !is_looked_at(rules, records) {
        return Vec::new();
    }
    let outcome = run_records(rules, records).result;
    let both = Both::of(rules);
    let decides = |oversight: &Oversight| {
        let offer = |_: &R, state: &R::State, event: &Event| oversight.offer(&both, state, event);
        follow(rules, records, offer) != outcome
    };
    let deciding = Oversight::ALL.into_iter().filter(decides);
    let mut labels: Vec<String> = deciding.map(|o| o.label().into()).collect();
    labels.extend(on_the_way(rules, records));
    labels
}

/// The same of a log's bytes, where they are one.
pub fn of_log<R: Narrow>(rules: &R, log: &[u8]) -> Vec<String> {
    let records = read_log(log, rules.machine().header.program);
    records.map_or(Vec::new(), |records| of_run(rules, &records))
}

/// The records of a log; none where it is no log, or a long one.
pub(crate) fn short_log<R: Rules>(rules: &R, log: &[u8]) -> Vec<Record> {
    let records = read_log(log, rules.machine().header.program);
    let short = |records: &Vec<Record>| records.len() <= MOST_RECORDS;
    records.ok().filter(short).unwrap_or_default()
}

/// Sees each record, the state before it and the answer, up to one that is refused.
pub(crate) fn each_step<R: Rules>(
    rules: &R,
    records: &[Record],
    mut see: impl FnMut(&R::State, &Record, &Answer<R>),
) {
    let mut state = rules.fresh();
    for record in records {
        let answer = rules.event(&state, &record.event());
        see(&state, record, &answer);
        let Ok(next) = answer else { break };
        state = next;
    }
}

/// What occurs on the way of a run.
fn on_the_way<R: Rules>(rules: &R, records: &[Record]) -> Vec<String> {
    let (mut labels, mut leaving) = (Vec::new(), Leaving::default());
    each_step(rules, records, |state, record, answer| {
        labels.extend(facts::<R>(state, record, answer));
        if answer.is_ok() {
            labels.extend(leaving.see(R::common(state).open_calls(), record));
        }
    });
    labels
}

/// What occurs where the records are offered one by one, each as a single event.
pub fn of_steps<R: Narrow>(rules: &R, records: &[Record]) -> Vec<String> {
    let mut labels = Vec::new();
    if is_looked_at(rules, records) {
        let both = Both::of(rules);
        each_step(rules, records, |state, record, answer| {
            labels.extend(of_event(&both, state, record, answer));
        });
    }
    labels
}

/// What occurs where one event is offered and this is the answer.
fn of_event<R: Narrow>(
    both: &Both<R>,
    state: &R::State,
    record: &Record,
    answer: &Answer<R>,
) -> Vec<String> {
    let mut labels = facts::<R>(state, record, answer);
    for oversight in Oversight::ALL {
        let other = oversight.offer(both, state, &record.event());
        labels.extend(oversight.decided::<R>(answer, &other));
    }
    labels
}

/// A triple broken, and the refusals that a byte of the number decides.
fn facts<R: Rules>(state: &R::State, record: &Record, answer: &Answer<R>) -> Vec<String> {
    let open = R::common(state).open_calls();
    let place = open.iter().position(|call| call.number == record.call);
    let refused = |(byte, name): (Byte, &str)| {
        let near = |call: &Call| byte.alone_differs(call.number, record.call);
        let of_unit = |call: &Call| call.unit == record.unit && near(call);
        match (answer, place) {
            (Err(Refusal::NotOpen), None) if open.iter().any(of_unit) => {
                Some(format!("refused 15 by the {name} byte"))
            }
            (Err(Refusal::AlreadyOpen), Some(place)) if open[..place].iter().any(near) => {
                Some(format!("refused 13 behind another {name} byte"))
            }
            _ => None,
        }
    };
    let bytes = [(Byte::High, "high"), (Byte::Low, "low")];
    let mut labels: Vec<String> = bytes.into_iter().filter_map(refused).collect();
    let verdict = answer.as_ref().ok().and_then(|s| R::common(s).verdict);
    if verdict.and_then(|v| v.cause.triple()).is_some() {
        labels.push(format!("a triple of unit {} broken", record.unit));
    }
    labels
}

/// Four calls that are open, as they are left one after the other.
#[derive(Clone, Debug, Default)]
struct Leaving {
    numbers: Vec<u16>,
    /// Of those left so far.
    places: Vec<usize>,
}

impl Leaving {
    /// Sees a taken event and the calls before it; says the order when the last of four is left.
    fn see(&mut self, open: &[Call], record: &Record) -> Option<String> {
        if record.kind != Kind::Exit.byte() {
            *self = Leaving::default();
            return None;
        }
        if open.len() == 4 {
            self.numbers = open.iter().map(|call| call.number).collect();
            self.places.clear();
        }
        let place = self.numbers.iter().position(|n| *n == record.call)?;
        self.places.push(place);
        let whole: [usize; 4] = self.places[..].try_into().ok()?;
        Some(order_label(whole))
    }
}

fn order_label(order: [usize; 4]) -> String {
    let [a, b, c, d] = order;
    format!("four calls left in the order {a} {b} {c} {d}")
}

// ---- Scripts ----------------------------------------------------------------------------------

/// What occurs in the events and in the runs of a script, of a sheet or of a network.
pub fn of_script<R: Narrow>(engine: &str, pages: &[Page<R::Own>]) -> Vec<String> {
    let (mut labels, mut leaving) = (Vec::new(), Leaving::default());
    visit::<R>(pages, |bench, row| {
        let Some(rules) = R::read(&bench.rules).ok().filter(is_wide) else {
            return;
        };
        let (of, found) = match &row.frame {
            Frame::Run(log) => ("run", of_log(&rules, log)),
            Frame::Offer { event, keep } => {
                let answer = rules.event(&bench.state, &event.event());
                let mut found = of_event(&Both::of(&rules), &bench.state, event, &answer);
                if *keep && answer.is_ok() {
                    found.extend(leaving.see(bench.common().open_calls(), event));
                }
                ("event", found)
            }
            Frame::Fresh | Frame::Set(..) | Frame::Restore => {
                leaving = Leaving::default();
                return;
            }
            _ => return,
        };
        labels.extend(named(engine, of, found));
    });
    labels
}

/// The labels behind what they are of.
pub fn named(
    engine: &str,
    of: &str,
    labels: impl IntoIterator<Item = String>,
) -> impl Iterator<Item = String> {
    let front = format!("{engine} {of}: ");
    labels.into_iter().map(move |label| front.clone() + &label)
}

// ---- What must occur --------------------------------------------------------------------------

/// In runs and in events.
fn wanted_of_both() -> Vec<String> {
    let decides = Oversight::ALL.iter().map(|o| o.label().to_string());
    let units = (FIRST_UNIT..MOST_UNITS).map(|unit| format!("a triple of unit {unit} broken"));
    let refusals = ["high", "low"].into_iter().flat_map(|byte| {
        [
            format!("refused 15 by the {byte} byte"),
            format!("refused 13 behind another {byte} byte"),
        ]
    });
    decides.chain(units).chain(refusals).collect()
}

pub fn wanted_orders() -> Vec<String> {
    orders().into_iter().map(order_label).collect()
}

pub fn wanted_of_runs() -> Vec<String> {
    [wanted_of_both(), wanted_orders()].concat()
}

/// But for the orders, which a single event does not have.
pub fn wanted_of_events() -> Vec<String> {
    let parts = Oversight::ALL.into_iter().flat_map(|oversight| {
        let parts = oversight.wanted_parts().iter();
        parts.map(move |part| format!("{} {part}", oversight.label()))
    });
    wanted_of_both().into_iter().chain(parts).collect()
}
