//! Whether plus or minus stopping at an end of the signed range decides: what rules or an expression
//! answer is another thing where the operator turns round there, as it did before document 02's slip 2.

use crate::counting::deciding::{each_step, parts, short_log, ARMED, STATE, TRIPLE, VARIABLE};
use crate::framing::script_frames::Rules;
use crate::implementation::expr::{Action, Condition, Value};
use crate::implementation::machine::Machine;
use crate::implementation::network::{Network, Version};
use crate::implementation::run::{run_records, Record};
use crate::implementation::sheet::Sheet;

/// Longer sums and differences are not turned round, since their operands are written several times.
const LONGEST: usize = 1_000;

#[derive(Clone, Copy, Debug, PartialEq, Eq)]
pub enum Operator {
    Plus,
    Minus,
}

#[derive(Clone, Copy, Debug, PartialEq, Eq)]
pub enum End {
    Greatest,
    Least,
}

/// An operator and the end at which it stops.
#[derive(Clone, Copy, Debug, PartialEq, Eq)]
pub struct Stop {
    pub operator: Operator,
    pub end: End,
}

impl Stop {
    pub const ALL: [Stop; 4] = [
        Stop::new(Operator::Plus, End::Greatest),
        Stop::new(Operator::Plus, End::Least),
        Stop::new(Operator::Minus, End::Greatest),
        Stop::new(Operator::Minus, End::Least),
    ];

    const fn new(operator: Operator, end: End) -> Stop {
        Stop { operator, end }
    }

    fn label(self) -> String {
        let operator = match self.operator {
            Operator::Plus => "plus",
            Operator::Minus => "minus",
        };
        match self.end {
            End::Greatest => format!("{operator} stopping at the greatest decides"),
            End::Least => format!("{operator} stopping at the least decides"),
        }
    }
}

// ---- Turning round ----------------------------------------------------------------------------

fn constant(n: i32) -> Value {
    Value::Constant(n)
}

fn plus(a: Value, b: Value) -> Value {
    Value::Plus(Box::new(a), Box::new(b))
}

fn minus(a: Value, b: Value) -> Value {
    Value::Minus(Box::new(a), Box::new(b))
}

fn less(a: Value, b: Value) -> Condition {
    Condition::Less(Box::new(a), Box::new(b))
}

impl Stop {
    /// The operator on two operands, turning round at the end: written with operators that stop, where
    /// none of them does.
    fn turning(self, a: Value, b: Value) -> Value {
        let whole = self.of(a.clone(), b.clone());
        if whole.bytes().len() > LONGEST {
            return whole;
        }
        let past = self.is_past(a.clone(), b.clone());
        let turned = self.turned(a, b);
        Value::Choose(Box::new(past), Box::new(turned), Box::new(whole))
    }

    fn of(self, a: Value, b: Value) -> Value {
        match self.operator {
            Operator::Plus => plus(a, b),
            Operator::Minus => minus(a, b),
        }
    }

    /// Whether the whole number is past the end: b leads that way, and a is nearer to it than b's size.
    fn is_past(self, a: Value, b: Value) -> Condition {
        let (zero, end) = (constant(0), constant(self.last()));
        let other = match self.operator {
            Operator::Plus => minus(end, b.clone()),
            Operator::Minus => plus(end, b.clone()),
        };
        let (leads, near) = match (self.operator, self.end) {
            (Operator::Plus, End::Greatest) => (less(zero, b), less(other, a)),
            (Operator::Plus, End::Least) => (less(b, zero), less(a, other)),
            (Operator::Minus, End::Greatest) => (less(b, zero), less(other, a)),
            (Operator::Minus, End::Least) => (less(zero, b), less(a, other)),
        };
        Condition::And(Box::new(leads), Box::new(near))
    }

    fn last(self) -> i32 {
        match self.end {
            End::Greatest => i32::MAX,
            End::Least => i32::MIN,
        }
    }

    /// The same modulo 2^32 where it is past the end: each operand is moved by 2^31.
    fn turned(self, a: Value, b: Value) -> Value {
        let down = |v: Value| plus(v, constant(i32::MIN));
        let up = |v: Value| minus(v, constant(i32::MIN));
        match (self.operator, self.end) {
            (Operator::Plus, End::Greatest) => plus(down(a), down(b)),
            (Operator::Plus, End::Least) => plus(up(a), up(b)),
            (Operator::Minus, End::Greatest) => minus(down(a), up(b)),
            (Operator::Minus, End::Least) => minus(up(a), down(b)),
        }
    }

    fn boxed_value(self, value: &Value) -> Box<Value> {
        Box::new(self.value(value))
    }

    fn boxed_condition(self, condition: &Condition) -> Box<Condition> {
        Box::new(self.condition(condition))
    }

    /// The value where each such operator in it turns round.
    pub fn value(self, value: &Value) -> Value {
        let pair = |a: &Value, b: &Value| (self.value(a), self.value(b));
        match value {
            Value::Plus(a, b) => {
                let (a, b) = pair(a, b);
                match self.operator {
                    Operator::Plus => self.turning(a, b),
                    Operator::Minus => plus(a, b),
                }
            }
            Value::Minus(a, b) => {
                let (a, b) = pair(a, b);
                match self.operator {
                    Operator::Plus => minus(a, b),
                    Operator::Minus => self.turning(a, b),
                }
            }
            Value::Choose(c, a, b) => {
                let c = self.boxed_condition(c);
                Value::Choose(c, self.boxed_value(a), self.boxed_value(b))
            }
            leaf => leaf.clone(),
        }
    }

    pub fn condition(self, condition: &Condition) -> Condition {
        let (of, value) = (|c| self.boxed_condition(c), |v| self.boxed_value(v));
        match condition {
            Condition::True => Condition::True,
            Condition::Not(c) => Condition::Not(of(c)),
            Condition::And(c, d) => Condition::And(of(c), of(d)),
            Condition::Or(c, d) => Condition::Or(of(c), of(d)),
            Condition::Less(a, b) => Condition::Less(value(a), value(b)),
            Condition::Equal(a, b) => Condition::Equal(value(a), value(b)),
            Condition::Within(a, b, k) => Condition::Within(value(a), value(b), value(k)),
        }
    }

    pub fn action(self, action: &Action) -> Action {
        let mut turned = action.clone();
        for assignment in &mut turned.assignments {
            assignment.value = self.value(&assignment.value);
        }
        turned
    }
}

// ---- Rules ------------------------------------------------------------------------------------

/// A sheet or network, whose expressions can be written anew.
pub trait Written: Rules + Clone {
    fn machine_mut(&mut self) -> &mut Machine;
    /// What a label begins with.
    fn name(&self) -> &'static str;
}

impl Written for Sheet {
    fn machine_mut(&mut self) -> &mut Machine {
        &mut self.machine
    }

    fn name(&self) -> &'static str {
        "sheet"
    }
}

impl Written for Network {
    fn machine_mut(&mut self) -> &mut Machine {
        &mut self.machine
    }

    fn name(&self) -> &'static str {
        match self.version {
            Version::Two => "version 2",
            Version::Three => "version 3",
        }
    }
}

/// Rules, and for each stop that can occur in them the same rules with the operator turning round.
pub struct Turned<R> {
    rules: R,
    others: Vec<(Stop, R)>,
}

impl<R: Written> Turned<R> {
    pub fn of(rules: &R) -> Turned<R> {
        let other = |stop: Stop| {
            let mut other = rules.clone();
            let machine = other.machine_mut();
            let conditions = machine.conditions.iter().map(|c| stop.condition(c));
            machine.conditions = conditions.collect();
            let actions = machine.actions.iter().map(|a| stop.action(a));
            machine.actions = actions.collect();
            (*machine != *rules.machine()).then_some((stop, other))
        };
        Turned {
            rules: rules.clone(),
            others: Stop::ALL.into_iter().filter_map(other).collect(),
        }
    }

    fn named(&self, of: &str, label: &str) -> String {
        format!("{} {of}: {label}", self.rules.name())
    }

    /// What decides in the run of a log.
    pub fn of_log(&self, log: &[u8]) -> Vec<String> {
        if self.others.is_empty() {
            return Vec::new();
        }
        let records = short_log(&self.rules, log);
        let outcome = run_records(&self.rules, &records).result;
        let others = self.others.iter();
        let differ = others.filter(|(_, other)| run_records(other, &records).result != outcome);
        differ
            .map(|(stop, _)| self.named("run", &stop.label()))
            .collect()
    }

    /// What decides where the event is offered to the state, and in what of the state that comes back.
    pub fn of_event(&self, state: &R::State, event: &Record) -> Vec<String> {
        let Ok(right) = self.rules.event(state, &event.event()) else {
            return Vec::new();
        };
        let mut labels = Vec::new();
        for (stop, other) in &self.others {
            // An event that is taken is taken by both: conditions do not refuse.
            let other = other.event(state, &event.event());
            let parts = other.map_or(Vec::new(), |other| parts::<R>(right.clone(), other));
            let label = stop.label();
            let parts = parts.iter().map(|part| format!("{label} {part}"));
            labels.extend(parts.map(|label| self.named("event", &label)));
        }
        labels
    }

    /// The same of a log's records, offered one by one up to one that is refused.
    pub fn of_steps(&self, log: &[u8]) -> Vec<String> {
        let mut labels = Vec::new();
        if !self.others.is_empty() {
            let records = short_log(&self.rules, log);
            each_step(&self.rules, &records, |state, record, _| {
                labels.extend(self.of_event(state, record));
            });
        }
        labels
    }
}

// ---- What must occur --------------------------------------------------------------------------

/// In generated runs and events: each operator and end, on a sheet and on a network of each version.
pub fn wanted() -> Vec<String> {
    let mut labels = Vec::new();
    for name in ["sheet", "version 2", "version 3"] {
        for stop in Stop::ALL.map(Stop::label) {
            labels.push(format!("{name} run: {stop}"));
            for part in [STATE, VARIABLE, ARMED, TRIPLE] {
                labels.push(format!("{name} event: {stop} {part}"));
            }
        }
    }
    labels
}
