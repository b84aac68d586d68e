//! Conditions, values and actions as trees: read from bytes, written back, evaluated. An evaluation counts the
//! operators and operands that it reaches (document 02, slip 3).

use crate::implementation::refusal::Refusal;

/// The longest action, and the longest condition of a sheet or a version 2 network, in bytes.
pub const LONGEST: usize = 64;
/// The longest condition of a version 3 network, and the longest condition or value on its own.
pub const LONGEST_ALONE: usize = 1_024;

#[derive(Clone, Debug, PartialEq, Eq)]
pub enum Condition {
    True,
    Not(Box<Condition>),
    And(Box<Condition>, Box<Condition>),
    Or(Box<Condition>, Box<Condition>),
    Less(Box<Value>, Box<Value>),
    Equal(Box<Value>, Box<Value>),
    Within(Box<Value>, Box<Value>, Box<Value>),
}

#[derive(Clone, Debug, PartialEq, Eq)]
pub enum Value {
    Constant(i32),
    Program(u8),
    Monitor(u8),
    AtEntry(u8),
    Plus(Box<Value>, Box<Value>),
    Minus(Box<Value>, Box<Value>),
    Choose(Box<Condition>, Box<Value>, Box<Value>),
}

#[derive(Clone, Debug, PartialEq, Eq)]
pub struct Assignment {
    pub variable: u8,
    pub value: Value,
}

#[derive(Clone, Debug, Default, PartialEq, Eq)]
pub struct Action {
    pub assignments: Vec<Assignment>,
}

/// How many variables of each kind there are.
#[derive(Clone, Copy, Debug, PartialEq, Eq)]
pub struct Counts {
    pub program: usize,
    pub monitor: usize,
    pub kept: usize,
}

/// The values that an evaluation may read.
#[derive(Clone, Copy, Debug)]
pub struct Lent<'a> {
    pub program: &'a [i32],
    pub monitor: &'a [i32],
    pub kept: &'a [i32],
}

impl Lent<'_> {
    pub fn counts(&self) -> Counts {
        Counts {
            program: self.program.len(),
            monitor: self.monitor.len(),
            kept: self.kept.len(),
        }
    }
}

/// Which kinds of variable that only some places allow stand in an expression.
#[derive(Clone, Copy, Debug, Default, PartialEq, Eq)]
pub struct Holds {
    pub at_entry: bool,
    pub monitor: bool,
}

impl Holds {
    fn or(self, other: Holds) -> Holds {
        Holds {
            at_entry: self.at_entry || other.at_entry,
            monitor: self.monitor || other.monitor,
        }
    }
}

// ---- Evaluating -------------------------------------------------------------------------------

/// What comes of something, and how many operators and operands were evaluated for it.
#[derive(Clone, Copy, Debug, PartialEq, Eq)]
pub struct Counted<T> {
    pub result: T,
    pub count: u64,
}

impl<T> Counted<T> {
    /// Of what counts along.
    pub fn of(counting: impl FnOnce(&mut u64) -> T) -> Counted<T> {
        let mut count = 0;
        let result = counting(&mut count);
        Counted { result, count }
    }
}

impl Condition {
    pub fn holds(&self, lent: &Lent) -> bool {
        self.counted(lent).result
    }

    pub fn counted(&self, lent: &Lent) -> Counted<bool> {
        Counted::of(|count| self.evaluate(lent, count))
    }

    /// Whether it holds. Each operator and operand adds 1 to the count when it is reached: the right side
    /// of `and` is only where the left is true, that of `or` only where the left is false.
    pub fn evaluate(&self, lent: &Lent, count: &mut u64) -> bool {
        *count += 1;
        match self {
            Condition::True => true,
            Condition::Not(c) => !c.evaluate(lent, count),
            Condition::And(c, d) => c.evaluate(lent, count) && d.evaluate(lent, count),
            Condition::Or(c, d) => c.evaluate(lent, count) || d.evaluate(lent, count),
            Condition::Less(a, b) => a.evaluate(lent, count) < b.evaluate(lent, count),
            Condition::Equal(a, b) => a.evaluate(lent, count) == b.evaluate(lent, count),
            Condition::Within(a, b, k) => {
                let [a, b, k] = [a, b, k].map(|value| value.evaluate(lent, count));
                within(a, b, k)
            }
        }
    }
}

/// Elapsed ticks from b to a, modulo 2^32, against k; both read unsigned.
fn within(a: i32, b: i32, k: i32) -> bool {
    let elapsed = (a as u32).wrapping_sub(b as u32);
    elapsed <= k as u32
}

impl Value {
    pub fn of(&self, lent: &Lent) -> i32 {
        self.counted(lent).result
    }

    pub fn counted(&self, lent: &Lent) -> Counted<i32> {
        Counted::of(|count| self.evaluate(lent, count))
    }

    /// The value. Counts as a condition does; of `choose` one branch is reached.
    pub fn evaluate(&self, lent: &Lent, count: &mut u64) -> i32 {
        *count += 1;
        match self {
            Value::Constant(n) => *n,
            Value::Program(i) => look_up(lent.program, *i),
            Value::Monitor(i) => look_up(lent.monitor, *i),
            Value::AtEntry(i) => look_up(lent.kept, *i),
            Value::Plus(a, b) => nearest(a.whole(lent, count) + b.whole(lent, count)),
            Value::Minus(a, b) => nearest(a.whole(lent, count) - b.whole(lent, count)),
            Value::Choose(c, a, b) => {
                let chosen = if c.evaluate(lent, count) { a } else { b };
                chosen.evaluate(lent, count)
            }
        }
    }

    /// In 64 bits, where no sum or difference of two values is out of range.
    fn whole(&self, lent: &Lent, count: &mut u64) -> i64 {
        self.evaluate(lent, count).into()
    }
}

/// A whole number, or the end of the signed range that is nearest to it.
fn nearest(whole: i64) -> i32 {
    whole.clamp(i32::MIN.into(), i32::MAX.into()) as i32
}

/// Reading an expression has checked the number against the same counts, so the 0 is not met.
fn look_up(values: &[i32], number: u8) -> i32 {
    values.get(usize::from(number)).copied().unwrap_or(0)
}

impl Action {
    /// Carries out the assignments in order on `monitor`, and gives the sum of the assigned values' counts,
    /// each as it was evaluated.
    pub fn carry_out(&self, program: &[i32], monitor: &mut [i32], kept: &[i32]) -> u64 {
        let mut count = 0;
        for assignment in &self.assignments {
            let lent = Lent {
                program,
                monitor,
                kept,
            };
            let value = assignment.value.evaluate(&lent, &mut count);
            if let Some(place) = monitor.get_mut(usize::from(assignment.variable)) {
                *place = value;
            }
        }
        count
    }
}

// ---- What an expression holds -----------------------------------------------------------------

impl Condition {
    pub fn mentions(&self) -> Holds {
        match self {
            Condition::True => Holds::default(),
            Condition::Not(c) => c.mentions(),
            Condition::And(c, d) | Condition::Or(c, d) => c.mentions().or(d.mentions()),
            Condition::Less(a, b) | Condition::Equal(a, b) => a.mentions().or(b.mentions()),
            Condition::Within(a, b, k) => a.mentions().or(b.mentions()).or(k.mentions()),
        }
    }
}

impl Value {
    pub fn mentions(&self) -> Holds {
        match self {
            Value::Constant(_) | Value::Program(_) => Holds::default(),
            Value::Monitor(_) => Holds {
                monitor: true,
                at_entry: false,
            },
            Value::AtEntry(_) => Holds {
                monitor: false,
                at_entry: true,
            },
            Value::Plus(a, b) | Value::Minus(a, b) => a.mentions().or(b.mentions()),
            Value::Choose(c, a, b) => c.mentions().or(a.mentions()).or(b.mentions()),
        }
    }
}

impl Action {
    /// What stands in the assigned values; the assigned variables themselves do not count.
    pub fn mentions(&self) -> Holds {
        self.assignments
            .iter()
            .fold(Holds::default(), |all, a| all.or(a.value.mentions()))
    }
}

// ---- Reading ----------------------------------------------------------------------------------

/// Reads operator-first bytes. `None` means that they break the grammar or the counts.
/// Each call takes at least one byte, so the length bounds the depth.
struct Reader<'a> {
    rest: &'a [u8],
    counts: Counts,
}

impl Reader<'_> {
    fn byte(&mut self) -> Option<u8> {
        let (first, rest) = self.rest.split_first()?;
        self.rest = rest;
        Some(*first)
    }

    fn constant(&mut self) -> Option<i32> {
        let bytes = [self.byte()?, self.byte()?, self.byte()?, self.byte()?];
        Some(i32::from_be_bytes(bytes))
    }

    fn number_below(&mut self, count: usize) -> Option<u8> {
        self.byte().filter(|n| usize::from(*n) < count)
    }

    fn condition(&mut self) -> Option<Condition> {
        let condition = match self.byte()? {
            0 => Condition::True,
            1 => Condition::Not(self.boxed_condition()?),
            2 => Condition::And(self.boxed_condition()?, self.boxed_condition()?),
            3 => Condition::Or(self.boxed_condition()?, self.boxed_condition()?),
            4 => Condition::Less(self.boxed_value()?, self.boxed_value()?),
            5 => Condition::Equal(self.boxed_value()?, self.boxed_value()?),
            6 => Condition::Within(
                self.boxed_value()?,
                self.boxed_value()?,
                self.boxed_value()?,
            ),
            _ => return None,
        };
        Some(condition)
    }

    fn value(&mut self) -> Option<Value> {
        let value = match self.byte()? {
            16 => Value::Constant(self.constant()?),
            17 => Value::Program(self.number_below(self.counts.program)?),
            18 => Value::Monitor(self.number_below(self.counts.monitor)?),
            19 => Value::AtEntry(self.number_below(self.counts.kept)?),
            20 => Value::Plus(self.boxed_value()?, self.boxed_value()?),
            21 => Value::Minus(self.boxed_value()?, self.boxed_value()?),
            22 => Value::Choose(
                self.boxed_condition()?,
                self.boxed_value()?,
                self.boxed_value()?,
            ),
            _ => return None,
        };
        Some(value)
    }

    fn boxed_condition(&mut self) -> Option<Box<Condition>> {
        self.condition().map(Box::new)
    }

    fn boxed_value(&mut self) -> Option<Box<Value>> {
        self.value().map(Box::new)
    }

    fn assignment(&mut self) -> Option<Assignment> {
        let variable = self.number_below(self.counts.monitor)?;
        let value = self.value()?;
        Some(Assignment { variable, value })
    }

    fn action(&mut self) -> Option<Action> {
        let mut assignments = Vec::new();
        while !self.rest.is_empty() {
            assignments.push(self.assignment()?);
        }
        Some(Action { assignments })
    }

    fn end(&self) -> Option<()> {
        self.rest.is_empty().then_some(())
    }
}

/// Exactly one condition: 4 by length, then 5.
pub fn read_condition(bytes: &[u8], counts: Counts) -> Result<Condition, Refusal> {
    read_alone(bytes, counts, Reader::condition)
}

/// Exactly one value: 4 by length, then 5.
pub fn read_value(bytes: &[u8], counts: Counts) -> Result<Value, Refusal> {
    read_alone(bytes, counts, Reader::value)
}

fn read_alone<'a, T>(
    bytes: &'a [u8],
    counts: Counts,
    read: fn(&mut Reader<'a>) -> Option<T>,
) -> Result<T, Refusal> {
    if bytes.is_empty() || bytes.len() > LONGEST_ALONE {
        return Err(Refusal::Tables);
    }
    let mut reader = Reader {
        rest: bytes,
        counts,
    };
    let whole = read(&mut reader).ok_or(Refusal::Grammar)?;
    reader.end().ok_or(Refusal::Grammar)?;
    Ok(whole)
}

/// Exactly a run of assignments, possibly none: 4 by length, then 5.
pub fn read_action(bytes: &[u8], counts: Counts) -> Result<Action, Refusal> {
    if bytes.len() > LONGEST {
        return Err(Refusal::Tables);
    }
    let mut reader = Reader {
        rest: bytes,
        counts,
    };
    reader.action().ok_or(Refusal::Grammar)
}

// ---- Writing ----------------------------------------------------------------------------------

impl Condition {
    pub fn write(&self, out: &mut Vec<u8>) {
        match self {
            Condition::True => out.push(0),
            Condition::Not(c) => write_one(1, c, out),
            Condition::And(c, d) => write_two(2, c, d, out),
            Condition::Or(c, d) => write_two(3, c, d, out),
            Condition::Less(a, b) => write_values(4, &[a, b], out),
            Condition::Equal(a, b) => write_values(5, &[a, b], out),
            Condition::Within(a, b, k) => write_values(6, &[a, b, k], out),
        }
    }

    pub fn bytes(&self) -> Vec<u8> {
        let mut out = Vec::new();
        self.write(&mut out);
        out
    }
}

fn write_one(operator: u8, c: &Condition, out: &mut Vec<u8>) {
    out.push(operator);
    c.write(out);
}

fn write_two(operator: u8, c: &Condition, d: &Condition, out: &mut Vec<u8>) {
    write_one(operator, c, out);
    d.write(out);
}

fn write_values(operator: u8, values: &[&Value], out: &mut Vec<u8>) {
    out.push(operator);
    for value in values {
        value.write(out);
    }
}

impl Value {
    pub fn write(&self, out: &mut Vec<u8>) {
        match self {
            Value::Constant(n) => {
                out.push(16);
                out.extend(n.to_be_bytes());
            }
            Value::Program(i) => out.extend([17, *i]),
            Value::Monitor(i) => out.extend([18, *i]),
            Value::AtEntry(i) => out.extend([19, *i]),
            Value::Plus(a, b) => write_values(20, &[a, b], out),
            Value::Minus(a, b) => write_values(21, &[a, b], out),
            Value::Choose(c, a, b) => {
                write_one(22, c, out);
                a.write(out);
                b.write(out);
            }
        }
    }

    pub fn bytes(&self) -> Vec<u8> {
        let mut out = Vec::new();
        self.write(&mut out);
        out
    }
}

impl Action {
    pub fn bytes(&self) -> Vec<u8> {
        let mut out = Vec::new();
        for assignment in &self.assignments {
            out.push(assignment.variable);
            assignment.value.write(&mut out);
        }
        out
    }
}

// ---- On their own -----------------------------------------------------------------------------

/// What is refused, here and below, has evaluated nothing: its count is 0.
pub fn evaluate_condition(bytes: &[u8], lent: &Lent) -> Result<Counted<bool>, Refusal> {
    Ok(read_condition(bytes, lent.counts())?.counted(lent))
}

pub fn evaluate_value(bytes: &[u8], lent: &Lent) -> Result<Counted<i32>, Refusal> {
    Ok(read_value(bytes, lent.counts())?.counted(lent))
}

/// The monitor values after the action; the lent ones stay as they are.
pub fn evaluate_action(bytes: &[u8], lent: &Lent) -> Result<Counted<Vec<i32>>, Refusal> {
    let action = read_action(bytes, lent.counts())?;
    let mut monitor = lent.monitor.to_vec();
    let count = action.carry_out(lent.program, &mut monitor, lent.kept);
    Ok(Counted {
        result: monitor,
        count,
    })
}
