//! The frames of `condition_cases`: one expression with the values lent to it. See CASES.md.

use crate::framing::counted_lines::with_count;
use crate::framing::pages;
use crate::implementation::expr::{self, Counted, Counts, Lent};
use crate::implementation::refusal::Refusal;

#[derive(Clone, Copy, Debug, PartialEq, Eq)]
pub enum Kind {
    Condition,
    Value,
    Action,
    JudgeCondition,
    JudgeAction,
}

impl Kind {
    pub const ALL: [Kind; 5] = [
        Kind::Condition,
        Kind::Value,
        Kind::Action,
        Kind::JudgeCondition,
        Kind::JudgeAction,
    ];

    fn byte(self) -> u8 {
        self as u8
    }

    fn from_byte(byte: u8) -> Option<Kind> {
        Kind::ALL.into_iter().find(|kind| kind.byte() == byte)
    }
}

#[derive(Clone, Debug, PartialEq, Eq)]
pub struct Frame {
    pub kind: Kind,
    pub expression: Vec<u8>,
    pub program: Vec<i32>,
    pub monitor: Vec<i32>,
    pub kept: Vec<i32>,
}

impl Frame {
    pub fn write(&self, out: &mut Vec<u8>) {
        out.push(self.kind.byte());
        out.extend((self.expression.len() as u16).to_be_bytes());
        out.extend(&self.expression);
        for values in [&self.program, &self.monitor, &self.kept] {
            write_words(values, out);
        }
    }

    fn lent(&self) -> Lent<'_> {
        Lent {
            program: &self.program,
            monitor: &self.monitor,
            kept: &self.kept,
        }
    }

    /// The expected line, without its newline.
    pub fn answer(&self) -> String {
        let (bytes, lent) = (&self.expression, self.lent());
        match self.kind {
            Kind::Condition => counted(expr::evaluate_condition(bytes, &lent), |c| c.to_string()),
            Kind::Value => counted(expr::evaluate_value(bytes, &lent), |v| v.to_string()),
            Kind::Action => counted(expr::evaluate_action(bytes, &lent), |m| done(&m)),
            Kind::JudgeCondition => judge_condition(bytes, lent.counts()),
            Kind::JudgeAction => judge_action(bytes, lent.counts()),
        }
    }
}

fn write_words(words: &[i32], out: &mut Vec<u8>) {
    out.push(words.len() as u8);
    for word in words {
        out.extend(word.to_be_bytes());
    }
}

/// The answer, or the refusal, and the count.
fn counted<T>(answer: Result<Counted<T>, Refusal>, text: fn(T) -> String) -> String {
    match answer {
        Ok(Counted { result, count }) => with_count(&text(result), count),
        Err(refusal) => with_count(&refusal.to_string(), 0),
    }
}

fn done(monitor: &[i32]) -> String {
    let mut line = String::from("done");
    for value in monitor {
        line.push_str(&format!(" {value}"));
    }
    line
}

fn judge_condition(bytes: &[u8], counts: Counts) -> String {
    match expr::read_condition(bytes, counts) {
        Err(_) => "000".into(),
        Ok(condition) => {
            let holds = condition.mentions();
            format!("1{}{}", u8::from(holds.at_entry), u8::from(holds.monitor))
        }
    }
}

fn judge_action(bytes: &[u8], counts: Counts) -> String {
    match expr::read_action(bytes, counts) {
        Err(_) => "00".into(),
        Ok(action) => format!("1{}", u8::from(action.mentions().at_entry)),
    }
}

/// Reads the frames of all pages; `None` where something else stands in one.
pub fn read_frames(bytes: &[u8]) -> Option<Vec<Frame>> {
    pages::read(bytes, read_frame)
}

fn read_frame(rest: &mut &[u8]) -> Option<Frame> {
    let kind = Kind::from_byte(take(rest, 1)?[0])?;
    let length = take(rest, 2)?;
    let length = usize::from(u16::from_be_bytes([length[0], length[1]]));
    Some(Frame {
        kind,
        expression: take(rest, length)?.to_vec(),
        program: read_words(rest)?,
        monitor: read_words(rest)?,
        kept: read_words(rest)?,
    })
}

fn read_words(rest: &mut &[u8]) -> Option<Vec<i32>> {
    let count = usize::from(take(rest, 1)?[0]);
    let bytes = take(rest, 4 * count)?;
    let word = |b: &[u8]| i32::from_be_bytes([b[0], b[1], b[2], b[3]]);
    Some(bytes.chunks_exact(4).map(word).collect())
}

pub(crate) fn take<'a>(rest: &mut &'a [u8], count: usize) -> Option<&'a [u8]> {
    if count > rest.len() {
        return None;
    }
    let (front, back) = rest.split_at(count);
    *rest = back;
    Some(front)
}
