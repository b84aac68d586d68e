//! The frames of `bench_cases`: what is asked of the conditions for the bench. See CASES.md.

use crate::framing::condition_frames::take;
use crate::framing::pages;
use crate::implementation::bench_conditions::{first, next, Eight, Listing, LONGEST};

/// The most lines that one frame has.
pub const MOST_LINES: usize = 1_000;

#[derive(Clone, Copy, Debug, PartialEq, Eq, Hash)]
pub enum Frame {
    /// The first of n bytes, and from each to the next, as long as there is one.
    Walk {
        n: u8,
    },
    First {
        n: u8,
    },
    Next {
        n: u8,
        given: Eight,
    },
}

impl Frame {
    pub fn write(&self, out: &mut Vec<u8>) {
        match self {
            Frame::Walk { n } => out.extend([0, *n]),
            Frame::First { n } => out.extend([1, *n]),
            Frame::Next { n, given } => {
                out.extend([2, *n]);
                out.extend(given);
            }
        }
    }

    /// The expected lines, without their newlines.
    pub fn lines(&self) -> Vec<String> {
        self.lines_by(first, next)
    }

    /// The lines by any pair of operations.
    pub fn lines_by(
        &self,
        first: impl Fn(usize) -> Listing,
        next: impl Fn(usize, Eight) -> Listing,
    ) -> Vec<String> {
        match *self {
            Frame::Walk { n } => walk(first(n.into()), |given| next(n.into(), given)),
            Frame::First { n } => vec![line(&first(n.into()))],
            Frame::Next { n, given } => vec![line(&next(n.into(), given))],
        }
    }
}

fn walk(first: Listing, next: impl Fn(Eight) -> Listing) -> Vec<String> {
    let mut answer = first;
    let mut lines = vec![line(&answer)];
    while lines.len() < MOST_LINES {
        let Ok(Some(given)) = answer else {
            break;
        };
        answer = next(given);
        lines.push(line(&answer));
    }
    lines
}

/// The eight bytes handed back are zero where there is no condition.
fn line(answer: &Listing) -> String {
    let (mut line, eight) = match answer {
        Ok(Some(eight)) => ("is".to_string(), *eight),
        Ok(None) => ("none".to_string(), Eight::default()),
        Err(refusal) => (refusal.to_string(), Eight::default()),
    };
    for byte in eight {
        line.push_str(&format!(" {byte:02x}"));
    }
    line
}

/// Reads the frames of all pages; `None` where something else stands in one.
pub fn read_frames(bytes: &[u8]) -> Option<Vec<Frame>> {
    pages::read(bytes, read_frame)
}

fn read_frame(rest: &mut &[u8]) -> Option<Frame> {
    let code = take(rest, 1)?[0];
    let n = take(rest, 1)?[0];
    match code {
        0 => Some(Frame::Walk { n }),
        1 => Some(Frame::First { n }),
        2 => {
            let mut given = Eight::default();
            given.copy_from_slice(take(rest, LONGEST)?);
            Some(Frame::Next { n, given })
        }
        _ => None,
    }
}
