//! Running a log from fresh, on a sheet and on a network. A run's count (document 02, slip 3) is the sum over its
//! taken events.

use crate::implementation::engine::{Engine, Event};
use crate::implementation::expr::Counted;
use crate::implementation::network::Network;
use crate::implementation::refusal::Refusal;
use crate::implementation::sheet::Sheet;
use crate::implementation::state::{Common, Verdict};
use std::fmt;

const LOG_HEADER_LENGTH: usize = 6;

#[derive(Clone, Copy, Debug, PartialEq, Eq)]
pub enum Outcome {
    Violated(Verdict),
    Clean {
        events: u32,
        state: u8,
        open: u8,
    },
    /// The sheet, the network or the log as a whole was refused.
    Refused(Refusal),
    /// The event of this record was refused, counted from 1.
    RefusedAt(Refusal, u32),
}

impl fmt::Display for Outcome {
    fn fmt(&self, f: &mut fmt::Formatter<'_>) -> fmt::Result {
        match self {
            Outcome::Violated(verdict) => {
                let triple = verdict.cause.triple();
                let entry = or_dash(triple.map(|_| verdict.entry));
                write!(f, "{} entry {entry}", found(verdict))
            }
            Outcome::Clean {
                events,
                state,
                open,
            } => write!(f, "clean {events} state {state} open {open}"),
            Outcome::Refused(refusal) => write!(f, "{refusal}"),
            Outcome::RefusedAt(refusal, record) => write!(f, "{refusal} at {record}"),
        }
    }
}

/// A verdict's line up to its entry position.
pub fn found(verdict: &Verdict) -> String {
    let state = or_dash(verdict.cause.state());
    let triple = or_dash(verdict.cause.triple());
    format!(
        "violated {} state {state} triple {triple}",
        verdict.position
    )
}

fn or_dash(number: Option<impl fmt::Display>) -> String {
    number.map_or_else(|| "-".into(), |n| n.to_string())
}

/// A record of a log, decoded but not judged.
#[derive(Clone, Debug, PartialEq, Eq)]
pub struct Record {
    pub kind: u8,
    pub unit: u8,
    pub call: u16,
    pub values: Vec<i32>,
}

impl Record {
    pub fn event(&self) -> Event<'_> {
        Event {
            kind: self.kind,
            unit: self.unit,
            call: self.call,
            values: &self.values,
        }
    }
}

/// Refusals 16, 17 and 18.
pub fn read_log(log: &[u8], program: u8) -> Result<Vec<Record>, Refusal> {
    if log.len() < LOG_HEADER_LENGTH {
        return Err(Refusal::LogHeader);
    }
    let (header, records) = log.split_at(LOG_HEADER_LENGTH);
    let length = u32::from_be_bytes([header[0], header[1], header[2], header[3]]);
    if u64::from(length) != log.len() as u64 || header[4] != 1 {
        return Err(Refusal::LogHeader);
    }
    if header[5] != program {
        return Err(Refusal::LogVariables);
    }
    let record_length = 4 + 4 * usize::from(program);
    if records.len() % record_length != 0 {
        return Err(Refusal::LogRecords);
    }
    Ok(records
        .chunks_exact(record_length)
        .map(read_record)
        .collect())
}

fn read_record(bytes: &[u8]) -> Record {
    let word = |b: &[u8]| i32::from_be_bytes([b[0], b[1], b[2], b[3]]);
    Record {
        kind: bytes[0],
        unit: bytes[1],
        call: u16::from_be_bytes([bytes[2], bytes[3]]),
        values: bytes[4..].chunks_exact(4).map(word).collect(),
    }
}

/// The bytes of a log.
pub fn write_log(program: u8, records: &[Record]) -> Vec<u8> {
    let mut out = vec![0, 0, 0, 0, 1, program];
    for record in records {
        out.extend([record.kind, record.unit]);
        out.extend(record.call.to_be_bytes());
        for value in &record.values {
            out.extend(value.to_be_bytes());
        }
    }
    let length = (out.len() as u32).to_be_bytes();
    out[..4].copy_from_slice(&length);
    out
}

/// Of what is refused as a whole: nothing has been evaluated.
pub fn refused(refusal: Refusal) -> Counted<Outcome> {
    Counted {
        result: Outcome::Refused(refusal),
        count: 0,
    }
}

/// Runs a log's bytes on a sheet or network that has been read.
pub fn run<E: Engine>(engine: &E, log: &[u8]) -> Counted<Outcome> {
    match read_log(log, engine.machine().header.program) {
        Ok(records) => run_records(engine, &records),
        Err(refusal) => refused(refusal),
    }
}

pub fn run_records<E: Engine>(engine: &E, records: &[Record]) -> Counted<Outcome> {
    follow_counting(engine, records, E::counted_event)
}

/// The same without judging the state before each event: from fresh it is always sound.
pub fn run_unjudged<E: Engine>(engine: &E, log: &[u8]) -> Counted<Outcome> {
    match read_log(log, engine.machine().header.program) {
        Ok(records) => follow_counting(engine, &records, E::take),
        Err(refusal) => refused(refusal),
    }
}

/// The run in which each record's event is offered in this way, with the sum of the counts of those that are
/// taken.
pub fn follow_counting<E: Engine>(
    engine: &E,
    records: &[Record],
    offer: impl Fn(&E, &E::State, &Event) -> Result<Counted<E::State>, Refusal>,
) -> Counted<Outcome> {
    Counted::of(|count| {
        let counting = |engine: &E, state: &E::State, event: &Event| {
            let next = offer(engine, state, event)?;
            *count += next.count;
            Ok(next.result)
        };
        follow(engine, records, counting)
    })
}

/// The run in which each record's event is offered in this way.
pub fn follow<E: Engine>(
    engine: &E,
    records: &[Record],
    mut offer: impl FnMut(&E, &E::State, &Event) -> Result<E::State, Refusal>,
) -> Outcome {
    let mut state = engine.fresh();
    for (record, number) in records.iter().zip(1u32..) {
        state = match offer(engine, &state, &record.event()) {
            Ok(next) => next,
            Err(refusal) => return Outcome::RefusedAt(refusal, number),
        };
        if let Some(verdict) = E::common(&state).verdict {
            return Outcome::Violated(verdict);
        }
    }
    clean(E::common(&state))
}

fn clean(common: &Common) -> Outcome {
    Outcome::Clean {
        events: common.position,
        state: common.main,
        open: common.open,
    }
}

/// The state after the records, or where the first one was refused.
pub fn reach<E: Engine>(engine: &E, records: &[Record]) -> E::State {
    let mut state = engine.fresh();
    for record in records {
        match engine.event(&state, &record.event()) {
            Ok(next) => state = next,
            Err(_) => break,
        }
    }
    state
}

/// Runs a log's bytes on the bytes of a sheet or network.
pub fn run_bytes<E: Engine>(bytes: &[u8], log: &[u8]) -> Counted<Outcome> {
    match E::read(bytes) {
        Ok(engine) => run(&engine, log),
        Err(refusal) => refused(refusal),
    }
}

pub fn run_sheet(sheet: &[u8], log: &[u8]) -> Counted<Outcome> {
    run_bytes::<Sheet>(sheet, log)
}

pub fn run_network(network: &[u8], log: &[u8]) -> Counted<Outcome> {
    run_bytes::<Network>(network, log)
}
