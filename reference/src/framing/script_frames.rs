//! The frames of `monitor_cases` and `network_cases`: a script that lays out a sheet or a network
//! and a state, offers single events and runs logs. See CASES.md.

use crate::framing::condition_frames::take;
use crate::framing::counted_lines::with_count;
use crate::framing::pages;
use crate::implementation::engine::{fresh_state, offer, Engine};
use crate::implementation::expr::Counted;
use crate::implementation::machine::MOST_PROGRAM;
use crate::implementation::run::{found, run_bytes, Record};
use crate::implementation::state::{Cause, Common, Verdict};
use std::fmt::{Debug, Write};

/// The code of the first field that only sheets or only networks have.
const FIRST_OWN: u8 = 6;

pub type Kept = [i32; MOST_PROGRAM as usize];

// ---- What sheets and networks differ in -------------------------------------------------------

/// The fields that only a sheet's or only a network's state has.
pub trait Own: Copy + Debug + Eq + 'static {
    type State;
    /// How many codes they take before the position's.
    const BEFORE: u8;
    /// How many they take behind that of the calls' entry positions.
    const BEHIND: u8;
    /// Whether a script may ask for the values at entry of checkers.
    const CHECKERS: bool;

    /// The code, counted from 0, and the places.
    fn bytes(self) -> [u8; 3];
    fn from_bytes(code: u8, i: u8, j: u8) -> Option<Self>;
    /// Sets the field; a value that is too wide is cut. The places must be there.
    fn set(self, state: &mut Self::State, value: u32);
}

/// A sheet or a network, as a script has it.
pub trait Rules: Engine<State: Debug + PartialEq> {
    type Own: Own<State = Self::State>;

    fn common_mut(state: &mut Self::State) -> &mut Common;
    /// How many triples or templates there are.
    fn causes(&self) -> usize;
    /// Writes what stands beside the call at a place.
    fn put_at_call(text: &mut String, state: &Self::State, place: usize);
    /// Writes what stands behind the calls.
    fn put_behind_calls(text: &mut String, state: &Self::State);
    /// Those of the checker at a place, if such states have checkers.
    fn entry_values(state: &Self::State, place: u8) -> Option<Kept>;
}

// ---- Fields -----------------------------------------------------------------------------------

/// A field of a state. The numbers are places; those of a verdict are its cause.
#[derive(Clone, Copy, Debug, PartialEq, Eq)]
pub enum Field<O> {
    Main,
    Variable(u8),
    Open,
    Number(u8),
    Unit(u8),
    Kept(u8, u8),
    Own(O),
    Position,
    NoVerdict,
    /// The value that goes with the three of these is the verdict's position.
    BadState(u8),
    Failed(u8),
    Both(u8, u8),
    /// The entry position of the call at a place.
    Entry(u8),
    /// The entry position that the verdict carries; without a verdict it sets nothing.
    Carried,
}

/// A field and the value that it is set to.
pub type Set<O> = (Field<O>, u32);

impl<O: Own> Field<O> {
    /// The code of the position, behind the first ones that only sheets or only networks have.
    const POSITION: u8 = FIRST_OWN + O::BEFORE;
    /// The code of the calls' entry positions, behind those of the verdict.
    const ENTRY: u8 = Self::POSITION + 5;
    /// The code of the verdict's entry position, behind the last that only networks have.
    const CARRIED: u8 = Self::ENTRY + 1 + O::BEHIND;

    fn bytes(self) -> [u8; 3] {
        match self {
            Field::Main => [0, 0, 0],
            Field::Variable(i) => [1, i, 0],
            Field::Open => [2, 0, 0],
            Field::Number(i) => [3, i, 0],
            Field::Unit(i) => [4, i, 0],
            Field::Kept(i, j) => [5, i, j],
            Field::Own(own) => {
                let [code, i, j] = own.bytes();
                match code.checked_sub(O::BEFORE) {
                    None => [FIRST_OWN + code, i, j],
                    Some(behind) => [Self::ENTRY + 1 + behind, i, j],
                }
            }
            Field::Position => [Self::POSITION, 0, 0],
            Field::NoVerdict => [Self::POSITION + 1, 0, 0],
            Field::BadState(state) => [Self::POSITION + 2, state, 0],
            Field::Failed(triple) => [Self::POSITION + 3, triple, 0],
            Field::Both(state, triple) => [Self::POSITION + 4, state, triple],
            Field::Entry(i) => [Self::ENTRY, i, 0],
            Field::Carried => [Self::CARRIED, 0, 0],
        }
    }

    fn from_bytes(code: u8, i: u8, j: u8) -> Option<Field<O>> {
        let Some(behind) = code.checked_sub(Self::POSITION) else {
            return Field::front_from_bytes(code, i, j);
        };
        Some(match behind {
            0 => Field::Position,
            1 => Field::NoVerdict,
            2 => Field::BadState(i),
            3 => Field::Failed(i),
            4 => Field::Both(i, j),
            5 => Field::Entry(i),
            _ if code == Self::CARRIED => Field::Carried,
            _ => Field::Own(O::from_bytes(O::BEFORE + behind - 6, i, j)?),
        })
    }

    /// The fields before the position.
    fn front_from_bytes(code: u8, i: u8, j: u8) -> Option<Field<O>> {
        Some(match code {
            0 => Field::Main,
            1 => Field::Variable(i),
            2 => Field::Open,
            3 => Field::Number(i),
            4 => Field::Unit(i),
            5 => Field::Kept(i, j),
            _ => Field::Own(O::from_bytes(code - FIRST_OWN, i, j)?),
        })
    }

    /// Sets the field; a value that is too wide is cut. The places must be there.
    fn set<R: Rules<Own = O, State = O::State>>(self, state: &mut O::State, value: u32) {
        let common = R::common_mut(state);
        let place = |i: u8| usize::from(i);
        match self {
            Field::Main => common.main = value as u8,
            Field::Variable(i) => common.variables[place(i)] = value as i32,
            Field::Open => common.open = value as u8,
            Field::Number(i) => common.calls[place(i)].number = value as u16,
            Field::Unit(i) => common.calls[place(i)].unit = value as u8,
            Field::Kept(i, j) => common.calls[place(i)].kept[place(j)] = value as i32,
            Field::Own(own) => own.set(state, value),
            Field::Position => common.position = value,
            Field::NoVerdict => common.verdict = None,
            Field::BadState(state) => common.verdict = verdict(value, Cause::State(state)),
            Field::Failed(triple) => common.verdict = verdict(value, Cause::Triple(triple)),
            Field::Both(state, triple) => {
                common.verdict = verdict(value, Cause::Both { state, triple });
            }
            Field::Entry(i) => common.calls[place(i)].entry = value,
            Field::Carried => {
                if let Some(verdict) = &mut common.verdict {
                    verdict.entry = value;
                }
            }
        }
    }
}

/// At first it carries no entry position.
fn verdict(position: u32, cause: Cause) -> Option<Verdict> {
    let entry = 0;
    Some(Verdict {
        position,
        cause,
        entry,
    })
}

// ---- Frames -----------------------------------------------------------------------------------

#[derive(Clone, Debug, PartialEq, Eq)]
pub enum Frame<O> {
    /// From now on this is the sheet or network. At most 65,535 bytes.
    Rules(Vec<u8>),
    /// Its fresh state becomes the state.
    Fresh,
    Set(Field<O>, u32),
    /// Keeps a copy of the state.
    Save,
    /// Makes the copy the state.
    Restore,
    /// Offers an event and, with `keep`, makes the state that comes back the state.
    Offer {
        event: Record,
        keep: bool,
    },
    /// Runs a log from the fresh state. At most 65,535 bytes.
    Run(Vec<u8>),
    /// Asks for the values at entry of the checker at a place; of a network only.
    EntryValues(u8),
}

impl<O: Own> Frame<O> {
    pub fn write(&self, out: &mut Vec<u8>) {
        match self {
            Frame::Rules(bytes) => write_bytes(0, bytes, out),
            Frame::Fresh => out.push(1),
            Frame::Set(field, value) => {
                out.push(2);
                out.extend(field.bytes());
                out.extend(value.to_be_bytes());
            }
            Frame::Save => out.push(3),
            Frame::Restore => out.push(4),
            Frame::Offer { event, keep } => {
                out.push(if *keep { 6 } else { 5 });
                write_event(event, out);
            }
            Frame::Run(log) => write_bytes(7, log, out),
            Frame::EntryValues(place) => out.extend([8, *place]),
        }
    }
}

fn write_bytes(code: u8, bytes: &[u8], out: &mut Vec<u8>) {
    out.push(code);
    out.extend((bytes.len() as u16).to_be_bytes());
    out.extend(bytes);
}

fn write_event(event: &Record, out: &mut Vec<u8>) {
    out.extend([event.kind, event.unit]);
    out.extend(event.call.to_be_bytes());
    out.push(event.values.len() as u8);
    for value in &event.values {
        out.extend(value.to_be_bytes());
    }
}

// ---- Carrying out -----------------------------------------------------------------------------

/// What the frames so far have laid out.
#[derive(Clone, Debug)]
pub struct Bench<R: Rules> {
    /// The bytes of the sheet or network.
    pub rules: Vec<u8>,
    pub state: R::State,
    saved: R::State,
}

/// At first no byte of a sheet or network, and states that are all zero.
impl<R: Rules> Default for Bench<R> {
    fn default() -> Bench<R> {
        Bench {
            rules: Vec::new(),
            state: R::State::default(),
            saved: R::State::default(),
        }
    }
}

impl<R: Rules> Bench<R> {
    /// Carries a frame out and gives the line expected for it, if it has one.
    pub fn carry_out(&mut self, frame: &Frame<R::Own>) -> Option<String> {
        match frame {
            Frame::Rules(bytes) => self.rules = bytes.clone(),
            Frame::Fresh => return Some(self.fresh()),
            Frame::Set(field, value) => field.set::<R>(&mut self.state, *value),
            Frame::Save => self.saved = self.state.clone(),
            Frame::Restore => self.state = self.saved.clone(),
            Frame::Offer { event, keep } => return Some(self.offer(event, *keep)),
            Frame::Run(log) => return Some(self.run(log)),
            Frame::EntryValues(place) => return self.entry_values(*place),
        }
        None
    }

    pub fn common(&self) -> &Common {
        R::common(&self.state)
    }

    fn fresh(&mut self) -> String {
        let (state, refusal) = fresh_state::<R>(&self.rules);
        self.state = state;
        let answer = refusal.map_or_else(|| "accepted".into(), |refusal| refusal.to_string());
        answer + &state_text::<R>(&self.state)
    }

    fn offer(&mut self, event: &Record, keep: bool) -> String {
        let (answer, back) = match offer::<R>(&self.rules, &self.state, &event.event()) {
            Ok(next) => (with_count("taken", next.count), next.result),
            // A refused event changes nothing, and counts 0.
            Err(refusal) => (with_count(&refusal.to_string(), 0), self.state.clone()),
        };
        let line = answer + &state_text::<R>(&back);
        if keep {
            self.state = back;
        }
        line
    }

    fn run(&self, log: &[u8]) -> String {
        let Counted { result, count } = run_bytes::<R>(&self.rules, log);
        with_count(&result.to_string(), count)
    }

    fn entry_values(&self, place: u8) -> Option<String> {
        let values = R::entry_values(&self.state, place)?;
        let mut line = format!("entry {place}");
        put_kept(&mut line, place.into(), &values);
        Some(line)
    }
}

// ---- Writing states ---------------------------------------------------------------------------

/// A word for each field that is not zero, then the verdict if there is one, with its entry position
/// even where that is zero.
pub fn state_text<R: Rules>(state: &R::State) -> String {
    let mut text = String::new();
    let common = R::common(state);
    put(&mut text, "m", common.main.into());
    for (i, value) in common.variables.iter().enumerate() {
        put(&mut text, &format!("x{i}"), (*value).into());
    }
    put(&mut text, "o", common.open.into());
    for (i, call) in common.calls.iter().enumerate() {
        put(&mut text, &format!("n{i}"), call.number.into());
        put(&mut text, &format!("u{i}"), call.unit.into());
        put(&mut text, &format!("e{i}"), call.entry.into());
        put_kept(&mut text, i, &call.kept);
        R::put_at_call(&mut text, state, i);
    }
    R::put_behind_calls(&mut text, state);
    put(&mut text, "p", common.position.into());
    if let Some(verdict) = common.verdict {
        // Writing to a string does not fail.
        let _ = write!(text, " {} entry {}", found(&verdict), verdict.entry);
    }
    text
}

fn put_kept(text: &mut String, i: usize, kept: &Kept) {
    for (j, value) in kept.iter().enumerate() {
        put(text, &format!("k{i}.{j}"), (*value).into());
    }
}

/// A name and a value, unless it is zero.
pub fn put(text: &mut String, name: &str, value: i64) {
    if value != 0 {
        // Writing to a string does not fail.
        let _ = write!(text, " {name}={value}");
    }
}

// ---- Reading ----------------------------------------------------------------------------------

/// Reads the frames of all pages; `None` where something else stands in one.
pub fn read_frames<O: Own>(bytes: &[u8]) -> Option<Vec<Frame<O>>> {
    pages::read(bytes, read_frame)
}

/// Reads the frames of a page, up to what is none, and gives the bytes from there on.
pub fn read_page<O: Own>(bytes: &[u8]) -> (Vec<Frame<O>>, &[u8]) {
    let (mut frames, mut rest) = (Vec::new(), bytes);
    loop {
        let from_here = rest;
        match read_frame(&mut rest) {
            Some(frame) => frames.push(frame),
            None => return (frames, from_here),
        }
    }
}

fn read_frame<O: Own>(rest: &mut &[u8]) -> Option<Frame<O>> {
    Some(match read_byte(rest)? {
        0 => Frame::Rules(read_bytes(rest)?),
        1 => Frame::Fresh,
        2 => {
            let code = take(rest, 3)?;
            let field = Field::from_bytes(code[0], code[1], code[2])?;
            Frame::Set(field, read_word(rest)?)
        }
        3 => Frame::Save,
        4 => Frame::Restore,
        code @ (5 | 6) => Frame::Offer {
            event: read_event(rest)?,
            keep: code == 6,
        },
        7 => Frame::Run(read_bytes(rest)?),
        8 if O::CHECKERS => Frame::EntryValues(read_byte(rest)?),
        _ => return None,
    })
}

fn read_byte(rest: &mut &[u8]) -> Option<u8> {
    Some(take(rest, 1)?[0])
}

fn read_short(rest: &mut &[u8]) -> Option<u16> {
    let bytes = take(rest, 2)?;
    Some(u16::from_be_bytes([bytes[0], bytes[1]]))
}

fn read_word(rest: &mut &[u8]) -> Option<u32> {
    let bytes = take(rest, 4)?;
    Some(u32::from_be_bytes([bytes[0], bytes[1], bytes[2], bytes[3]]))
}

fn read_bytes(rest: &mut &[u8]) -> Option<Vec<u8>> {
    let length = read_short(rest)?;
    Some(take(rest, length.into())?.to_vec())
}

fn read_event(rest: &mut &[u8]) -> Option<Record> {
    let (kind, unit) = (read_byte(rest)?, read_byte(rest)?);
    let call = read_short(rest)?;
    let count = read_byte(rest)?;
    let values = (0..count).map(|_| read_word(rest).map(|word| word as i32));
    Some(Record {
        kind,
        unit,
        call,
        values: values.collect::<Option<_>>()?,
    })
}
