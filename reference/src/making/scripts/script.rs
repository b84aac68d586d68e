//! A script of cases put together frame by frame, with the line that the reference gives for each
//! frame and the answer written down by hand: for `monitor_cases` and `network_cases`.

use crate::framing::monitor_frames::Arms;
use crate::framing::script_frames::{Bench, Frame, Rules, Set};
use crate::implementation::run::{write_log, Record};

/// What a case is there for.
#[derive(Clone, Copy, Debug, PartialEq, Eq)]
pub enum Sort {
    /// A fresh state, or a state that a run reaches.
    Reached,
    /// One clause of soundness broken.
    Broken,
    /// Its sound neighbour.
    Neighbour,
    Position,
    /// From the first call to the sixteenth and back.
    Filling,
    /// Refusals 9 to 15, alone and together.
    Together,
    /// The reading refusals in front of the others.
    Reading,
    /// A state offered with another sheet or network than it was made with.
    Foreign,
    /// A few fields of a state that a run reached, set at random.
    Shaken,
    Log,
    /// Which checkers an entry creates, and which template an exit names.
    Checkers,
    /// Calls within calls: exits in any order, numbers used again.
    Nesting,
    /// The values at entry of checkers.
    Values,
    /// The last of the values and variables, units from 8 on, numbers over 255.
    Wide,
    /// Networks of version 3 with long conditions, and with joined ones.
    Card,
    /// Counters and sums at the ends of the signed range.
    Ends,
    /// Preconditions and pairs that read monitor variables.
    Preconditions,
    /// Where calls were entered.
    Entries,
    /// How many operators and operands are evaluated.
    Counts,
}

/// A frame, the line that the reference gives for it, and the answer written down by hand.
pub struct Row<O> {
    pub sort: Sort,
    pub frame: Frame<O>,
    pub line: Option<String>,
    /// The whole line without its count, or its front up to a space.
    pub expected: Option<String>,
    /// The count, where it was worked out too.
    pub count: Option<u64>,
}

/// A script of its own: at most as many bytes as a page has.
pub type Page<O> = Vec<Row<O>>;

/// Each row, with what the rows of its page before it have laid out.
pub fn visit<R: Rules>(pages: &[Page<R::Own>], mut see: impl FnMut(&Bench<R>, &Row<R::Own>)) {
    for page in pages {
        visit_page(page, &mut see);
    }
}

fn visit_page<R: Rules>(page: &[Row<R::Own>], see: &mut impl FnMut(&Bench<R>, &Row<R::Own>)) {
    let mut bench = Bench::default();
    for row in page {
        see(&bench, row);
        bench.carry_out(&row.frame);
    }
}

/// The runs of a page on sheets as inputs of the program.
pub fn inputs(page: Page<Arms>) -> Vec<Vec<u8>> {
    let (mut sheet, mut inputs) = (Vec::new(), Vec::new());
    for row in page {
        match row.frame {
            Frame::Rules(bytes) => sheet = bytes,
            Frame::Run(log) => inputs.push([&sheet[..], &log].concat()),
            _ => {}
        }
    }
    inputs
}

/// The rows so far, and where they have led.
pub struct Script<R: Rules> {
    pub rows: Vec<Row<R::Own>>,
    pub bench: Bench<R>,
    pub sort: Sort,
}

/// Without a row.
impl<R: Rules> Default for Script<R> {
    fn default() -> Script<R> {
        Script {
            rows: Vec::new(),
            bench: Bench::default(),
            sort: Sort::Reached,
        }
    }
}

impl<R: Rules> Script<R> {
    /// The rows that these parts make, one after the other.
    pub fn of(parts: &[fn(&mut Script<R>)]) -> Page<R::Own> {
        let mut script = Script::default();
        for part in parts {
            part(&mut script);
        }
        script.rows
    }

    pub fn add(&mut self, frame: Frame<R::Own>, expected: Option<&str>) {
        let line = self.bench.carry_out(&frame);
        self.rows.push(Row {
            sort: self.sort,
            frame,
            line,
            expected: expected.map(str::to_string),
            count: None,
        });
    }

    /// The count of the row that was added last.
    pub fn counts(&mut self, count: u64) {
        if let Some(row) = self.rows.last_mut() {
            row.count = Some(count);
        }
    }

    /// These bytes are the sheet or network from now on.
    pub fn rules(&mut self, bytes: &[u8]) {
        self.add(Frame::Rules(bytes.to_vec()), None);
    }

    pub fn fresh(&mut self, expected: &str) {
        self.add(Frame::Fresh, Some(expected));
    }

    pub fn set(&mut self, fields: &[Set<R::Own>]) {
        for (field, value) in fields {
            self.add(Frame::Set(*field, *value), None);
        }
    }

    pub fn save(&mut self) {
        self.add(Frame::Save, None);
    }

    pub fn restore(&mut self) {
        self.add(Frame::Restore, None);
    }

    pub fn offer(&mut self, event: &Record, expected: &str) {
        self.add(offer(event, false), Some(expected));
    }

    /// Offers an event and goes on from the state that comes back.
    pub fn step(&mut self, event: &Record, expected: &str) {
        self.add(offer(event, true), Some(expected));
    }

    /// What the reference answers; nothing is known apart from it.
    pub fn unknown(&mut self, event: &Record, keep: bool) {
        self.add(offer(event, keep), None);
    }

    /// Asks for the values at entry of the checker at a place.
    pub fn ask(&mut self, place: u8, expected: &str) {
        self.add(Frame::EntryValues(place), Some(expected));
    }

    pub fn run(&mut self, log: &[u8], expected: &str) {
        self.add(Frame::Run(log.to_vec()), Some(expected));
    }

    pub fn run_records(&mut self, program: u8, records: &[Record], expected: &str) {
        self.run(&write_log(program, records), expected);
    }
}

pub fn offer<O>(event: &Record, keep: bool) -> Frame<O> {
    Frame::Offer {
        event: event.clone(),
        keep,
    }
}

pub fn event(kind: u8, unit: u8, call: u16, values: &[i32]) -> Record {
    Record {
        kind,
        unit,
        call,
        values: values.to_vec(),
    }
}

pub fn entry(unit: u8, call: u16, values: &[i32]) -> Record {
    event(0, unit, call, values)
}

pub fn exit(unit: u8, call: u16, values: &[i32]) -> Record {
    event(1, unit, call, values)
}

pub fn refused(number: u8) -> String {
    format!("refused {number}")
}
