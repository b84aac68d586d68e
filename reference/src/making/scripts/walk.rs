//! A run put together event by event: each is offered, and asked about as the last of a log.

use crate::implementation::run::Record;
use crate::implementation::state::{Call, Cause};
use crate::making::scripts::script::Script;
use crate::making::scripts::shared_cases::{broken, held, ran, taken, Broken, Subject};

/// What an event leaves: main state, variables, what is armed for the call that it opens, what is broken.
#[derive(Clone, Debug, Default)]
pub struct Leaves {
    pub main: u8,
    pub variables: [i32; 4],
    pub armed: Vec<u8>,
    pub cause: Option<Cause>,
}

impl Leaves {
    /// In state 0, with nothing armed.
    pub fn variables(variables: [i32; 4]) -> Leaves {
        Leaves::state(0, variables, None)
    }

    /// With nothing armed.
    pub fn state(main: u8, variables: [i32; 4], cause: Option<Cause>) -> Leaves {
        Leaves {
            main,
            variables,
            armed: Vec::new(),
            cause,
        }
    }
}

/// The events so far, and the variables and open calls after them.
#[derive(Clone, Debug, Default)]
pub struct Walk {
    /// The position before the first of them.
    pub before: u32,
    pub records: Vec<Record>,
    pub variables: [i32; 4],
    /// Each with what is armed for it.
    pub open: Vec<(Call, Vec<u8>)>,
}

impl Walk {
    /// From a position that no events have led to.
    pub fn at(before: u32) -> Walk {
        Walk {
            before,
            ..Walk::default()
        }
    }

    /// The position that the events have led to.
    pub fn reached(&self) -> u32 {
        self.before + self.records.len() as u32
    }

    /// The position of the next event.
    fn position(&self) -> u32 {
        self.reached() + 1
    }

    /// The open calls after an event.
    fn after(&self, event: &Record, leaves: &Leaves) -> Vec<(Call, Vec<u8>)> {
        let mut open = self.open.clone();
        if event.kind == 0 {
            open.push((held(event, self.position()), leaves.armed.clone()));
        } else {
            open.retain(|(call, _)| call.number != event.call);
        }
        open
    }

    /// What an event breaks; a triple by the call that it leaves.
    fn broken(&self, event: &Record, leaves: &Leaves) -> Option<Broken> {
        let mut open = self.open.iter().map(|(call, _)| call);
        let own = open.find(|call| call.number == event.call);
        broken(leaves.cause, own.map_or(0, |call| call.entry))
    }

    fn line<R: Subject>(&self, event: &Record, leaves: &Leaves) -> String {
        let (state, open) = ((leaves.main, leaves.variables), self.after(event, leaves));
        taken::<R>(state, &open, self.position(), self.broken(event, leaves))
    }

    /// Goes on with an event.
    pub fn step<R: Subject>(&mut self, script: &mut Script<R>, event: Record, leaves: &Leaves) {
        script.step(&event, &self.line::<R>(&event, leaves));
        self.open = self.after(&event, leaves);
        self.variables = leaves.variables;
        self.records.push(event);
    }

    /// Offers an event and does not go on with it.
    pub fn offer<R: Subject>(&self, script: &mut Script<R>, event: &Record, leaves: &Leaves) {
        script.offer(event, &self.line::<R>(event, leaves));
    }

    /// Offers an event, also as the last of a run, and does not go on with it.
    pub fn ask<R: Subject>(&self, script: &mut Script<R>, event: Record, leaves: &Leaves) {
        self.offer(script, &event, leaves);
        let (open, broken) = (self.after(&event, leaves), self.broken(&event, leaves));
        let line = ran(leaves.main, open.len(), self.position(), broken);
        let records = [&self.records[..], std::slice::from_ref(&event)].concat();
        script.run_records(event.values.len() as u8, &records, &line);
    }
}
