//! Sheets and networks put together piece by piece. Nothing is judged here, so that wrong ones can
//! be written too.

use crate::implementation::expr::{Action, Condition};
use crate::implementation::machine::{set_length, write_counted, Kind, Places, HEADER_LENGTH};

/// The header's numbers and the tables of bytes.
#[derive(Clone, Debug, Default, PartialEq, Eq)]
pub struct Front {
    pub version: u8,
    pub states: u8,
    pub units: u8,
    pub program: u8,
    pub monitor: u8,
    pub start: u8,
    pub bad: u16,
    pub initial: Vec<i32>,
    pub conditions: Vec<Vec<u8>>,
    pub actions: Vec<Vec<u8>>,
    /// Whether the conditions' lengths take two bytes, whatever the version says.
    pub wide: bool,
}

impl Front {
    /// No tables and no bad states; starting in state 0.
    fn new(version: u8, states: u8, units: u8, program: u8, initial: &[i32]) -> Front {
        Front {
            version,
            states,
            units,
            program,
            monitor: initial.len() as u8,
            initial: initial.to_vec(),
            ..Front::default()
        }
    }

    fn write(&self, transitions: usize, last: usize) -> Vec<u8> {
        let mut out = vec![0, 0, self.version, self.states, self.units];
        out.extend([self.program, self.monitor, self.start]);
        out.extend(self.bad.to_be_bytes());
        for count in [self.conditions.len(), self.actions.len(), transitions, last] {
            out.push(count as u8);
        }
        for value in &self.initial {
            out.extend(value.to_be_bytes());
        }
        for bytes in &self.conditions {
            write_counted(bytes, self.width(), &mut out);
        }
        for bytes in &self.actions {
            write_counted(bytes, 1, &mut out);
        }
        out
    }

    /// How many bytes a condition's length takes.
    fn width(&self) -> usize {
        1 + usize::from(self.wide)
    }

    /// How many bytes stand before the transitions.
    fn length(&self) -> usize {
        let conditions = self
            .conditions
            .iter()
            .map(|bytes| self.width() + bytes.len());
        let actions = self.actions.iter().map(|bytes| 1 + bytes.len());
        HEADER_LENGTH + 4 * self.initial.len() + conditions.chain(actions).sum::<usize>()
    }

    /// Adds a condition and gives its number.
    pub fn condition(&mut self, condition: &Condition) -> u8 {
        self.conditions.push(condition.bytes());
        (self.conditions.len() - 1) as u8
    }

    /// Adds an action and gives its number.
    pub fn action(&mut self, action: &Action) -> u8 {
        self.actions.push(action.bytes());
        (self.actions.len() - 1) as u8
    }
}

#[derive(Clone, Debug, Default, PartialEq, Eq)]
pub struct SheetDraft {
    pub front: Front,
    pub transitions: Vec<[u8; 6]>,
    pub triples: Vec<[u8; 4]>,
}

impl SheetDraft {
    /// An empty sheet of version 1 with these counts, starting in state 0.
    pub fn new(states: u8, units: u8, program: u8, initial: &[i32]) -> SheetDraft {
        SheetDraft {
            front: Front::new(1, states, units, program, initial),
            ..SheetDraft::default()
        }
    }

    pub fn condition(&mut self, condition: &Condition) -> u8 {
        self.front.condition(condition)
    }

    pub fn action(&mut self, action: &Action) -> u8 {
        self.front.action(action)
    }

    /// Adds a transition: states, what triggers it, its condition and action.
    pub fn transition(&mut self, from: u8, to: u8, on: (Kind, u8), condition: u8, action: u8) {
        let (kind, unit) = on;
        self.transitions
            .push([from, kind.byte(), unit, condition, action, to]);
    }

    pub fn triple(&mut self, state: u8, unit: u8, precondition: u8, postcondition: u8) {
        self.triples
            .push([state, unit, precondition, postcondition]);
    }

    /// Counted from the front.
    pub fn places(&self) -> Places {
        let transitions = self.front.length();
        Places {
            transitions,
            last: transitions + self.transitions.concat().len(),
        }
    }

    pub fn bytes(&self) -> Vec<u8> {
        let mut out = self.front.write(self.transitions.len(), self.triples.len());
        out.extend(self.transitions.concat());
        out.extend(self.triples.concat());
        set_length(&mut out);
        out
    }
}

/// A transition's six bytes and its pairs.
pub type CreatingDraft = ([u8; 6], Vec<[u8; 2]>);

#[derive(Clone, Debug, Default, PartialEq, Eq)]
pub struct NetworkDraft {
    pub front: Front,
    pub transitions: Vec<CreatingDraft>,
    pub templates: Vec<[u8; 2]>,
}

impl NetworkDraft {
    /// An empty network of version 2 with these counts, starting in state 0.
    pub fn new(states: u8, units: u8, program: u8, initial: &[i32]) -> NetworkDraft {
        NetworkDraft {
            front: Front::new(2, states, units, program, initial),
            ..NetworkDraft::default()
        }
    }

    /// The same tables, written as version 3.
    pub fn in_version_3(mut self) -> NetworkDraft {
        (self.front.version, self.front.wide) = (3, true);
        self
    }

    /// Adds a transition: its six bytes and its pairs.
    pub fn creating(&mut self, bytes: [u8; 6], pairs: &[[u8; 2]]) {
        self.transitions.push((bytes, pairs.to_vec()));
    }

    /// Counted from the front.
    pub fn places(&self) -> Places {
        let transitions = self.front.length();
        let lengths = self.transitions.iter();
        let lengths = lengths.map(|(bytes, pairs)| bytes.len() + 1 + 2 * pairs.len());
        Places {
            transitions,
            last: transitions + lengths.sum::<usize>(),
        }
    }

    pub fn bytes(&self) -> Vec<u8> {
        let mut out = self
            .front
            .write(self.transitions.len(), self.templates.len());
        for (transition, pairs) in &self.transitions {
            out.extend(transition);
            out.push(pairs.len() as u8);
            out.extend(pairs.concat());
        }
        out.extend(self.templates.concat());
        set_length(&mut out);
        out
    }
}
