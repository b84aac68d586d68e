//! Rule sheets: reading and writing.

use crate::implementation::machine::{
    self, below, Cutter, Layout, Machine, Places, Role, Transition,
};
use crate::implementation::refusal::Refusal;

pub const LONGEST_SHEET: usize = 6_782;
const MOST_TOGETHER: usize = 4;

const LAYOUT: Layout = Layout {
    version: 1,
    most_conditions: 64,
    most_actions: 32,
    most_transitions: 64,
    most_last: 32,
    conditions: machine::SHORT_CONDITIONS,
};

#[derive(Clone, Copy, Debug, PartialEq, Eq)]
pub struct Triple {
    pub state: u8,
    pub unit: u8,
    pub precondition: u8,
    pub postcondition: u8,
}

#[derive(Clone, Debug, PartialEq, Eq)]
pub struct Sheet {
    pub machine: Machine,
    pub transitions: Vec<Transition>,
    pub triples: Vec<Triple>,
}

impl Sheet {
    /// Reads a sheet, or gives the first refusal of 1-8 that applies.
    pub fn read(bytes: &[u8]) -> Result<Sheet, Refusal> {
        let (header, counts) = machine::read_header(bytes, &LAYOUT)?;
        let mut cutter = Cutter::after_header(bytes);
        let front = machine::cut_front(&mut cutter, &header, &counts, LAYOUT.conditions)?;
        let transitions = machine::times(counts.transitions, || cutter.take(6))?;
        let triples = machine::times(counts.last, || cutter.take(4))?;
        cutter.end()?;
        let machine = machine::read_expressions(header, front)?;
        let transitions = transitions
            .iter()
            .map(|raw| machine::read_transition(raw, &machine));
        let transitions = transitions.collect::<Result<_, _>>()?;
        let triples = triples.iter().map(|raw| read_triple(raw, &machine));
        let triples = triples.collect::<Result<_, _>>()?;
        let sheet = Sheet {
            machine,
            transitions,
            triples,
        };
        machine::check_roles(&sheet.machine, &sheet.roles())?;
        sheet.check_crowding()?;
        Ok(sheet)
    }

    pub fn bytes(&self) -> Vec<u8> {
        let (transitions, triples) = (self.transitions.len(), self.triples.len());
        let mut out = self.machine.write(&LAYOUT, transitions, triples);
        for transition in &self.transitions {
            out.extend(transition.bytes());
        }
        for t in &self.triples {
            out.extend([t.state, t.unit, t.precondition, t.postcondition]);
        }
        machine::set_length(&mut out);
        out
    }

    /// Counted back from the end, where the last table ends.
    pub fn places(&self) -> Places {
        let last = self.bytes().len() - 4 * self.triples.len();
        Places {
            transitions: last - 6 * self.transitions.len(),
            last,
        }
    }

    /// The numbers of the triples of a state and unit, rising.
    pub fn triples_of(&self, state: u8, unit: u8) -> Vec<u8> {
        let numbered = self.triples.iter().zip(0u8..);
        numbered
            .filter(|(t, _)| t.state == state && t.unit == unit)
            .map(|(_, number)| number)
            .collect()
    }

    fn roles(&self) -> Vec<(u8, Role)> {
        let guards = self.transitions.iter().map(|t| (t.condition, Role::Guard));
        let pre = self
            .triples
            .iter()
            .map(|t| (t.precondition, Role::Precondition));
        let post = self
            .triples
            .iter()
            .map(|t| (t.postcondition, Role::Postcondition));
        guards.chain(pre).chain(post).collect()
    }

    fn check_crowding(&self) -> Result<(), Refusal> {
        let crowded = |t: &Triple| self.triples_of(t.state, t.unit).len() > MOST_TOGETHER;
        if self.triples.iter().any(crowded) {
            return Err(Refusal::Crowded);
        }
        Ok(())
    }
}

fn read_triple(raw: &[u8], machine: &Machine) -> Result<Triple, Refusal> {
    let &[state, unit, precondition, postcondition] = raw else {
        return Err(Refusal::Reference);
    };
    Ok(Triple {
        state: below(state, machine.header.states)?,
        unit: below(unit, machine.header.units)?,
        precondition: below(precondition, machine.conditions.len())?,
        postcondition: below(postcondition, machine.conditions.len())?,
    })
}
