//! Translating a sheet into a network, in either version.

use crate::implementation::expr::{Action, Condition, LONGEST_ALONE};
use crate::implementation::machine::{Kind, Transition};
use crate::implementation::network::{Creating, Network, Pair, Template, Version};
use crate::implementation::refusal::Refusal;
use crate::implementation::sheet::{Sheet, Triple};

/// A buffer of this length holds the version 2 network of any accepted sheet.
pub const BUFFER: usize = 8_192;
/// A buffer of this length holds any network that two bytes of length allow.
pub const CARD_BUFFER: usize = 65_535;

impl Sheet {
    pub fn translate(&self) -> Network {
        let mut machine = self.machine.clone();
        let always = machine.conditions.len() as u8;
        let nothing = machine.actions.len() as u8;
        machine.conditions.push(Condition::True);
        machine.actions.push(Action::default());
        let mut transitions: Vec<Creating> = self
            .transitions
            .iter()
            .map(|t| self.with_pairs(*t))
            .collect();
        for (state, unit) in self.places_with_triples() {
            transitions.push(self.with_pairs(Transition {
                from: state,
                kind: Kind::Entry,
                unit,
                condition: always,
                action: nothing,
                to: state,
            }));
        }
        Network {
            version: Version::Two,
            machine,
            transitions,
            templates: self.triples.iter().map(template).collect(),
        }
    }

    fn with_pairs(&self, transition: Transition) -> Creating {
        let numbers = match transition.kind {
            Kind::Entry => self.triples_of(transition.from, transition.unit),
            Kind::Exit => Vec::new(),
        };
        let pair = |number: u8| Pair {
            condition: self.triples[usize::from(number)].precondition,
            template: number,
        };
        Creating {
            transition,
            pairs: numbers.into_iter().map(pair).collect(),
        }
    }

    /// The pairs of state and unit that have triples, by state and then unit, each once.
    fn places_with_triples(&self) -> Vec<(u8, u8)> {
        let mut places: Vec<(u8, u8)> = self.triples.iter().map(|t| (t.state, t.unit)).collect();
        places.sort_unstable();
        places.dedup();
        places
    }
}

fn template(triple: &Triple) -> Template {
    Template {
        unit: triple.unit,
        postcondition: triple.postcondition,
    }
}

// ---- Version 3 --------------------------------------------------------------------------------

impl Network {
    /// This network in version 3: each transition has a new condition, which holds where its old
    /// one does and none of the earlier transitions' for the same state, kind and unit.
    pub fn separated(&self) -> Network {
        let mut network = self.clone();
        network.version = Version::Three;
        for place in 0..self.transitions.len() {
            let number = network.machine.conditions.len() as u8;
            network.transitions[place].transition.condition = number;
            network.machine.conditions.push(self.joined(place));
        }
        network
    }

    /// For each earlier rival in order `and not` its condition, then the transition's own.
    fn joined(&self, place: usize) -> Condition {
        let (earlier, own) = (&self.transitions[..place], &self.transitions[place]);
        let rivals = earlier.iter().filter(|one| are_rivals(one, own));
        let own = self.old_condition(own);
        rivals.rev().fold(own, |rest, rival| {
            let fails = Condition::Not(Box::new(self.old_condition(rival)));
            Condition::And(Box::new(fails), Box::new(rest))
        })
    }

    fn old_condition(&self, creating: &Creating) -> Condition {
        self.machine.conditions[usize::from(creating.transition.condition)].clone()
    }

    /// Refusal 21.
    fn check_lengths(&self) -> Result<(), Refusal> {
        let mut conditions = self.machine.conditions.iter();
        if conditions.any(|c| c.bytes().len() > LONGEST_ALONE) || self.bytes().len() > CARD_BUFFER {
            return Err(Refusal::TooLong);
        }
        Ok(())
    }
}

/// Whether two transitions have the same state, kind and unit.
fn are_rivals(one: &Creating, other: &Creating) -> bool {
    let place = |t: &Transition| (t.from, t.kind, t.unit);
    place(&one.transition) == place(&other.transition)
}

// ---- From bytes -------------------------------------------------------------------------------

/// Writes the version 2 network at the front of the buffer and gives its length: refusals 1-8, 19.
pub fn translate(sheet: &[u8], buffer: &mut [u8]) -> Result<usize, Refusal> {
    put(&Sheet::read(sheet)?.translate(), buffer)
}

/// Writes the version 3 network at the front of the buffer and gives its length: refusals 1-8, then
/// 21, then 19.
pub fn translate_card(sheet: &[u8], buffer: &mut [u8]) -> Result<usize, Refusal> {
    let network = Sheet::read(sheet)?.translate().separated();
    network.check_lengths()?;
    put(&network, buffer)
}

/// The version 2 or version 3 network, as above.
pub fn translate_to(version: Version, sheet: &[u8], buffer: &mut [u8]) -> Result<usize, Refusal> {
    match version {
        Version::Two => translate(sheet, buffer),
        Version::Three => translate_card(sheet, buffer),
    }
}

fn put(network: &Network, buffer: &mut [u8]) -> Result<usize, Refusal> {
    let bytes = network.bytes();
    let front = buffer.get_mut(..bytes.len()).ok_or(Refusal::Buffer)?;
    front.copy_from_slice(&bytes);
    Ok(bytes.len())
}
