//! Networks: reading and writing, in either version.

use crate::implementation::machine::{
    self, below, Cutter, Kind, Layout, Machine, Places, Role, Transition,
};
use crate::implementation::refusal::Refusal;

/// Of version 2.
pub const LONGEST_NETWORK: usize = 7_904;
const MOST_PAIRS: u8 = 4;

const VERSION_2: Layout = Layout {
    version: 2,
    most_conditions: 65,
    most_actions: 33,
    most_transitions: 96,
    most_last: 32,
    conditions: machine::SHORT_CONDITIONS,
};

/// A condition for each transition besides those of version 2, and longer ones.
const VERSION_3: Layout = Layout {
    version: 3,
    most_conditions: VERSION_2.most_conditions + VERSION_2.most_transitions,
    conditions: machine::LONG_CONDITIONS,
    ..VERSION_2
};

#[derive(Clone, Copy, Debug, PartialEq, Eq, Hash)]
pub enum Version {
    Two,
    Three,
}

impl Version {
    pub fn from_byte(byte: u8) -> Option<Version> {
        match byte {
            2 => Some(Version::Two),
            3 => Some(Version::Three),
            _ => None,
        }
    }

    pub fn byte(self) -> u8 {
        self.layout().version
    }

    fn layout(self) -> &'static Layout {
        match self {
            Version::Two => &VERSION_2,
            Version::Three => &VERSION_3,
        }
    }
}

/// A checker is created from the template where the condition holds at a taken entry.
#[derive(Clone, Copy, Debug, PartialEq, Eq)]
pub struct Pair {
    pub condition: u8,
    pub template: u8,
}

#[derive(Clone, Debug, PartialEq, Eq)]
pub struct Creating {
    pub transition: Transition,
    pub pairs: Vec<Pair>,
}

#[derive(Clone, Copy, Debug, PartialEq, Eq)]
pub struct Template {
    pub unit: u8,
    pub postcondition: u8,
}

#[derive(Clone, Debug, PartialEq, Eq)]
pub struct Network {
    pub version: Version,
    pub machine: Machine,
    pub transitions: Vec<Creating>,
    pub templates: Vec<Template>,
}

impl Network {
    /// Reads a network, or gives the first refusal of 1-7 that applies.
    pub fn read(bytes: &[u8]) -> Result<Network, Refusal> {
        // With another byte it is refused 1 or 2 in either version.
        let version = bytes.get(2).and_then(|byte| Version::from_byte(*byte));
        let version = version.unwrap_or(Version::Two);
        let layout = version.layout();
        let (header, counts) = machine::read_header(bytes, layout)?;
        let mut cutter = Cutter::after_header(bytes);
        let front = machine::cut_front(&mut cutter, &header, &counts, layout.conditions)?;
        let transitions = machine::times(counts.transitions, || cut_transition(&mut cutter))?;
        let templates = machine::times(counts.last, || cutter.take(2))?;
        cutter.end()?;
        let machine = machine::read_expressions(header, front)?;
        let templates = templates.iter().map(|raw| read_template(raw, &machine));
        let templates: Vec<Template> = templates.collect::<Result<_, _>>()?;
        let transitions = transitions.iter();
        let transitions = transitions.map(|raw| read_creating(raw, &machine, &templates));
        let transitions = transitions.collect::<Result<_, _>>()?;
        let network = Network {
            version,
            machine,
            transitions,
            templates,
        };
        machine::check_roles(&network.machine, &network.roles())?;
        Ok(network)
    }

    pub fn bytes(&self) -> Vec<u8> {
        let (transitions, templates) = (self.transitions.len(), self.templates.len());
        let mut out = self
            .machine
            .write(self.version.layout(), transitions, templates);
        for creating in &self.transitions {
            out.extend(creating.transition.bytes());
            out.push(creating.pairs.len() as u8);
            for pair in &creating.pairs {
                out.extend([pair.condition, pair.template]);
            }
        }
        for template in &self.templates {
            out.extend([template.unit, template.postcondition]);
        }
        machine::set_length(&mut out);
        out
    }

    /// Counted back from the end, where the last table ends.
    pub fn places(&self) -> Places {
        let last = self.bytes().len() - 2 * self.templates.len();
        let lengths = self.transitions.iter().map(|t| 7 + 2 * t.pairs.len());
        Places {
            transitions: last - lengths.sum::<usize>(),
            last,
        }
    }

    fn roles(&self) -> Vec<(u8, Role)> {
        let mut roles = Vec::new();
        for creating in &self.transitions {
            roles.push((creating.transition.condition, Role::Guard));
            let pairs = creating.pairs.iter();
            roles.extend(pairs.map(|p| (p.condition, Role::Precondition)));
        }
        let templates = self.templates.iter();
        roles.extend(templates.map(|t| (t.postcondition, Role::Postcondition)));
        roles
    }
}

/// A transition as cut: its six bytes and its pairs' bytes.
struct RawCreating<'a> {
    transition: &'a [u8],
    pairs: &'a [u8],
}

fn cut_transition<'a>(cutter: &mut Cutter<'a>) -> Result<RawCreating<'a>, Refusal> {
    let transition = cutter.take(6)?;
    let count = cutter.byte()?;
    if count > MOST_PAIRS {
        return Err(Refusal::Tables);
    }
    let pairs = cutter.take(2 * usize::from(count))?;
    Ok(RawCreating { transition, pairs })
}

fn read_template(raw: &[u8], machine: &Machine) -> Result<Template, Refusal> {
    let &[unit, postcondition] = raw else {
        return Err(Refusal::Reference);
    };
    Ok(Template {
        unit: below(unit, machine.header.units)?,
        postcondition: below(postcondition, machine.conditions.len())?,
    })
}

fn read_creating(
    raw: &RawCreating,
    machine: &Machine,
    templates: &[Template],
) -> Result<Creating, Refusal> {
    let transition = machine::read_transition(raw.transition, machine)?;
    if transition.kind == Kind::Exit && !raw.pairs.is_empty() {
        return Err(Refusal::Reference);
    }
    let pairs = raw.pairs.chunks_exact(2);
    let pairs = pairs.map(|pair| read_pair(pair[0], pair[1], transition.unit, machine, templates));
    Ok(Creating {
        transition,
        pairs: pairs.collect::<Result<_, _>>()?,
    })
}

fn read_pair(
    condition: u8,
    template: u8,
    unit: u8,
    machine: &Machine,
    templates: &[Template],
) -> Result<Pair, Refusal> {
    below(condition, machine.conditions.len())?;
    let named = templates
        .get(usize::from(template))
        .ok_or(Refusal::Reference)?;
    if named.unit != unit {
        return Err(Refusal::Reference);
    }
    Ok(Pair {
        condition,
        template,
    })
}
