//! What sheets and networks have in common: header, tables of conditions and actions, transitions,
//! and the first steps of reading them.

use crate::implementation::expr::{self, Action, Condition, Counts, Holds, Lent};
use crate::implementation::refusal::Refusal;

pub const HEADER_LENGTH: usize = 14;
pub const MOST_STATES: u8 = 16;
pub const MOST_UNITS: u8 = 16;
pub const MOST_PROGRAM: u8 = 8;
pub const MOST_MONITOR: u8 = 4;

#[derive(Clone, Copy, Debug, PartialEq, Eq)]
pub enum Kind {
    Entry,
    Exit,
}

impl Kind {
    pub fn from_byte(byte: u8) -> Option<Kind> {
        match byte {
            0 => Some(Kind::Entry),
            1 => Some(Kind::Exit),
            _ => None,
        }
    }

    pub fn byte(self) -> u8 {
        match self {
            Kind::Entry => 0,
            Kind::Exit => 1,
        }
    }
}

#[derive(Clone, Copy, Debug, PartialEq, Eq)]
pub struct Transition {
    pub from: u8,
    pub kind: Kind,
    pub unit: u8,
    pub condition: u8,
    pub action: u8,
    pub to: u8,
}

impl Transition {
    pub fn bytes(&self) -> [u8; 6] {
        let kind = self.kind.byte();
        [
            self.from,
            kind,
            self.unit,
            self.condition,
            self.action,
            self.to,
        ]
    }
}

#[derive(Clone, Copy, Debug, PartialEq, Eq)]
pub struct Header {
    pub states: u8,
    pub units: u8,
    pub program: u8,
    pub monitor: u8,
    pub start: u8,
    pub bad: u16,
}

impl Header {
    pub fn is_bad(&self, state: u8) -> bool {
        state < MOST_STATES && self.bad & (1 << state) != 0
    }
}

/// The header, the initial values and the tables of expressions.
#[derive(Clone, Debug, PartialEq, Eq)]
pub struct Machine {
    pub header: Header,
    pub initial: Vec<i32>,
    pub conditions: Vec<Condition>,
    pub actions: Vec<Action>,
}

impl Machine {
    pub fn condition_holds(&self, number: u8, lent: &Lent) -> bool {
        self.evaluate_condition(number, lent, &mut 0)
    }

    /// Whether the condition of this number holds; what its evaluation reaches is added to the count.
    pub fn evaluate_condition(&self, number: u8, lent: &Lent, count: &mut u64) -> bool {
        let condition = self.conditions.get(usize::from(number));
        condition.is_some_and(|c| c.evaluate(lent, count))
    }

    /// The version, the counts and the tables that sheets and networks share.
    pub fn write(&self, layout: &Layout, transitions: usize, last: usize) -> Vec<u8> {
        let h = &self.header;
        let mut out = vec![0, 0, layout.version];
        out.extend([h.states, h.units, h.program, h.monitor, h.start]);
        out.extend(h.bad.to_be_bytes());
        for count in [self.conditions.len(), self.actions.len(), transitions, last] {
            out.push(count as u8);
        }
        for value in &self.initial {
            out.extend(value.to_be_bytes());
        }
        for condition in &self.conditions {
            write_counted(&condition.bytes(), layout.conditions.width, &mut out);
        }
        for action in &self.actions {
            write_counted(&action.bytes(), ACTIONS.width, &mut out);
        }
        out
    }
}

/// The bytes behind their length, which takes `width` bytes.
pub fn write_counted(bytes: &[u8], width: usize, out: &mut Vec<u8>) {
    let length = bytes.len().to_be_bytes();
    out.extend_from_slice(&length[length.len() - width..]);
    out.extend_from_slice(bytes);
}

/// Where tables begin, in bytes from 0.
#[derive(Clone, Copy, Debug, PartialEq, Eq)]
pub struct Places {
    pub transitions: usize,
    /// Triples or templates.
    pub last: usize,
}

/// Writes the length of the whole into its first two bytes.
pub fn set_length(bytes: &mut [u8]) {
    let length = (bytes.len() as u16).to_be_bytes();
    for (place, byte) in bytes.iter_mut().zip(length) {
        *place = byte;
    }
}

// ---- Reading ----------------------------------------------------------------------------------

/// How the lengths in a table are written, and between what they are.
#[derive(Clone, Copy, Debug, PartialEq, Eq)]
pub struct Lengths {
    /// In bytes.
    pub width: usize,
    pub least: usize,
    pub most: usize,
}

pub const SHORT_CONDITIONS: Lengths = Lengths {
    width: 1,
    least: 1,
    most: expr::LONGEST,
};
pub const LONG_CONDITIONS: Lengths = Lengths {
    width: 2,
    least: 1,
    most: expr::LONGEST_ALONE,
};
const ACTIONS: Lengths = Lengths {
    width: 1,
    least: 0,
    most: expr::LONGEST,
};

/// What differs between sheets and the versions of networks before the transitions.
pub struct Layout {
    pub version: u8,
    pub most_conditions: u8,
    pub most_actions: u8,
    pub most_transitions: u8,
    /// Triples or templates.
    pub most_last: u8,
    pub conditions: Lengths,
}

/// The counts that stand in the header, in its order.
#[derive(Clone, Copy, Debug, PartialEq, Eq)]
pub struct TableCounts {
    pub conditions: usize,
    pub actions: usize,
    pub transitions: usize,
    pub last: usize,
}

/// Refusals 1, 2 and 3.
pub fn read_header(bytes: &[u8], layout: &Layout) -> Result<(Header, TableCounts), Refusal> {
    if bytes.len() < HEADER_LENGTH {
        return Err(Refusal::Length);
    }
    if usize::from(u16::from_be_bytes([bytes[0], bytes[1]])) != bytes.len() {
        return Err(Refusal::Length);
    }
    if bytes[2] != layout.version {
        return Err(Refusal::Version);
    }
    let header = Header {
        states: bytes[3],
        units: bytes[4],
        program: bytes[5],
        monitor: bytes[6],
        start: bytes[7],
        bad: u16::from_be_bytes([bytes[8], bytes[9]]),
    };
    let counts = [bytes[10], bytes[11], bytes[12], bytes[13]];
    if !header_in_range(&header) || !counts_in_range(counts, layout) {
        return Err(Refusal::Header);
    }
    let [conditions, actions, transitions, last] = counts.map(usize::from);
    let counts = TableCounts {
        conditions,
        actions,
        transitions,
        last,
    };
    Ok((header, counts))
}

fn header_in_range(h: &Header) -> bool {
    let counts = (1..=MOST_STATES).contains(&h.states)
        && (1..=MOST_UNITS).contains(&h.units)
        && h.program <= MOST_PROGRAM
        && h.monitor <= MOST_MONITOR;
    // In 32 bits, so that 16 states leave no bit over and do not overflow the shift.
    let no_stray_bit = counts && u32::from(h.bad) >> h.states == 0;
    no_stray_bit && h.start < h.states && !h.is_bad(h.start)
}

fn counts_in_range(counts: [u8; 4], layout: &Layout) -> bool {
    counts[0] <= layout.most_conditions
        && counts[1] <= layout.most_actions
        && counts[2] <= layout.most_transitions
        && counts[3] <= layout.most_last
}

/// Cuts the tables; running out of bytes is refusal 4.
pub struct Cutter<'a> {
    rest: &'a [u8],
}

impl<'a> Cutter<'a> {
    pub fn after_header(bytes: &'a [u8]) -> Cutter<'a> {
        Cutter {
            rest: bytes.get(HEADER_LENGTH..).unwrap_or(&[]),
        }
    }

    pub fn take(&mut self, count: usize) -> Result<&'a [u8], Refusal> {
        if count > self.rest.len() {
            return Err(Refusal::Tables);
        }
        let (front, back) = self.rest.split_at(count);
        self.rest = back;
        Ok(front)
    }

    pub fn byte(&mut self) -> Result<u8, Refusal> {
        Ok(self.take(1)?[0])
    }

    pub fn word(&mut self) -> Result<i32, Refusal> {
        let bytes = self.take(4)?;
        Ok(i32::from_be_bytes([bytes[0], bytes[1], bytes[2], bytes[3]]))
    }

    /// Bytes behind their length.
    fn counted(&mut self, lengths: Lengths) -> Result<&'a [u8], Refusal> {
        let digits = self.take(lengths.width)?.iter();
        let length = digits.fold(0, |length, digit| 256 * length + usize::from(*digit));
        if length < lengths.least || length > lengths.most {
            return Err(Refusal::Tables);
        }
        self.take(length)
    }

    pub fn end(&self) -> Result<(), Refusal> {
        if self.rest.is_empty() {
            Ok(())
        } else {
            Err(Refusal::Tables)
        }
    }
}

/// The front tables, cut but not yet judged by the grammar.
pub struct FrontTables<'a> {
    initial: Vec<i32>,
    conditions: Vec<&'a [u8]>,
    actions: Vec<&'a [u8]>,
}

pub fn cut_front<'a>(
    cutter: &mut Cutter<'a>,
    header: &Header,
    counts: &TableCounts,
    conditions: Lengths,
) -> Result<FrontTables<'a>, Refusal> {
    Ok(FrontTables {
        initial: times(header.monitor.into(), || cutter.word())?,
        conditions: times(counts.conditions, || cutter.counted(conditions))?,
        actions: times(counts.actions, || cutter.counted(ACTIONS))?,
    })
}

pub fn times<T>(
    count: usize,
    mut one: impl FnMut() -> Result<T, Refusal>,
) -> Result<Vec<T>, Refusal> {
    (0..count).map(|_| one()).collect()
}

/// Refusal 5, for every condition and action, used or not.
pub fn read_expressions(header: Header, front: FrontTables) -> Result<Machine, Refusal> {
    let counts = Counts {
        program: header.program.into(),
        monitor: header.monitor.into(),
        kept: header.program.into(),
    };
    let conditions = front.conditions.iter();
    let actions = front.actions.iter();
    Ok(Machine {
        header,
        initial: front.initial,
        conditions: conditions
            .map(|bytes| expr::read_condition(bytes, counts))
            .collect::<Result<_, _>>()?,
        actions: actions
            .map(|bytes| expr::read_action(bytes, counts))
            .collect::<Result<_, _>>()?,
    })
}

/// Refusal 6 where a number is not below its count.
pub fn below(number: u8, count: impl Into<usize>) -> Result<u8, Refusal> {
    if usize::from(number) < count.into() {
        Ok(number)
    } else {
        Err(Refusal::Reference)
    }
}

/// The six bytes of a transition, with refusal 6.
pub fn read_transition(raw: &[u8], machine: &Machine) -> Result<Transition, Refusal> {
    let &[from, kind, unit, condition, action, to] = raw else {
        return Err(Refusal::Reference);
    };
    let header = &machine.header;
    Ok(Transition {
        from: below(from, header.states)?,
        kind: Kind::from_byte(kind).ok_or(Refusal::Reference)?,
        unit: below(unit, header.units)?,
        condition: below(condition, machine.conditions.len())?,
        action: below(action, machine.actions.len())?,
        to: below(to, header.states)?,
    })
}

// ---- Roles (refusal 7) ------------------------------------------------------------------------

/// The role in which something names a condition.
#[derive(Clone, Copy, Debug, PartialEq, Eq)]
pub enum Role {
    Guard,
    Precondition,
    Postcondition,
}

/// Document 02, slip 13: a precondition may name monitor variables, as a guard may.
fn fits(role: Role, holds: Holds) -> bool {
    match role {
        Role::Guard | Role::Precondition => !holds.at_entry,
        Role::Postcondition => !holds.monitor,
    }
}

/// Refusal 7: every action, and every condition for each role in which it is named.
pub fn check_roles(machine: &Machine, named: &[(u8, Role)]) -> Result<(), Refusal> {
    let actions_fit = machine.actions.iter().all(|a| !a.mentions().at_entry);
    let condition_fits = |(number, role): &(u8, Role)| {
        let condition = machine.conditions.get(usize::from(*number));
        condition.is_some_and(|c| fits(*role, c.mentions()))
    };
    if actions_fit && named.iter().all(condition_fits) {
        Ok(())
    } else {
        Err(Refusal::Role)
    }
}
