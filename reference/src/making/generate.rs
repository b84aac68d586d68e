//! Random sheets, networks, logs and states from a seed: sound ones, and ones broken on purpose.

use crate::implementation::expr::{Action, Condition, Counts, Value, LONGEST, LONGEST_ALONE};
use crate::implementation::machine::Kind;
use crate::implementation::network::Network;
use crate::implementation::run::{write_log, Record};
use crate::implementation::sheet::Sheet;
use crate::making::draft::{NetworkDraft, SheetDraft};
use crate::making::random::Random;
use crate::making::random_counts;
use crate::making::random_ends;
use crate::making::random_expr::{self, Taste};
use crate::making::wide;

/// How large a sheet is to be.
#[derive(Clone, Copy, Debug, PartialEq, Eq)]
pub enum Size {
    /// Few of everything, sometimes none.
    Small,
    /// Anything up to the limits.
    Any,
    /// Every count and every length at its limit.
    Full,
}

// ---- Sheets -----------------------------------------------------------------------------------

/// Which conditions may stand in which role.
#[derive(Default)]
struct Pool {
    /// Guards and preconditions.
    before: Vec<u8>,
    postconditions: Vec<u8>,
}

/// A sheet that is accepted.
pub fn sheet(random: &mut Random, size: Size) -> SheetDraft {
    let mut draft = header(random, size);
    let pool = add_conditions(random, size, &mut draft);
    add_actions(random, size, &mut draft);
    add_transitions(random, size, &pool, &mut draft);
    add_triples(random, size, &pool, &mut draft);
    draft
}

/// A count from `least` to `most`, as the size asks.
fn count(random: &mut Random, size: Size, least: usize, small: usize, most: usize) -> usize {
    match size {
        Size::Small => random.between(least, small),
        Size::Any => random.between(least, most),
        Size::Full => most,
    }
}

/// A number below `limit`, mostly one of the first few, so that rules and events meet.
fn near(random: &mut Random, limit: u8) -> u8 {
    let limit = usize::from(limit);
    let number = match random.below(8) {
        0 => limit.saturating_sub(1),
        1 => random.below(limit),
        _ => random.below(limit.min(3)),
    };
    number as u8
}

fn header(random: &mut Random, size: Size) -> SheetDraft {
    let states = count(random, size, 1, 4, 16) as u8;
    let units = count(random, size, 1, 3, 16) as u8;
    let program = count(random, size, 0, 3, 8) as u8;
    let monitor = count(random, size, 0, 2, 4);
    let mut draft = SheetDraft::new(states, units, program, &random.words(monitor));
    draft.front.start = near(random, states);
    let rarely = random.between(2, 8);
    for state in 0..states {
        if state != draft.front.start && random.chance(1, rarely) {
            draft.front.bad |= 1 << state;
        }
    }
    draft
}

fn counts_of(draft: &SheetDraft) -> Counts {
    Counts {
        program: draft.front.program.into(),
        monitor: draft.front.monitor.into(),
        kept: draft.front.program.into(),
    }
}

fn add_conditions(random: &mut Random, size: Size, draft: &mut SheetDraft) -> Pool {
    let mut pool = Pool::default();
    for number in 0..count(random, size, 0, 8, 64) as u8 {
        let taste = Taste {
            counts: counts_of(draft),
            monitor: random.chance(1, 3),
            at_entry: random.chance(1, 3),
        };
        let mut condition = likely_condition(random, &taste);
        if size == Size::Full {
            condition = filled(condition);
        }
        let holds = condition.mentions();
        if !holds.at_entry {
            pool.before.push(number);
        }
        if !holds.monitor {
            pool.postconditions.push(number);
        }
        draft.condition(&condition);
    }
    pool
}

/// Often short and likely to go either way; otherwise any tree.
fn likely_condition(random: &mut Random, taste: &Taste) -> Condition {
    let room = random.pick(&[12, 24, LONGEST]);
    let leaf = |random: &mut Random| Box::new(leaf_value(random, taste));
    match random.below(8) {
        0 | 1 => Condition::True,
        2 => Condition::Less(leaf(random), leaf(random)),
        3 => Condition::Equal(leaf(random), leaf(random)),
        4 => Condition::Not(Box::new(Condition::Equal(leaf(random), leaf(random)))),
        5 => Condition::Within(leaf(random), leaf(random), leaf(random)),
        _ => random_expr::condition(random, room, taste),
    }
}

fn leaf_value(random: &mut Random, taste: &Taste) -> Value {
    // With this room a value is a leaf.
    random_expr::value(random, 5, taste)
}

/// The condition with `not` in front until it has 64 bytes.
fn filled(condition: Condition) -> Condition {
    let missing = LONGEST.saturating_sub(condition.bytes().len());
    (0..missing).fold(condition, |inner, _| Condition::Not(Box::new(inner)))
}

fn add_actions(random: &mut Random, size: Size, draft: &mut SheetDraft) {
    let taste = Taste {
        counts: counts_of(draft),
        monitor: true,
        at_entry: false,
    };
    for _ in 0..count(random, size, 0, 4, 32) {
        if size == Size::Full {
            let action = random_expr::action(random, LONGEST - 14, &taste);
            draft.front.actions.push(filled_action(&action));
        } else {
            let room = random.pick(&[0, 8, 20, LONGEST]);
            draft.action(&random_expr::action(random, room, &taste));
        }
    }
}

/// The action with assignments of variable 0 to itself, of 7 and 3 bytes, up to 64 bytes.
fn filled_action(action: &Action) -> Vec<u8> {
    let mut bytes = action.bytes();
    while !(LONGEST - bytes.len()).is_multiple_of(3) {
        bytes.extend([0, 22, 0, 18, 0, 18, 0]);
    }
    while bytes.len() < LONGEST {
        bytes.extend([0, 18, 0]);
    }
    bytes
}

fn add_transitions(random: &mut Random, size: Size, pool: &Pool, draft: &mut SheetDraft) {
    let actions = draft.front.actions.len();
    if pool.before.is_empty() || actions == 0 {
        return;
    }
    for _ in 0..count(random, size, 0, 10, 64) {
        let kind = random.below(2) as u8;
        let transition = [
            near(random, draft.front.states),
            kind,
            near(random, draft.front.units),
            random.pick(&pool.before),
            random.below(actions) as u8,
            target(random, kind, draft),
        ];
        draft.transitions.push(transition);
    }
}

/// Where a transition leads: bad states are favoured by exits and mostly avoided by entries, so
/// that runs last until an exit and some verdicts have two causes.
fn target(random: &mut Random, kind: u8, draft: &SheetDraft) -> u8 {
    let states = draft.front.states;
    let bad = |state: &u8| draft.front.bad & (1 << state) != 0;
    let favoured: Vec<u8> = match Kind::from_byte(kind) {
        Some(Kind::Exit) => (0..states).filter(bad).collect(),
        _ => (0..states).filter(|state| !bad(state)).collect(),
    };
    if favoured.is_empty() || random.chance(1, 3) {
        near(random, states)
    } else {
        random.pick(&favoured)
    }
}

fn add_triples(random: &mut Random, size: Size, pool: &Pool, draft: &mut SheetDraft) {
    if pool.before.is_empty() || pool.postconditions.is_empty() {
        return;
    }
    let wanted = count(random, size, 0, 6, 32);
    // Many tries meet a state and unit that have four already.
    for _ in 0..40 * wanted {
        let state = near(random, draft.front.states);
        let unit = near(random, draft.front.units);
        let together = draft
            .triples
            .iter()
            .filter(|t| t[..2] == [state, unit])
            .count();
        if draft.triples.len() < wanted && together < 4 {
            let precondition = random.pick(&pool.before);
            draft.triple(state, unit, precondition, random.pick(&pool.postconditions));
        }
    }
}

// ---- Networks ---------------------------------------------------------------------------------

/// A network that no sheet need give: any pairs, the same template twice, several for a state.
pub fn network(random: &mut Random, size: Size) -> NetworkDraft {
    let base = sheet(random, size);
    network_like(random, base)
}

/// A network with a sheet's tables, and any pairs.
pub fn network_like(random: &mut Random, base: SheetDraft) -> NetworkDraft {
    let mut draft = NetworkDraft {
        front: base.front,
        transitions: Vec::new(),
        templates: base.triples.iter().map(|t| [t[1], t[3]]).collect(),
    };
    draft.front.version = 2;
    let preconditions: Vec<u8> = base.triples.iter().map(|t| t[2]).collect();
    for transition in base.transitions {
        let pairs = any_pairs(random, transition, &preconditions, &draft.templates);
        draft.transitions.push((transition, pairs));
    }
    draft
}

fn any_pairs(
    random: &mut Random,
    transition: [u8; 6],
    preconditions: &[u8],
    templates: &[[u8; 2]],
) -> Vec<[u8; 2]> {
    let unit = transition[2];
    let fitting = (0u8..)
        .zip(templates)
        .filter(|(_, template)| template[0] == unit);
    let fitting: Vec<u8> = fitting.map(|(number, _)| number).collect();
    if transition[1] != Kind::Entry.byte() || fitting.is_empty() {
        return Vec::new();
    }
    let pair = |random: &mut Random| [random.pick(preconditions), random.pick(&fitting)];
    (0..random.between(0, 4)).map(|_| pair(random)).collect()
}

/// The network in version 2 or in version 3.
fn in_any_version(random: &mut Random, draft: NetworkDraft) -> NetworkDraft {
    match random.below(2) {
        0 => draft,
        _ => lengthened(random, draft),
    }
}

/// The network in version 3, some of its conditions longer than version 2 allows: behind `and true`,
/// `or false` or `not not`, which leave their meaning as it is.
pub fn lengthened(random: &mut Random, draft: NetworkDraft) -> NetworkDraft {
    const FRONTS: [&[u8]; 3] = [&[2, 0], &[3, 1, 0], &[1, 1]];
    let mut draft = draft.in_version_3();
    for condition in &mut draft.front.conditions {
        if random.chance(1, 3) {
            let longest = random.pick(&[66, 80, 255, 256, 257, 300, LONGEST_ALONE]);
            let front = random.pick(&FRONTS);
            let times = longest.saturating_sub(condition.len()) / front.len();
            condition.splice(..0, front.repeat(times));
        }
    }
    draft
}

// ---- Logs -------------------------------------------------------------------------------------

/// What a log has to know of its sheet.
#[derive(Clone, Copy, Debug)]
pub struct Shape {
    pub units: u8,
    pub program: u8,
}

impl Shape {
    pub fn of(draft: &SheetDraft) -> Shape {
        Shape {
            units: draft.front.units,
            program: draft.front.program,
        }
    }
}

/// How a log goes: how often it breaks the rules, and how much it favours entries.
#[derive(Clone, Copy, Debug)]
pub struct Manner {
    /// One record in this many breaks a rule; 0 for none.
    pub breaks: usize,
    /// Entries in eight records, while there is a place.
    pub entries: usize,
}

impl Manner {
    pub fn any(random: &mut Random) -> Manner {
        Manner {
            breaks: random.pick(&[0, 0, 0, 60, 20]),
            entries: random.pick(&[3, 4, 5, 7, 8, 8]),
        }
    }
}

pub fn records(random: &mut Random, shape: Shape, manner: Manner, count: usize) -> Vec<Record> {
    let mut open: Vec<(u16, u8)> = Vec::new();
    let mut records = Vec::new();
    for _ in 0..count {
        let breaks = manner.breaks > 0 && random.chance(1, manner.breaks);
        let record = if breaks {
            breaking_record(random, shape, &open)
        } else {
            keeping_record(random, shape, manner, &mut open)
        };
        records.push(record);
    }
    records
}

fn values(random: &mut Random, shape: Shape) -> Vec<i32> {
    random.words(shape.program.into())
}

/// A call number that is not open: mostly from a few, so that numbers come again.
fn free_number(random: &mut Random, open: &[(u16, u8)]) -> u16 {
    loop {
        let number = match random.below(8) {
            0 => random.number() as u16,
            _ => random.below(40) as u16,
        };
        if open.iter().all(|(used, _)| *used != number) {
            return number;
        }
    }
}

fn keeping_record(
    random: &mut Random,
    shape: Shape,
    manner: Manner,
    open: &mut Vec<(u16, u8)>,
) -> Record {
    let enter = open.is_empty() || (open.len() < 16 && random.chance(manner.entries, 8));
    let (kind, (call, unit)) = if enter {
        let unit = near(random, shape.units);
        open.push((free_number(random, open), unit));
        (0, open[open.len() - 1])
    } else {
        (1, open.remove(random.below(open.len())))
    };
    Record {
        kind,
        unit,
        call,
        values: values(random, shape),
    }
}

/// A record that is refused where the earlier ones were all taken.
fn breaking_record(random: &mut Random, shape: Shape, open: &[(u16, u8)]) -> Record {
    let mut record = Record {
        kind: 0,
        unit: near(random, shape.units),
        call: free_number(random, open),
        values: values(random, shape),
    };
    // With 16 open this entry has no place.
    if open.len() == 16 && random.chance(1, 2) {
        return record;
    }
    let some_open = (!open.is_empty()).then(|| open[random.below(open.len())]);
    match (random.below(4), some_open) {
        (0, _) => record.kind = random.between(2, 255) as u8,
        (1, _) => record.unit = random.between(shape.units.into(), 255) as u8,
        (2, Some((call, _))) => record.call = call,
        (3, Some((call, unit))) if shape.units > 1 => {
            record.kind = 1;
            record.call = call;
            record.unit = (unit + 1) % shape.units;
        }
        _ => record.kind = 1,
    }
    record
}

// ---- Breaking on purpose ----------------------------------------------------------------------

/// Breaks a sheet in a way that one of the refusals 1-8 is for; others may come before it.
pub fn break_sheet(random: &mut Random, draft: &SheetDraft) -> Vec<u8> {
    let mut draft = draft.clone();
    match random.between(1, 8) {
        1 => return break_length(random, draft.bytes()),
        2 => draft.front.version = random.pick(&[0, 2, 3, 255]),
        3 => break_header(random, &mut draft),
        4 => return break_tables(random, &draft),
        5 => break_grammar(
            random,
            &mut draft.front.conditions,
            &mut draft.front.actions,
        ),
        6 => break_reference(random, &mut draft),
        7 => break_role(random, &mut draft),
        _ => break_crowding(random, &mut draft),
    }
    draft.bytes()
}

fn break_length(random: &mut Random, mut bytes: Vec<u8>) -> Vec<u8> {
    match random.below(4) {
        0 => bytes.truncate(random.below(14)),
        1 => bytes.truncate(random.below(bytes.len())),
        2 => bytes.push(0),
        _ => bytes[1] = bytes[1].wrapping_add(random.between(1, 255) as u8),
    }
    bytes
}

fn break_header(random: &mut Random, draft: &mut SheetDraft) {
    let front = &mut draft.front;
    match random.below(10) {
        0 => front.states = random.pick(&[0, 17, 255]),
        1 => front.units = random.pick(&[0, 17, 255]),
        2 => front.program = random.pick(&[9, 255]),
        3 => front.monitor = random.pick(&[5, 255]),
        4 => front.start = random.pick(&[front.states, 255]),
        5 => front.bad |= 1 << front.start,
        6 if front.states < 16 => front.bad |= 1 << front.states,
        7 => front.conditions.resize(65, vec![0]),
        8 => front.actions.resize(33, Vec::new()),
        _ => draft.transitions.resize(65, [0; 6]),
    }
}

/// Bytes added or cut with the length set right, or a length byte of 0 or over 64.
fn break_tables(random: &mut Random, draft: &SheetDraft) -> Vec<u8> {
    let mut bytes = draft.bytes();
    match random.below(3) {
        0 => bytes.push(random.byte()),
        1 if bytes.len() > 14 => bytes.truncate(random.between(14, bytes.len() - 1)),
        _ => {
            let first_length = 14 + 4 * draft.front.initial.len();
            match bytes.get_mut(first_length) {
                Some(byte) => *byte = random.pick(&[0, 65, 255]),
                None => bytes.push(0),
            }
        }
    }
    crate::implementation::machine::set_length(&mut bytes);
    bytes
}

fn break_grammar(random: &mut Random, conditions: &mut [Vec<u8>], actions: &mut [Vec<u8>]) {
    let place = random.below(conditions.len() + actions.len());
    let expression = match place.checked_sub(conditions.len()) {
        None => conditions.get_mut(place),
        Some(place) => actions.get_mut(place),
    };
    if let Some(bytes) = expression {
        let spot = random.below(bytes.len());
        match bytes.get_mut(spot) {
            Some(byte) => *byte = random.pick(&[7, 8, 15, 16, 17, 18, 19, 23, 200, 255]),
            None => bytes.push(random.byte()),
        }
    }
}

fn break_reference(random: &mut Random, draft: &mut SheetDraft) {
    let front = &draft.front;
    let (conditions, actions) = (front.conditions.len() as u8, front.actions.len() as u8);
    let transition_limits = [
        front.states,
        2,
        front.units,
        conditions,
        actions,
        front.states,
    ];
    let triple_limits = [front.states, front.units, conditions, conditions];
    let beyond = |random: &mut Random, limit: u8| random.pick(&[limit, 255]);
    if draft.transitions.is_empty() || (!draft.triples.is_empty() && random.chance(1, 2)) {
        let mut triple = [0; 4];
        let place = random.below(4);
        triple[place] = beyond(random, triple_limits[place]);
        draft.triples.insert(0, triple);
        draft.triples.truncate(32);
    } else {
        let spot = random.below(draft.transitions.len());
        let place = random.below(6);
        draft.transitions[spot][place] = beyond(random, transition_limits[place]);
    }
}

/// Names in some role a condition that its role does not allow, or puts 19 into an action.
fn break_role(random: &mut Random, draft: &mut SheetDraft) {
    let (program, monitor) = (draft.front.program > 0, draft.front.monitor > 0);
    draft.front.conditions.truncate(62);
    draft.front.actions.truncate(31);
    draft.transitions.truncate(63);
    draft.triples.truncate(31);
    let always = draft.condition(&Condition::True);
    let at_entry = !monitor || (program && random.chance(2, 3));
    let leaf = || {
        Box::new(match at_entry {
            true => Value::AtEntry(0),
            false => Value::Monitor(0),
        })
    };
    let wrong = draft.condition(&Condition::Equal(leaf(), leaf()));
    match random.below(3) {
        // A monitor variable is wrong in a postcondition alone.
        _ if !at_entry => draft.triple(0, 0, always, wrong),
        0 => draft.triple(0, 0, wrong, always),
        1 if monitor => draft.front.actions.push(vec![0, 19, 0]),
        _ => {
            let action = draft.action(&Action::default());
            draft.transition(0, 0, (Kind::Entry, 0), wrong, action);
        }
    }
}

fn break_crowding(random: &mut Random, draft: &mut SheetDraft) {
    draft.front.conditions.truncate(63);
    draft.triples.clear();
    draft.transitions.clear();
    let always = draft.condition(&Condition::True);
    let state = random.below(draft.front.states.into()) as u8;
    for _ in 0..random.between(4, 6) {
        draft.triple(state, 0, always, always);
    }
}

/// Breaks a network in a way that is its own: pairs and templates.
pub fn break_network(random: &mut Random, draft: &NetworkDraft) -> Vec<u8> {
    let mut draft = draft.clone();
    let spot = random.below(draft.transitions.len());
    let (conditions, templates) = (draft.front.conditions.len(), draft.templates.len());
    let choice = random.below(11);
    if let Some((transition, pairs)) = draft.transitions.get_mut(spot) {
        let pair = [random.byte(), random.byte()];
        match choice {
            0 => pairs.resize(5, [0, 0]),
            1 => pairs.push([conditions as u8, 0]),
            2 => pairs.push([0, templates as u8]),
            3 => transition[1] = 1,
            4 => transition[2] = transition[2].wrapping_add(1),
            5 => pairs.push(pair),
            _ => {}
        }
    }
    match choice {
        6 => draft.templates.push([draft.front.units, 0]),
        7 => draft.templates.push([0, conditions as u8]),
        8 => return break_length(random, draft.bytes()),
        9 | 10 => break_network_role(random, &mut draft),
        _ => {}
    }
    draft.bytes()
}

/// A pair, a template or a guard whose condition holds what its role does not allow, or what another
/// role does not.
fn break_network_role(random: &mut Random, draft: &mut NetworkDraft) {
    let operator = random.pick(&[18, 19]);
    draft
        .front
        .conditions
        .push(vec![5, operator, 0, operator, 0]);
    let wrong = (draft.front.conditions.len() - 1) as u8;
    let entry = draft
        .transitions
        .iter_mut()
        .find(|(t, pairs)| t[1] == 0 && !pairs.is_empty());
    match (random.below(3), entry) {
        (0, Some((_, pairs))) => pairs[0][0] = wrong,
        (1, Some((transition, _))) => transition[3] = wrong,
        _ => draft.templates.push([0, wrong]),
    }
}

/// Changes, cuts or adds a few bytes; mostly with the length set right afterwards.
pub fn damaged(random: &mut Random, mut bytes: Vec<u8>) -> Vec<u8> {
    for _ in 0..random.between(1, 3) {
        random_expr::damage(random, &mut bytes);
    }
    if random.chance(3, 4) {
        crate::implementation::machine::set_length(&mut bytes);
    }
    bytes
}

fn set_log_length(log: &mut [u8]) {
    let length = (log.len() as u32).to_be_bytes();
    for (place, byte) in log.iter_mut().zip(length) {
        *place = byte;
    }
}

/// Changes a byte or the number of bytes; mostly with the length set right afterwards.
fn damage_log(random: &mut Random, log: &mut Vec<u8>) {
    random_expr::damage(random, log);
    if random.chance(3, 4) {
        set_log_length(log);
    }
}

/// Breaks a log's header, its P or its length.
pub fn break_log(random: &mut Random, mut log: Vec<u8>) -> Vec<u8> {
    match random.below(6) {
        0 => log.truncate(random.below(6)),
        1 => log[4] = random.pick(&[0, 2, 255]),
        2 => log[3] = log[3].wrapping_add(1),
        3 => log[5] = log[5].wrapping_add(random.pick(&[1, 255])),
        _ => {
            // Whole words too, which are no record where P is not 0.
            let extra = random.pick(&[1, 2, 3, 4, 8]);
            log.extend(random.bytes(extra));
            set_log_length(&mut log);
        }
    }
    log
}

// ---- Whole inputs -----------------------------------------------------------------------------

/// A sheet's bytes and a log's bytes.
#[derive(Clone, Debug, PartialEq, Eq)]
pub struct RunCase {
    pub sheet: Vec<u8>,
    pub log: Vec<u8>,
}

impl RunCase {
    /// The input of the program.
    pub fn input(&self) -> Vec<u8> {
        [&self.sheet[..], &self.log].concat()
    }
}

pub fn any_size(random: &mut Random) -> Size {
    match random.below(20) {
        0 => Size::Full,
        1..=5 => Size::Any,
        _ => Size::Small,
    }
}

/// How many records still fit into the program's input after a sheet.
pub fn room_for_records(sheet: usize, program: u8) -> usize {
    let left = crate::implementation::program::MOST_INPUT.saturating_sub(sheet + 6);
    left / (4 + 4 * usize::from(program))
}

fn any_length(random: &mut Random, most: usize) -> usize {
    let length = match random.below(40) {
        0 => most,
        1 => 0,
        2..=4 => random.between(0, 300),
        _ => random.between(0, 40),
    };
    length.min(most)
}

/// One case in this many is a wide one.
const WIDE: usize = 6;
/// One of the others in this many is at the ends of the range.
const ENDS: usize = 8;
/// One of the others in this many has many rivals.
const RIVALS: usize = 12;
/// In one of the others in this many it counts when a variable is read.
const COUNTS: usize = 10;

/// A sheet and a log of any sort.
pub fn run_case(random: &mut Random) -> RunCase {
    if random.chance(1, WIDE) {
        return wide_case(random);
    }
    if random.chance(1, ENDS) {
        return ends_case(random);
    }
    if random.chance(1, RIVALS) {
        let draft = sheet_of_rivals(random);
        return case_of(random, &draft);
    }
    if random.chance(1, COUNTS) {
        let draft = random_counts::sheet(random);
        return case_of(random, &draft);
    }
    usual_case(random)
}

/// A sheet with many transitions of the same state, kind and unit, which version 3 joins; often too
/// many.
pub fn sheet_of_rivals(random: &mut Random) -> SheetDraft {
    let size = random.pick(&[Size::Any, Size::Any, Size::Full]);
    let mut draft = sheet(random, size);
    let places = random.between(1, 4);
    let few = |number: u8, count: u8| number % count.min(places as u8);
    for transition in &mut draft.transitions {
        transition[0] = few(transition[0], draft.front.states);
        transition[2] = few(transition[2], draft.front.units);
    }
    draft
}

/// A wide sheet and a log for it.
fn wide_case(random: &mut Random) -> RunCase {
    let units = wide::units(random);
    let sheet = wide::sheet(random, &units).bytes();
    let log = wide::log::<Sheet>(random, &sheet, &units);
    RunCase { sheet, log }
}

/// A sheet and a log at the ends of the range.
fn ends_case(random: &mut Random) -> RunCase {
    let draft = random_ends::sheet(random);
    let log = write_log(draft.front.program, &random_ends::records(random));
    let sheet = draft.bytes();
    RunCase { sheet, log }
}

/// A sheet and a log: mostly sound, sometimes broken or damaged.
pub fn usual_case(random: &mut Random) -> RunCase {
    let size = any_size(random);
    let draft = sheet(random, size);
    case_of(random, &draft)
}

fn case_of(random: &mut Random, draft: &SheetDraft) -> RunCase {
    let shape = Shape::of(draft);
    let mut bytes = draft.bytes();
    let manner = Manner::any(random);
    let length = any_length(random, room_for_records(bytes.len(), shape.program));
    let mut log = write_log(shape.program, &records(random, shape, manner, length));
    match random.below(12) {
        0 | 1 => bytes = break_sheet(random, draft),
        2 => bytes = damaged(random, bytes),
        3 => log = break_log(random, log),
        4 => damage_log(random, &mut log),
        _ => {}
    }
    RunCase { sheet: bytes, log }
}

/// A network's bytes and a log's bytes.
#[derive(Clone, Debug, PartialEq, Eq)]
pub struct NetworkCase {
    pub network: Vec<u8>,
    pub log: Vec<u8>,
}

/// A network of its own and a log of any sort.
pub fn network_case(random: &mut Random, sheet_log: &[u8]) -> NetworkCase {
    if random.chance(1, WIDE) {
        return wide_network_case(random);
    }
    if random.chance(1, ENDS) {
        return ends_network_case(random);
    }
    usual_network_case(random, sheet_log)
}

/// A wide network that no sheet need give, and a log for it.
fn wide_network_case(random: &mut Random) -> NetworkCase {
    let units = wide::units(random);
    let base = wide::sheet(random, &units);
    let draft = network_like(random, base);
    let network = in_any_version(random, draft).bytes();
    let log = wide::log::<Network>(random, &network, &units);
    NetworkCase { network, log }
}

/// A network at the ends of the range that no sheet need give, and a log for it.
fn ends_network_case(random: &mut Random) -> NetworkCase {
    let base = random_ends::sheet(random);
    let draft = network_like(random, base);
    let draft = in_any_version(random, draft);
    let log = write_log(draft.front.program, &random_ends::records(random));
    let network = draft.bytes();
    NetworkCase { network, log }
}

/// A network of its own, sometimes broken, with a log that fits it; and now and then a log that
/// was made for a sheet.
fn usual_network_case(random: &mut Random, sheet_log: &[u8]) -> NetworkCase {
    let size = if random.chance(1, 4) {
        Size::Any
    } else {
        Size::Small
    };
    let draft = network(random, size);
    let draft = in_any_version(random, draft);
    let bytes = match random.below(8) {
        0 | 1 => break_network(random, &draft),
        2 => damaged(random, draft.bytes()),
        3 => break_network_as_sheet(random),
        _ => draft.bytes(),
    };
    let shape = Shape {
        units: draft.front.units,
        program: draft.front.program,
    };
    let manner = Manner::any(random);
    let length = random.between(0, 60);
    let mut log = write_log(shape.program, &records(random, shape, manner, length));
    match random.below(8) {
        0 => log = break_log(random, log),
        1 => log = sheet_log.to_vec(),
        _ => {}
    }
    NetworkCase {
        network: bytes,
        log,
    }
}

/// What breaks a sheet, carried over into a network with no pairs.
fn break_network_as_sheet(random: &mut Random) -> Vec<u8> {
    let mut base = sheet(random, Size::Small);
    base.triples.clear();
    base.transitions.clear();
    let mut bytes = break_sheet(random, &base);
    if let Some(version) = bytes.get_mut(2) {
        // 1 becomes 2, and what is wrong for a sheet becomes wrong for a network.
        *version = match *version {
            1 => 2,
            2 | 3 => 4,
            wrong => wrong,
        };
    }
    bytes
}
