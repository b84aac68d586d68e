//! The pages that `monitor_cases` and `network_cases` have for the preconditions and postconditions judged at an event,
//! and for the totals of runs (document 02, slip 3): no candidate to four, none armed to four, whichever hold;
//! runs that end, that find a verdict, and that meet a refused event. All counts but those of the random cases are
//! worked out here.

use crate::framing::network_frames::Checkers;
use crate::framing::script_frames::{Field, Frame, Set};
use crate::implementation::machine::Kind;
use crate::implementation::network::Network;
use crate::implementation::run::{write_log, Record};
use crate::implementation::state::Cause;
use crate::making::cases::condition_cases::{joined, number, op, E0, FALSE, M0, P0, P1, TRUE};
use crate::making::cases::condition_ends::plus;
use crate::making::draft::{NetworkDraft, SheetDraft};
use crate::making::generate::{self, Manner, Shape, Size};
use crate::making::random::Random;
use crate::making::scripts::card_cases::in_version_3;
use crate::making::scripts::count_forms::{behind, offer, rows, start, step, Form};
use crate::making::scripts::script::{entry, event, exit, refused, Page, Script, Sort};
use crate::making::scripts::shared_cases::{broken, ran, Broken, Subject, LAST};

// ---- The sheet --------------------------------------------------------------------------------

type Values = [i32; 4];

const BAD: u8 = 2;
const UNITS: u8 = 5;
/// Value 3 with which state 0 is left for the bad one.
const LEADS: i32 = 9;
/// The condition of that, and those of state 1.
const IS_NINE: u8 = 8;
const IS_TWO: u8 = 9;
const IS_BELOW: u8 = 10;
const NEVER: u8 = 11;
const ALWAYS: u8 = 12;

/// That value i is 1, or is 2: where it is 1, the right side is not reached.
fn precondition(i: u8) -> Vec<u8> {
    let is = |n: i32| op(5, &[&[17, i], &number(n)]);
    op(3, &[&is(1), &behind(i.into(), &is(2))])
}

/// Whether it holds, and its count.
fn precondition_of(i: usize, values: &Values) -> (bool, u64) {
    match values[i] {
        1 => (true, 1 + 3),
        other => (other == 2, 1 + 3 + 3 + 2 * i as u64),
    }
}

/// That value i isn't 1 and is at most the one at entry: where it is 1, the right side is not reached.
fn postcondition(i: u8) -> Vec<u8> {
    let is_one = op(5, &[&[17, i], &number(1)]);
    let above = op(4, &[&[19, i], &[17, i]]);
    let right = behind(i.into(), &op(1, &[&above]));
    op(2, &[&op(1, &[&is_one]), &right])
}

fn postcondition_of(i: usize, at_entry: &Values, values: &Values) -> (bool, u64) {
    match values[i] {
        1 => (false, 1 + 4),
        other => (other <= at_entry[i], 1 + 4 + 4 + 2 * i as u64),
    }
}

/// States 0-2 (2 is bad), units 0-4, P 4, V 2. Unit n has n triples in state 0 and as many in state 1; the one with
/// number i among them asks about value i. In state 0 exits, and entries of unit 0, lead to the bad state where
/// value 3 is 9. In state 1 entries have two transitions and exits two, of which the first is never taken.
fn candidates(begin: u8) -> SheetDraft {
    let mut sheet = SheetDraft::new(3, UNITS, 4, &[0, 0]);
    (sheet.front.start, sheet.front.bad) = (begin, 1 << BAD);
    let conditions = (0..4).map(precondition).chain((0..4).map(postcondition));
    let guards = [
        op(5, &[&[17, 3], &number(LEADS)]),
        op(5, &[P0, &number(2)]),
        behind(1, &op(4, &[&[17, 3], &number(1)])),
        FALSE.to_vec(),
        TRUE.to_vec(),
    ];
    sheet.front.conditions = conditions.chain(guards).collect();
    sheet.front.actions = vec![
        Vec::new(),
        op(1, &[P0]),
        joined(&[&[0], P1, &[1], &plus(M0, P0)]),
        op(0, &[&plus(M0, &number(1))]),
    ];
    sheet.transition(0, BAD, (Kind::Entry, 0), IS_NINE, 0);
    for unit in 0..UNITS {
        sheet.transition(0, BAD, (Kind::Exit, unit), IS_NINE, 1);
        sheet.transition(1, 1, (Kind::Entry, unit), IS_TWO, 0);
        sheet.transition(1, 1, (Kind::Entry, unit), IS_BELOW, 2);
        sheet.transition(1, 0, (Kind::Exit, unit), NEVER, 0);
        sheet.transition(1, 1, (Kind::Exit, unit), ALWAYS, 3);
    }
    for (state, unit) in [0, 1]
        .into_iter()
        .flat_map(|state| (0..UNITS).map(move |unit| (state, unit)))
    {
        (0..unit).for_each(|i| sheet.triple(state, unit, i, 4 + i));
    }
    sheet
}

/// The number of the first triple of a state and unit.
fn first_triple(state: u8, unit: u8) -> u8 {
    10 * state + unit * unit.saturating_sub(1) / 2
}

// ---- What an event does -----------------------------------------------------------------------

/// A call that is open: its values at entry, and which of its unit's triples are armed.
#[derive(Clone)]
struct Open {
    record: Record,
    entered: u32,
    armed: Vec<usize>,
}

/// The events so far and their counts, worked out apart from the engines.
#[derive(Clone)]
struct Course {
    form: Form,
    main: u8,
    open: Vec<Open>,
    position: u32,
    count: u64,
    found: Option<Broken>,
}

fn four(record: &Record) -> Values {
    std::array::from_fn(|i| record.values[i])
}

impl Course {
    fn new(form: Form, main: u8) -> Course {
        Course {
            form,
            main,
            open: Vec::new(),
            position: 0,
            count: 0,
            found: None,
        }
    }

    /// Goes on with an event that is taken, and gives its count.
    fn take(&mut self, record: &Record) -> u64 {
        self.position += 1;
        let count = match record.kind {
            0 => self.enter(record),
            _ => self.leave(record),
        };
        self.count += count;
        count
    }

    fn enter(&mut self, record: &Record) -> u64 {
        let (values, unit) = (four(record), record.unit);
        let judged = (0..usize::from(unit)).map(|i| (i, precondition_of(i, &values)));
        let judged: Vec<(usize, (bool, u64))> = judged.collect();
        let holding = judged.iter().filter(|(_, (holds, _))| *holds);
        let armed = holding.map(|(i, _)| *i).collect();
        let preconditions: u64 = judged.iter().map(|(_, (_, count))| count).sum();
        let (own, is_taken, acted): (&[u64], bool, u64) = match self.main {
            0 if unit == 0 => (&[3], values[3] == LEADS, 0),
            0 => (&[], false, 0),
            _ if values[0] == 2 => (&[3], true, 0),
            _ if values[3] < 1 => (&[3, 5], true, 1 + 3),
            _ => (&[3, 5], false, 0),
        };
        if self.main == 0 && is_taken {
            self.main = BAD;
            self.found = broken(Some(Cause::State(BAD)), 0);
        }
        self.open.push(Open {
            record: record.clone(),
            entered: self.position,
            armed,
        });
        let form = self.form;
        form.tried_at_entry(own, is_taken, unit.into()) + acted + preconditions
    }

    /// All that is armed is judged.
    fn leave(&mut self, record: &Record) -> u64 {
        let own = |open: &Open| open.record.call == record.call;
        let place = self.open.iter().position(own).unwrap_or(0);
        let call = self.open.remove(place);
        let (before, values) = (four(&call.record), four(record));
        let judged = call.armed.iter();
        let judged = judged.map(|i| (*i, postcondition_of(*i, &before, &values)));
        let judged: Vec<(usize, (bool, u64))> = judged.collect();
        let failing = judged.iter().find(|(_, (holds, _))| !holds);
        let first = first_triple(self.main, record.unit);
        let triple = failing.map(|(i, _)| first + *i as u8);
        let leads = self.main == 0 && values[3] == LEADS;
        let (own, acted): (&[u64], u64) = match self.main {
            0 => (&[3], leads.into()),
            _ => (&[2, 1], 3),
        };
        if leads {
            self.main = BAD;
        }
        self.found = broken(Cause::new(leads.then_some(BAD), triple), call.entered);
        let postconditions: u64 = judged.iter().map(|(_, (_, count))| count).sum();
        self.form.tried(own) + acted + postconditions
    }

    /// Of a run up to here.
    fn line(&self) -> String {
        ran(self.main, self.open.len(), self.position, self.found)
    }
}

// ---- Candidates and what is armed -------------------------------------------------------------

/// Every way to give each of a unit's values one of these; the last value is another where it is not asked about.
fn settings(unit: u8, choices: &[i32], last: i32) -> Vec<Values> {
    let count = choices.len().pow(unit.into());
    let digit = |set: usize, i: u32| choices[set / choices.len().pow(i) % choices.len()];
    let setting = |set: usize| {
        let mut values = [0, 0, 0, last];
        for i in 0..unit.into() {
            values[i as usize] = digit(set, i);
        }
        values
    };
    (0..count).map(setting).collect()
}

/// The exits of a call that was entered with these: all holds, all fails at once, all fails later, some of each.
fn exits(unit: u8, entered: Values) -> Vec<Record> {
    let mixed = entered.map(|value| (value + 1) % 3);
    let all = [[0; 4], [1; 4], [3; 4], mixed];
    all.iter().map(|values| exit(unit, 7, values)).collect()
}

/// From the saved state: an entry with these values, and exits behind it.
fn entered_and_left<R: Subject>(script: &mut Script<R>, course: &Course, enters: &Record) {
    let mut course = course.clone();
    script.restore();
    step(script, enters, course.take(enters));
    for leaves in exits(enters.unit, four(enters)) {
        offer(script, &leaves, course.clone().take(&leaves));
    }
}

/// No candidate to four, each held in one way, held in the other or not: in state 0 there is no transition for
/// them, in state 1 there are two.
fn each_setting<R: Subject>(script: &mut Script<R>, form: Form) {
    for (main, choices, lasts) in [(0, &[0, 1, 2][..], &[0][..]), (1, &[0, 2], &[0, 5])] {
        start(script, &form.of_sheet::<R>(&candidates(main)));
        let course = Course::new(form, main);
        for unit in 0..UNITS {
            for last in lasts {
                for values in settings(unit, choices, *last) {
                    entered_and_left(script, &course, &entry(unit, 7, &values));
                }
            }
        }
    }
}

/// Beside other calls, whose triples are not judged; and into the bad state.
fn among_others<R: Subject>(script: &mut Script<R>, form: Form) {
    start(script, &form.of_sheet::<R>(&candidates(0)));
    let mut course = Course::new(form, 0);
    for (number, unit) in (1..).zip([4, 2, 4, 0, 3]) {
        let enters = entry(unit, number, &[2, 1, 2, 1]);
        step(script, &enters, course.take(&enters));
    }
    for open in course.open.clone() {
        for values in [
            [2, 0, 2, 0],
            [2, 1, 2, 0],
            [0, 0, 3, 9],
            [1; 4],
            [0, 0, 0, 9],
        ] {
            let leaves = exit(open.record.unit, open.record.call, &values);
            offer(script, &leaves, course.clone().take(&leaves));
        }
    }
    for (unit, value) in [(0, LEADS), (0, 1), (1, LEADS), (4, LEADS)] {
        let enters = entry(unit, 7, &[1, 2, 1, value]);
        offer(script, &enters, course.clone().take(&enters));
    }
}

// ---- Preconditions that read a variable -------------------------------------------------------

/// One state and unit, P 1, V 1. Every entry makes its value the variable. The preconditions ask whether that was below 3
/// and then, by `or` and by `and`, whether the value is 9.
fn reading() -> SheetDraft {
    let mut sheet = SheetDraft::new(1, 1, 1, &[0]);
    let below = op(4, &[M0, &number(3)]);
    let is_nine = op(5, &[P0, &number(9)]);
    sheet.front.conditions = vec![
        TRUE.to_vec(),
        op(3, &[&below, &behind(1, &is_nine)]),
        op(2, &[&below, &is_nine]),
    ];
    sheet.front.actions = vec![op(0, &[P0])];
    sheet.transition(0, 0, (Kind::Entry, 0), 0, 0);
    sheet.triple(0, 0, 1, 0);
    sheet.triple(0, 0, 2, 0);
    sheet
}

/// The guard, the value assigned, and the preconditions by the variable before the entry.
fn read_at_entry(x: i32) -> u64 {
    let preconditions = match x < 3 {
        true => 1 + 3 + (1 + 3 + 3),
        false => 1 + 3 + 5 + (1 + 3),
    };
    1 + 1 + preconditions
}

/// Each entry changes what its preconditions read: they are counted with the variable as it was.
fn read_before<R: Subject>(script: &mut Script<R>, form: Form) {
    start(script, &form.of_sheet::<R>(&reading()));
    for x in [i32::MIN, 2, 3, i32::MAX] {
        for p in [0, 2, 3, 9] {
            script.restore();
            script.set(&[(Field::Variable(0), x as u32)]);
            offer(script, &entry(0, 7, &[p]), read_at_entry(x));
        }
    }
    for place in 0..27 {
        let values = [place, place / 3, place / 9].map(|n| [0, 5, 9][n % 3]);
        let entries = (0..).zip(values).map(|(n, p)| entry(0, n, &[p]));
        let records: Vec<Record> = entries.collect();
        let before = [0, values[0], values[1]];
        script.run_records(1, &records, &ran(0, 3, 3, None));
        script.counts(before.into_iter().map(read_at_entry).sum());
    }
}

// ---- Refused events ---------------------------------------------------------------------------

/// Offers an event that is refused: it counts nothing, though a taken one like it would.
fn turned_away<R: Subject>(script: &mut Script<R>, event: &Record, number: u8) {
    script.offer(event, &refused(number));
    script.counts(0);
}

const ANY: Values = [2, 1, 2, 0];

fn refused_events<R: Subject>(script: &mut Script<R>, form: Form) {
    for main in [0, 1] {
        let rules = form.of_sheet::<R>(&candidates(main));
        start(script, &rules);
        let mut course = Course::new(form, main);
        for (number, unit) in (1..=15).zip([4, 3, 2, 1, 0].into_iter().cycle()) {
            let enters = entry(unit, number, &ANY);
            step(script, &enters, course.take(&enters));
        }
        script.save();
        refused_for_arguments(script);
        refused_for_states(script);
        script.restore();
        let last = entry(4, 99, &ANY);
        step(script, &last, course.take(&last));
        turned_away(script, &entry(3, 100, &ANY), 14);
        refused_rules(script, &rules);
    }
}

/// With calls 1 to 15 open, of units 4 to 0 by turns.
fn refused_for_arguments<R: Subject>(script: &mut Script<R>) {
    for unit in 0..UNITS {
        turned_away(script, &entry(unit, 1, &ANY), 13);
        turned_away(script, &exit(unit, 99, &ANY), 15);
        // A call of the next unit.
        let other = u16::from(5 - (unit + 1) % UNITS);
        turned_away(script, &exit(unit, other, &ANY), 15);
        turned_away(script, &event(2, unit, 99, &ANY), 11);
        turned_away(script, &entry(unit, 99, &ANY[..3]), 11);
    }
    turned_away(script, &entry(UNITS, 99, &ANY), 11);
}

fn refused_for_states<R: Subject>(script: &mut Script<R>) {
    let judged = [(Field::Failed(0), 15), (Field::Carried, 1)];
    let states: [(&[Set<R::Own>], u8); 4] = [
        (&[(Field::Position, LAST)], 12),
        (&[(Field::BadState(BAD), 15)], 9),
        (&[(Field::Main, BAD as u32)], 9),
        (&judged, 10),
    ];
    for (fields, number) in states {
        script.restore();
        script.set(fields);
        turned_away(script, &entry(4, 99, &ANY), number);
        turned_away(script, &exit(4, 1, &ANY), number);
    }
}

/// Rules that are refused: neither an event nor a run counts.
fn refused_rules<R: Subject>(script: &mut Script<R>, rules: &[u8]) {
    let changed = |place: usize, byte: u8| {
        let mut rules = rules.to_vec();
        rules[place] = byte;
        rules
    };
    let behind = [rules, &[0]].concat();
    for (number, rules) in [(1, behind), (2, changed(2, 9)), (3, changed(3, 0))] {
        script.rules(&rules);
        turned_away(script, &entry(4, 99, &ANY), number);
        turned_away(script, &exit(4, 1, &ANY), number);
        script.run_records(4, &[entry(4, 99, &ANY)], &refused(number));
        script.counts(0);
    }
}

// ---- Runs -------------------------------------------------------------------------------------

/// Calls of every unit that are entered, and left well in another order.
fn calls() -> Vec<Record> {
    let entered = [
        [2, 2, 2, 2],
        [1, 2, 0, 5],
        [0, 1, 2, 0],
        [2, 0, 1, 1],
        [2; 4],
    ];
    let entries = (0..).zip(entered);
    let entries = entries.map(|(unit, values)| entry(unit, unit.into(), &values));
    let exits = [3, 0, 4, 1, 2].map(|unit| exit(unit, unit.into(), &[0; 4]));
    entries.chain(exits).collect()
}

/// Runs records of which all are taken up to a verdict, behind which none is judged.
fn run<R: Subject>(script: &mut Script<R>, form: Form, main: u8, records: &[Record]) {
    let mut course = Course::new(form, main);
    for record in records {
        if course.found.is_none() {
            course.take(record);
        }
    }
    script.run_records(4, records, &course.line());
    script.counts(course.count);
}

/// Every front of the calls, and each exit in turn leads to a verdict by a triple, a bad state or both.
fn whole_runs<R: Subject>(script: &mut Script<R>, form: Form) {
    for main in [0, 1] {
        start(script, &form.of_sheet::<R>(&candidates(main)));
        let records = calls();
        for count in 0..=records.len() {
            run(script, form, main, &records[..count]);
        }
        for place in 5..records.len() {
            for values in [[1; 4], [3; 4], [0, 0, 0, LEADS], [0, 1, 0, LEADS]] {
                let mut records = records.clone();
                records[place].values = values.to_vec();
                run(script, form, main, &records);
            }
        }
        let mut records = records;
        records[0].values[3] = LEADS;
        run(script, form, main, &records);
    }
}

/// A refused event at each place: the events before it count, and none behind it does.
fn refused_in_runs<R: Subject>(script: &mut Script<R>, form: Form) {
    for main in [0, 1] {
        start(script, &form.of_sheet::<R>(&candidates(main)));
        let records = calls();
        for place in 0..=records.len() {
            let mut course = Course::new(form, main);
            records[..place].iter().for_each(|record| {
                course.take(record);
            });
            let wrong = [
                (11, event(2, 4, 9, &ANY)),
                (15, exit(4, 9, &ANY)),
                (
                    13,
                    entry(4, course.open.first().map_or(0, |o| o.record.call), &ANY),
                ),
            ];
            for (number, event) in wrong {
                // Before the first entry no number is open.
                if number == 13 && course.open.is_empty() {
                    continue;
                }
                let records = [&records[..place], &[event], &records[place..]].concat();
                let line = format!("{} at {}", refused(number), place + 1);
                script.run_records(4, &records, &line);
                script.counts(course.count);
            }
        }
        refused_logs(script, form, main);
    }
}

/// The seventeenth entry, and logs that are refused whole.
fn refused_logs<R: Subject>(script: &mut Script<R>, form: Form, main: u8) {
    let entries: Vec<Record> = (0..17).map(|n| entry(n as u8 % UNITS, n, &ANY)).collect();
    let mut course = Course::new(form, main);
    entries[..16].iter().for_each(|record| {
        course.take(record);
    });
    script.run_records(4, &entries, "refused 14 at 17");
    script.counts(course.count);
    let log = write_log(4, &entries);
    for (place, number) in [(4, 16), (5, 17), (3, 16)] {
        let mut log = log.clone();
        log[place] += 1;
        script.run(&log, &refused(number));
        script.counts(0);
    }
    let mut cut = log[..log.len() - 1].to_vec();
    let length = (cut.len() as u32).to_be_bytes();
    cut[..4].copy_from_slice(&length);
    script.run(&cut, &refused(18));
    script.counts(0);
}

// ---- Networks that no sheet has ---------------------------------------------------------------

/// The pairs of the entry that is taken where the value is the place; a template may stand there several times.
const PAIRS: [&[[u8; 2]]; 5] = [
    &[[4, 0]],
    &[[4, 1], [5, 1]],
    &[[6, 0], [4, 1], [7, 1], [7, 0]],
    &[],
    &[[4, 1], [4, 1], [4, 1], [4, 1]],
];

/// The counts of conditions 4 to 7, and whether each holds.
fn asked_of_pairs(value: i32) -> [(bool, u64); 4] {
    [(true, 1), (value == 2, 3), (false, 3), (value != 9, 4)]
}

/// One state, unit 0, P 1. Conditions 0 to 3: the value is 0, 1, 2 or 3; then `true`, the value is 2, one that
/// fails, and the value is not 9; then those of templates 0 and 1.
fn paired() -> NetworkDraft {
    let is = |n: i32| op(5, &[P0, &number(n)]);
    let same = op(5, &[P0, E0]);
    let mut network = NetworkDraft::new(1, 1, 1, &[]);
    network.front.conditions = vec![
        is(0),
        is(1),
        is(2),
        is(3),
        TRUE.to_vec(),
        is(2),
        op(2, &[FALSE, TRUE]),
        op(1, &[&is(9)]),
        same.clone(),
        op(3, &[&same, TRUE]),
    ];
    network.front.actions = vec![Vec::new()];
    for (condition, pairs) in (0..).zip(PAIRS) {
        network.creating([0, 0, 0, condition, 0, 0], pairs);
    }
    network.templates = vec![[0, 8], [0, 9]];
    network
}

/// The count of an entry, and the templates of the checkers that it creates. Of the guards the last is `true`.
fn paired_entry(form: Form, value: i32) -> (u64, Vec<u8>) {
    let place = value.clamp(0, 4) as usize;
    let own = [3, 3, 3, 3, 1];
    let asked = asked_of_pairs(value);
    let of = |pair: &[u8; 2]| asked[usize::from(pair[0]) - 4];
    let pairs: u64 = PAIRS[place].iter().map(|pair| of(pair).1).sum();
    let created = PAIRS[place].iter().filter(|pair| of(pair).0);
    let created = created.map(|pair| pair[1]).collect();
    (form.tried(&own[..=place]) + pairs, created)
}

/// Each checker is judged, also the second from the same template.
fn paired_exit(created: &[u8], is_same: bool) -> u64 {
    let of = |template: &u8| match (template, is_same) {
        (0, _) => 3,
        (_, true) => 4,
        (_, false) => 5,
    };
    created.iter().map(of).sum()
}

fn own_pairs(script: &mut Script<Network>, form: Form) {
    let network = paired().bytes();
    let network = match form {
        Form::Version3 => in_version_3(&network),
        Form::Sheet | Form::Version2 => network,
    };
    start(script, &network);
    let values = [0, 1, 2, 3, 4, 9];
    let mut total = 0;
    for (number, value) in (1..).zip(values) {
        let (count, _) = paired_entry(form, value);
        step(script, &entry(0, number, &[value]), count);
        total += count;
    }
    let entries = (1..).zip(values).map(|(n, value)| entry(0, n, &[value]));
    let entries: Vec<Record> = entries.collect();
    for (enters, value) in entries.iter().zip(values) {
        let (_, created) = paired_entry(form, value);
        let same = paired_exit(&created, true);
        offer(script, &exit(0, enters.call, &[value]), same);
        let other = paired_exit(&created, false);
        offer(script, &exit(0, enters.call, &[value + 1]), other);
        let leaves = exit(0, enters.call, &[value]);
        let records = [&entries[..], &[leaves]].concat();
        script.run_records(1, &records, &ran(0, 5, 7, None));
        script.counts(total + same);
    }
}

// ---- Random cases -----------------------------------------------------------------------------

const SEED: u64 = 0x5741_5443_480F;
/// Generated sheets or networks.
const RULES: usize = 18;
/// The longest generated sheet, to keep the file small.
const LONGEST: usize = 160;

/// With several transitions and triples.
fn random_sheet(random: &mut Random) -> SheetDraft {
    loop {
        let draft = generate::sheet(random, Size::Small);
        let rules = draft.transitions.len() >= 4 && draft.triples.len() >= 3;
        if rules && draft.bytes().len() <= LONGEST {
            return draft;
        }
    }
}

/// What a sheet gives, or a network like it that no sheet need give.
fn random_rules<R: Subject>(random: &mut Random, form: Form) -> (Vec<u8>, Shape) {
    let draft = random_sheet(random);
    let shape = Shape::of(&draft);
    let bytes = match (form, random.chance(1, 2)) {
        (Form::Sheet, _) | (_, true) => form.of_sheet::<R>(&draft),
        (Form::Version2, false) => generate::network_like(random, draft).bytes(),
        (Form::Version3, false) => {
            let network = generate::network_like(random, draft);
            generate::lengthened(random, network).bytes()
        }
    };
    (bytes, shape)
}

fn random_cases<R: Subject>(script: &mut Script<R>, form: Form) {
    let mut random = Random::new(SEED);
    script.sort = Sort::Counts;
    for _ in 0..RULES {
        let (bytes, shape) = random_rules::<R>(&mut random, form);
        let manner = Manner {
            breaks: random.pick(&[0, 10]),
            entries: 5,
        };
        script.rules(&bytes);
        script.fresh("accepted");
        let records = generate::records(&mut random, shape, manner, 12);
        for record in &records {
            script.unknown(record, true);
        }
        script.add(Frame::Run(write_log(shape.program, &records)), None);
    }
}

// ---- All --------------------------------------------------------------------------------------

/// Single events, and random cases.
pub fn events_page<R: Subject>(form: Form) -> Page<R::Own> {
    let parts = [
        each_setting,
        among_others,
        read_before,
        refused_events,
        random_cases,
    ];
    rows::<R>(form, &parts)
}

pub fn runs<R: Subject>(form: Form) -> Page<R::Own> {
    rows::<R>(form, &[whole_runs, refused_in_runs])
}

/// On networks that no sheet has.
pub fn of_networks(form: Form) -> Page<Checkers> {
    rows::<Network>(form, &[own_pairs])
}
