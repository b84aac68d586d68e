//! Document 02's slip 13: a precondition, and so a pair, reads monitor variables as they stood before the
//! event. What the committed cases must show of it is written down here, whatever the generators make, and
//! looked for in the files that the case programs read; so is that they would see it read otherwise.

mod committed;
mod leaves;

use committed::{add, assert_shown, committed, lines, Counts};
use leaves::{leaves, MONITOR, PROGRAM};
use reference::counting::preconditions::{of_event, of_log, reading, wanted, Arming};
use reference::counting::tally;
use reference::framing::monitor_frames::Arms;
use reference::framing::network_frames::Checkers;
use reference::framing::pages::PAGE;
use reference::framing::script_frames::{read_page, Bench, Frame, Own};
use reference::implementation::expr::{Action, Assignment, Condition, Lent, Value};
use reference::implementation::machine::{Kind, Transition};
use reference::implementation::network::{Network, Pair};
use reference::implementation::program::split;
use reference::implementation::run::{run, run_records, write_log, Record};
use reference::implementation::sheet::Sheet;
use reference::implementation::state::Common;
use reference::making::cases::program_cases;
use reference::making::draft::{NetworkDraft, SheetDraft};
use reference::making::scripts::script::{entry, exit};
use std::collections::{BTreeSet, HashMap};
use std::fs;

// ---- The words of the slip --------------------------------------------------------------------

const COUNTER: u8 = 0;

fn constant(n: i32) -> Box<Value> {
    Box::new(Value::Constant(n))
}

fn counter() -> Box<Value> {
    Box::new(Value::Monitor(COUNTER))
}

fn program(n: u8) -> Box<Value> {
    Box::new(Value::Program(n))
}

fn not(condition: Condition) -> Condition {
    Condition::Not(Box::new(condition))
}

fn counts(value: Value) -> Action {
    let variable = COUNTER;
    Action {
        assignments: vec![Assignment { variable, value }],
    }
}

fn one_more() -> Value {
    Value::Plus(counter(), constant(1))
}

fn below(limit: i32) -> Condition {
    Condition::Less(counter(), constant(limit))
}

/// One state and unit, P 1, V 1. An entry carries out the action; triple n has the precondition n and asks
/// that the value be the one at entry.
fn one_unit(start: i32, action: Value, preconditions: &[Condition]) -> Sheet {
    let mut sheet = SheetDraft::new(1, 1, 1, &[start]);
    let always = sheet.condition(&Condition::True);
    let at_entry = Box::new(Value::AtEntry(0));
    let same = sheet.condition(&Condition::Equal(program(0), at_entry));
    let action = sheet.action(&counts(action));
    sheet.transition(0, 0, (Kind::Entry, 0), always, action);
    for precondition in preconditions {
        let precondition = sheet.condition(precondition);
        sheet.triple(0, 0, precondition, same);
    }
    Sheet::read(&sheet.bytes()).expect("such preconditions are accepted")
}

/// What an entry with a value arms, which must be the same on the sheet and on both of its networks.
fn armed(sheet: &Sheet, value: i32) -> Vec<u8> {
    let network = sheet.translate();
    let on_sheet = armed_on(sheet, value);
    assert_eq!(armed_on(&network, value), on_sheet);
    assert_eq!(armed_on(&network.separated(), value), on_sheet);
    on_sheet
}

fn armed_on<R: Arming>(rules: &R, value: i32) -> Vec<u8> {
    let enters = entry(0, 7, &[value]);
    let next = rules.event(&rules.fresh(), &enters.event());
    R::armed(&next.expect("it is taken"))
}

/// "It reads them as they stood before the event": here the entry's own action counts.
#[test]
fn the_entry_s_own_action_comes_later() {
    for start in -1..7 {
        let sheet = one_unit(start, one_more(), &[below(3), not(below(3))]);
        let expected = if start < 3 { 0 } else { 1 };
        assert_eq!(armed(&sheet, 5), [expected], "{start}");
    }
}

/// What holds after the action alone is not armed, what holds before it alone is.
#[test]
fn before_and_after_differ_in_both_directions() {
    let is_value = || Condition::Equal(counter(), program(0));
    let sheet = |start: i32| {
        let becomes_value = Value::Program(0);
        one_unit(start, becomes_value, &[is_value(), not(is_value())])
    };
    for start in 0..4 {
        // After the action the counter is the value, whatever it was.
        let expected = if start == 2 { 0 } else { 1 };
        assert_eq!(armed(&sheet(start), 2), [expected], "{start}");
    }
}

/// The event's values and several variables together.
#[test]
fn up_to_four_variables_and_the_values_are_read() {
    let mut sheet = SheetDraft::new(1, 1, 1, &[1, 2, 3, 4]);
    let sum = |a: Box<Value>, b: Box<Value>| Box::new(Value::Plus(a, b));
    let variable = |n: u8| Box::new(Value::Monitor(n));
    let (front, back) = (sum(variable(0), variable(1)), sum(variable(2), variable(3)));
    let pre = sheet.condition(&Condition::Equal(sum(front, back), program(0)));
    let post = sheet.condition(&Condition::True);
    sheet.triple(0, 0, pre, post);
    let sheet = Sheet::read(&sheet.bytes()).expect("a sheet");
    assert_eq!(armed(&sheet, 10), [0]);
    assert!(armed(&sheet, 9).is_empty());
}

/// Which calls are judged goes by the counter at their entries, and later counts change nothing of it.
#[test]
fn a_precondition_is_read_at_the_entry_alone() {
    let sheet = one_unit(1, one_more(), &[below(3)]);
    let enters = |call: u16| entry(0, call, &[5]);
    let leaves = |call: u16, value: i32| exit(0, call, &[value]);
    let entered = [enters(1), enters(2), enters(3), enters(4)];
    for (call, value, is_broken) in [
        (1, 5, false),
        (1, 6, true),
        (2, 6, true),
        (3, 6, false),
        (4, 6, false),
    ] {
        let records = [&entered[..], &[leaves(call, value)]].concat();
        let network = sheet.translate();
        let lines = [
            run_records(&sheet, &records),
            run_records(&network, &records),
            run_records(&network.separated(), &records),
        ];
        // The calls were entered in the order of their numbers.
        let expected = match is_broken {
            false => "clean 5 state 0 open 3".into(),
            true => format!("violated 5 state - triple 0 entry {call}"),
        };
        for line in lines {
            assert_eq!(line.result.to_string(), expected);
        }
    }
}

/// "So a network must test its pairs before running the transition's action": of a network that no sheet has,
/// with the guard's own condition in a pair, and none taken where the guard does not hold.
#[test]
fn pairs_are_tested_before_the_action() {
    let created = |version_3: bool, start: i32| {
        let mut draft = NetworkDraft::new(1, 1, 1, &[start]);
        for condition in [below(3), not(below(3)), below(2), Condition::True] {
            draft.front.condition(&condition);
        }
        draft.front.action(&counts(one_more()));
        draft.templates = vec![[0, 3]; 4];
        draft.creating([0; 6], &[[0, 0], [1, 1], [2, 2], [3, 3]]);
        let draft = if version_3 {
            draft.in_version_3()
        } else {
            draft
        };
        armed_on(&Network::read(&draft.bytes()).expect("a network"), 5)
    };
    for version_3 in [false, true] {
        assert_eq!(created(version_3, 1), [0, 2, 3]);
        assert_eq!(created(version_3, 2), [0, 3]);
        assert!(created(version_3, 3).is_empty());
    }
}

// ---- The sample -------------------------------------------------------------------------------

fn sample(name: &str) -> Vec<u8> {
    let top = concat!(env!("CARGO_MANIFEST_DIR"), "/../samples");
    fs::read(format!("{top}/{name}")).expect("the file is there")
}

/// The tests are counted at their entries. Fewer than three before: every lamp that was fitted must be lit;
/// otherwise none. A reset begins anew.
fn retries() -> Vec<u8> {
    let mut sheet = SheetDraft::new(1, 2, 2, &[0]);
    let always = sheet.condition(&Condition::True);
    let allowed = sheet.condition(&below(3));
    let too_many = sheet.condition(&not(below(3)));
    let at_entry = Box::new(Value::AtEntry(0));
    let all_lit = sheet.condition(&Condition::Equal(program(1), at_entry));
    let none_lit = sheet.condition(&Condition::Equal(program(1), constant(0)));
    let count = sheet.action(&counts(one_more()));
    let reset = sheet.action(&counts(Value::Constant(0)));
    sheet.transition(0, 0, (Kind::Entry, 0), always, count);
    sheet.transition(0, 0, (Kind::Exit, 1), always, reset);
    sheet.triple(0, 0, allowed, all_lit);
    sheet.triple(0, 0, too_many, none_lit);
    sheet.bytes()
}

/// Each log's line, and whether it would be another where preconditions are read after the action.
#[test]
fn the_sample_s_logs() {
    assert_eq!(retries(), sample("retries.sheet"));
    let sheet = Sheet::read(&retries()).expect("it is a sheet");
    let network = sheet.translate();
    for (log, line, decides) in [
        ("few", "clean 4 state 0 open 0", false),
        ("dark", "violated 4 state - triple 0 entry 3", false),
        ("third", "clean 6 state 0 open 0", true),
        ("dim", "violated 6 state - triple 0 entry 5", true),
        ("fourth", "clean 8 state 0 open 0", true),
        ("lit", "violated 8 state - triple 1 entry 7", true),
        ("reset", "clean 10 state 0 open 0", true),
    ] {
        let bytes = sample(&format!("retries-{log}.log"));
        let lines = [
            run(&sheet, &bytes),
            run(&network, &bytes),
            run(&network.separated(), &bytes),
        ];
        assert_eq!(lines.map(|run| run.result.to_string()), [line; 3], "{log}");
        let label = format!("sheet run: {}", OF_RUNS[0]);
        assert_eq!(of_log(&sheet, &bytes).contains(&label), decides, "{log}");
    }
}

// ---- What is wanted ---------------------------------------------------------------------------

const ENGINES: [&str; 3] = ["sheet", "version 2", "version 3"];
const OF_RUNS: [&str; 3] = [
    "that preconditions read before the action decides",
    "that preconditions read variables decides",
    "a precondition names a variable",
];
const OF_EVENTS: [&str; 4] = [
    "a precondition holds before the action and not after",
    "a precondition holds after the action and not before",
    "a precondition holds with the variables and not without",
    "a precondition holds without the variables and not with them",
];

/// Of a sheet or of networks of a version.
fn of_engine(engine: &str) -> Vec<String> {
    let runs = OF_RUNS.map(|label| format!("{engine} run: {label}"));
    let events = OF_EVENTS.map(|label| format!("{engine} event: {label}"));
    runs.into_iter().chain(events).collect()
}

#[test]
fn all_of_it_is_wanted() {
    let (wanted, tallied) = (wanted(), tally::wanted());
    let labels: Vec<String> = ENGINES.iter().flat_map(|e| of_engine(e)).collect();
    assert_eq!(wanted.len(), labels.len());
    for label in labels {
        assert!(wanted.contains(&label), "{label}");
        assert!(tallied.contains(&label), "{label}");
    }
}

/// A rule that names no variable decides nothing, and one that is read alike before and after does not
/// either.
#[test]
fn what_makes_no_difference_is_not_counted() {
    let records = [entry(0, 7, &[5]), exit(0, 7, &[6])];
    let log = write_log(1, &records);
    let plain = one_unit(0, one_more(), &[Condition::True]);
    assert!(of_log(&plain, &log).is_empty());
    let far = one_unit(0, one_more(), &[below(9)]);
    assert_eq!(of_log(&far, &log), [format!("sheet run: {}", OF_RUNS[2])]);
    let near = one_unit(0, one_more(), &[below(1)]);
    let [before, _, named] = OF_RUNS.map(|label| format!("sheet run: {label}"));
    assert_eq!(of_log(&near, &log), [before, named]);
    let above = one_unit(4, one_more(), &[below(3)]);
    let [_, variables, named] = OF_RUNS.map(|label| format!("sheet run: {label}"));
    assert_eq!(of_log(&above, &log), [variables, named]);
}

// ---- The committed scripts --------------------------------------------------------------------

/// What is asked here of sheets and networks besides what they arm.
trait Told: Arming {
    /// The transitions, each with its pairs' conditions.
    fn transitions(&self) -> Vec<(Transition, Vec<u8>)>;
    /// The preconditions of a triple or template.
    fn preconditions_of(&self, number: u8) -> Vec<u8>;
}

impl Told for Sheet {
    fn transitions(&self) -> Vec<(Transition, Vec<u8>)> {
        self.transitions.iter().map(|t| (*t, Vec::new())).collect()
    }

    fn preconditions_of(&self, number: u8) -> Vec<u8> {
        vec![self.triples[usize::from(number)].precondition]
    }
}

impl Told for Network {
    fn transitions(&self) -> Vec<(Transition, Vec<u8>)> {
        let pairs = |pairs: &[Pair]| pairs.iter().map(|pair| pair.condition).collect();
        let all = self.transitions.iter();
        all.map(|c| (c.transition, pairs(&c.pairs))).collect()
    }

    fn preconditions_of(&self, number: u8) -> Vec<u8> {
        let pairs = self.transitions.iter().flat_map(|c| &c.pairs);
        let own = pairs.filter(|pair| pair.template == number);
        own.map(|pair| pair.condition).collect()
    }
}

/// The monitor variables that a condition names.
fn variables<R: Told>(rules: &R, condition: u8) -> BTreeSet<u8> {
    let condition = &rules.machine().conditions[usize::from(condition)];
    let found = leaves(&condition.bytes()).into_iter();
    let monitor = found.filter(|(operator, _)| *operator == MONITOR);
    monitor.map(|(_, number)| number).collect()
}

fn names_program<R: Told>(rules: &R, condition: u8) -> bool {
    let condition = &rules.machine().conditions[usize::from(condition)];
    let found = leaves(&condition.bytes());
    found.iter().any(|(operator, _)| *operator == PROGRAM)
}

/// Where an entry finds the rules: the preconditions that it asks, those of them that name variables, and
/// the transitions for it, taken or not.
struct Entry<'a, R> {
    rules: &'a R,
    lent: Lent<'a>,
    asked: Vec<u8>,
    naming: Vec<u8>,
    rivals: Vec<(Transition, Vec<u8>)>,
}

impl<'a, R: Told> Entry<'a, R> {
    fn new(rules: &'a R, before: &'a Common, event: &'a Record) -> Entry<'a, R> {
        let asked = rules.asked(before, &event.event());
        let asked: Vec<u8> = asked.into_iter().map(|(condition, _)| condition).collect();
        let mut naming = asked.clone();
        naming.retain(|condition| !variables(rules, *condition).is_empty());
        let mut rivals = rules.transitions();
        let place = (before.main, Kind::Entry, event.unit);
        rivals.retain(|(t, _)| (t.from, t.kind, t.unit) == place);
        Entry {
            rules,
            lent: Lent {
                program: &event.values,
                monitor: &before.variables,
                kept: &[],
            },
            asked,
            naming,
            rivals,
        }
    }

    fn holds(&self, condition: u8) -> bool {
        self.rules.machine().condition_holds(condition, &self.lent)
    }

    /// What is said of the preconditions that it asks, one by one.
    fn of_each(&self) -> Vec<String> {
        let mut labels = Vec::new();
        for condition in &self.naming {
            let holds = match self.holds(*condition) {
                true => "holds",
                false => "does not hold",
            };
            let count = variables(self.rules, *condition).len();
            labels.push(format!("one that names {count} {holds}"));
            if names_program(self.rules, *condition) {
                labels.push(format!("one with a program variable {holds}"));
            }
        }
        labels
    }

    fn labels(&self) -> Vec<String> {
        let mut labels = self.of_each();
        let enabled = self.rivals.iter().filter(|(t, _)| self.holds(t.condition));
        let (enabled, any) = (enabled.count(), !self.naming.is_empty());
        let guards = self
            .rules
            .transitions()
            .into_iter()
            .map(|(t, _)| t.condition);
        let shared = guards.filter(|guard| self.naming.contains(guard)).count();
        let mut pairs = self.rivals.iter().flat_map(|(_, pairs)| pairs);
        let would = pairs.any(|c| !variables(self.rules, *c).is_empty() && self.holds(*c));
        for (label, is) in [
            ("none is taken", any && enabled == 0),
            (
                "none is taken that has a pair that holds",
                would && enabled == 0,
            ),
            ("two rivals hold", any && enabled > 1),
            ("a rival does not hold", any && enabled < self.rivals.len()),
            ("four are asked", any && self.asked.len() == 4),
            ("one is a guard too", shared > 0),
        ] {
            labels.extend(is.then(|| label.to_string()));
        }
        labels
    }
}

/// What entries have armed that ask about variables, by all but these: the rules, the state, the unit and
/// the values.
type ArmedBy = HashMap<(Vec<u8>, u8, u8, Vec<i32>), BTreeSet<Vec<u8>>>;

/// What a taken event shows; an exit, that it breaks a triple whose precondition names a variable.
fn of_taken<R: Told>(
    rules: &R,
    bench: &Bench<R>,
    event: &Record,
    next: &R::State,
    armed: &mut ArmedBy,
) -> Vec<String> {
    let before = bench.common();
    if event.kind == Kind::Entry.byte() {
        let entry = Entry::new(rules, before, event);
        if !entry.naming.is_empty() {
            let (main, values) = (before.main, event.values.clone());
            let key = (bench.rules.clone(), main, event.unit, values);
            armed.entry(key).or_default().insert(R::armed(next));
        }
        return entry.labels();
    }
    let verdict = R::common(next).verdict;
    let broken = verdict.and_then(|verdict| verdict.cause.triple());
    let mut before = broken.into_iter().flat_map(|n| rules.preconditions_of(n));
    let names = before.any(|condition| !variables(rules, condition).is_empty());
    names
        .then(|| "a triple broken".into())
        .into_iter()
        .collect()
}

/// What a frame shows, labels that decide among it.
fn of_frame<R: Told>(
    rules: &R,
    bench: &Bench<R>,
    frame: &Frame<R::Own>,
    armed: &mut ArmedBy,
) -> Vec<String> {
    let event = match frame {
        Frame::Offer { event, .. } => event,
        Frame::Run(log) => return of_log(rules, log),
        _ => return Vec::new(),
    };
    let Ok(next) = rules.event(&bench.state, &event.event()) else {
        return Vec::new();
    };
    // What tells a wrong reading apart is itself right.
    let before = bench.common();
    let again = reading(
        rules,
        before,
        &event.event(),
        next.clone(),
        &before.variables,
    );
    assert!(again == next);
    let labels = of_taken(rules, bench, event, &next, armed).into_iter();
    let labels = labels.map(|label| format!("{} {label}", rules.name()));
    labels.chain(of_event(rules, &bench.state, event)).collect()
}

/// What the pages of a program show, whose lines are those of the reference.
fn shown<R, O>(program: &str) -> Counts
where
    R: Told<Own = O, State = O::State>,
    O: Own,
{
    let (mut counts, mut lines) = (Counts::new(), lines(program).into_iter());
    for page in committed(program, "stdin").chunks(PAGE) {
        let (mut bench, mut armed) = (Bench::<R>::default(), ArmedBy::new());
        for frame in &read_page::<O>(page).0 {
            if let Ok(rules) = R::read(&bench.rules) {
                let labels = of_frame(&rules, &bench, frame, &mut armed);
                labels.into_iter().for_each(|label| add(&mut counts, label));
            }
            if let Some(line) = bench.carry_out(frame) {
                assert_eq!(lines.next(), Some(line));
            }
        }
        for ((rules, ..), _) in armed.iter().filter(|(_, armed)| armed.len() > 1) {
            let name = R::read(rules).map_or("", |rules| rules.name());
            add(
                &mut counts,
                format!("{name} the same entry arms differently"),
            );
        }
    }
    counts
}

/// What must be shown of each engine, and how often at least.
const SHOWN: [(&str, usize); 15] = [
    ("one that names 1 holds", 100),
    ("one that names 1 does not hold", 100),
    ("one that names 2 holds", 10),
    ("one that names 2 does not hold", 10),
    ("one that names 3 holds", 8),
    ("one that names 3 does not hold", 8),
    ("one that names 4 holds", 8),
    ("one that names 4 does not hold", 8),
    ("one with a program variable holds", 60),
    ("one with a program variable does not hold", 60),
    ("a rival does not hold", 40),
    ("four are asked", 20),
    ("one is a guard too", 20),
    ("a triple broken", 60),
    ("the same entry arms differently", 20),
];
/// Of each label that is wanted of the generator: with a wrong reading so many answers would be others.
const OF_EACH: usize = 50;

fn assert_engine_shown(counts: &Counts, engine: &str, own: &[(&str, usize)]) {
    for (label, least) in SHOWN.iter().chain(own) {
        assert_shown(counts, &[(&format!("{engine} {label}"), *least)]);
    }
    for label in of_engine(engine) {
        assert_shown(counts, &[(&label, OF_EACH)]);
    }
}

#[test]
fn of_sheets() {
    let counts = shown::<Sheet, Arms>("monitor_cases");
    let own = [("none is taken", 40), ("two rivals hold", 20)];
    assert_engine_shown(&counts, "sheet", &own);
}

#[test]
fn of_networks() {
    let counts = shown::<Network, Checkers>("network_cases");
    let none = ("none is taken that has a pair that holds", 10);
    // Of version 3 two hold only where no conditions were joined.
    assert_engine_shown(&counts, "version 2", &[none, ("two rivals hold", 40)]);
    assert_engine_shown(&counts, "version 3", &[none]);
}

// ---- The committed inputs ---------------------------------------------------------------------

/// Inputs of which a line would be another with a wrong reading, on the sheet or on its network.
#[test]
fn of_whole_inputs() {
    let mut counts = Counts::new();
    for frame in program_cases::all() {
        let input = frame.input();
        let (sheet, log) = split(&input);
        let Ok(sheet) = Sheet::read(sheet) else {
            continue;
        };
        let labels = [of_log(&sheet, log), of_log(&sheet.translate(), log)];
        for label in labels.concat() {
            add(&mut counts, label);
        }
    }
    for engine in &ENGINES[..2] {
        for (label, least) in OF_RUNS.iter().zip([60, 80, 300]) {
            assert_shown(&counts, &[(&format!("{engine} run: {label}"), least)]);
        }
    }
}
