//! Document 02's slip 2: plus and minus stop at the ends of the signed range, and the tick comparison
//! alone turns round. What the committed cases must show of it is written down here, whatever the
//! generators make, and looked for in the files that the case programs read.

mod committed;
mod evaluations;

use committed::{add, assert_shown, committed, Counts};
use reference::counting::ends::{wanted, Operator, Stop, Turned, Written};
use reference::counting::tally;
use reference::framing::condition_frames::{self, Kind};
use reference::framing::monitor_frames::Arms;
use reference::framing::network_frames::Checkers;
use reference::framing::pages::PAGE;
use reference::framing::script_frames::{read_page, Bench, Frame, Own};
use reference::implementation::expr::{self, Action, Assignment, Condition, Lent, Value};
use reference::implementation::machine;
use reference::implementation::network::Network;
use reference::implementation::run::run;
use reference::implementation::sheet::Sheet;
use reference::making::draft::SheetDraft;
use std::fs;

const NOTHING: Lent = Lent {
    program: &[],
    monitor: &[],
    kept: &[],
};

const NUMBERS: [i32; 15] = [
    i32::MIN,
    i32::MIN + 1,
    i32::MIN + 2,
    -(1 << 30) - 1,
    -(1 << 30),
    -2,
    -1,
    0,
    1,
    2,
    (1 << 30) - 1,
    1 << 30,
    i32::MAX - 2,
    i32::MAX - 1,
    i32::MAX,
];

fn constant(n: i32) -> Box<Value> {
    Box::new(Value::Constant(n))
}

fn plus(a: i32, b: i32) -> Value {
    Value::Plus(constant(a), constant(b))
}

fn minus(a: i32, b: i32) -> Value {
    Value::Minus(constant(a), constant(b))
}

fn each_pair(mut see: impl FnMut(i32, i32)) {
    for a in NUMBERS {
        NUMBERS.iter().for_each(|b| see(a, *b));
    }
}

// ---- The definition ---------------------------------------------------------------------------

#[test]
fn the_last_starred_case() {
    assert_eq!(plus(2147483647, 1).of(&NOTHING), 2147483647);
}

#[test]
fn plus_and_minus_stop_at_the_ends() {
    each_pair(|a, b| {
        assert_eq!(plus(a, b).of(&NOTHING), a.saturating_add(b), "{a} plus {b}");
        let less = a.saturating_sub(b);
        assert_eq!(minus(a, b).of(&NOTHING), less, "{a} minus {b}");
    });
}

#[test]
fn ticks_turn_round() {
    each_pair(|a, b| {
        let elapsed = a.wrapping_sub(b);
        let within = |k: i32| Condition::Within(constant(a), constant(b), constant(k));
        assert!(within(elapsed).holds(&NOTHING), "{a} {b}");
        if elapsed != 0 {
            let less = elapsed.wrapping_sub(1);
            assert!(!within(less).holds(&NOTHING), "{a} {b}");
        }
    });
}

/// Each operator stops by itself: an outer one sees what an inner one gives.
#[test]
fn an_inner_sum_stops_first() {
    let over = Box::new(plus(i32::MAX, 1));
    let back = Value::Minus(over, constant(1));
    assert_eq!(back.of(&NOTHING), 2147483646);
    let under = Box::new(minus(i32::MIN, 1));
    let back = Value::Plus(under, constant(1));
    assert_eq!(back.of(&NOTHING), -2147483647);
}

/// What decides is found out with operators that turn round at one end, so these must be right.
#[test]
fn what_turns_round_does_so_at_its_end_alone() {
    each_pair(|a, b| {
        for (operator, stopping, turning) in [
            (Operator::Plus, plus(a, b), a.wrapping_add(b)),
            (Operator::Minus, minus(a, b), a.wrapping_sub(b)),
        ] {
            let stopped = stopping.of(&NOTHING);
            let stops = Stop::ALL.iter().map(|stop| stop.value(&stopping));
            let given: Vec<i32> = stops.map(|value| value.of(&NOTHING)).collect();
            let turned = given.iter().filter(|n| **n == turning).count();
            match stopped == turning {
                true => assert_eq!(given, [stopped; 4], "{operator:?} {a} {b}"),
                false => assert_eq!(turned, 1, "{operator:?} {a} {b}"),
            }
            assert!(given.iter().all(|n| [stopped, turning].contains(n)));
        }
    });
}

// ---- The counter of the request ---------------------------------------------------------------

/// The counter adds up what unit 0 reports at its exits; at an entry of unit 1 more than 2,000,000,000
/// is bad.
fn actuations() -> Vec<u8> {
    let mut sheet = SheetDraft::new(2, 2, 1, &[0]);
    sheet.front.bad = 0b10;
    let counter = || Box::new(Value::Monitor(0));
    let always = sheet.condition(&Condition::True);
    let more = sheet.condition(&Condition::Less(constant(2_000_000_000), counter()));
    let nothing = sheet.action(&Action::default());
    let adds = sheet.action(&Action {
        assignments: vec![Assignment {
            variable: 0,
            value: Value::Plus(counter(), Box::new(Value::Program(0))),
        }],
    });
    sheet.transition(0, 0, (machine::Kind::Exit, 0), always, adds);
    sheet.transition(0, 1, (machine::Kind::Entry, 1), more, nothing);
    sheet.bytes()
}

fn sample(name: &str) -> Vec<u8> {
    let top = concat!(env!("CARGO_MANIFEST_DIR"), "/../samples");
    fs::read(format!("{top}/{name}")).expect("the file is there")
}

/// A counter that passes the greatest number is more than the limit all the same, on the sheet and on
/// both of its networks. Where sums turned round, the run was clean.
#[test]
fn the_more_than_rule_holds_past_the_greatest() {
    assert_eq!(actuations(), sample("actuations.sheet"));
    let sheet = Sheet::read(&actuations()).expect("it is a sheet");
    let network = sheet.translate();
    for (log, line, stops) in [
        ("few", "clean 6 state 0 open 0", false),
        ("many", "violated 7 state 1 triple - entry -", false),
        ("passed", "violated 7 state 1 triple - entry -", true),
        ("later", "violated 11 state 1 triple - entry -", true),
    ] {
        let log = sample(&format!("actuations-{log}.log"));
        let lines = [
            run(&sheet, &log),
            run(&network, &log),
            run(&network.separated(), &log),
        ];
        assert_eq!(lines.map(|run| run.result.to_string()), [line; 3]);
        let decides = Turned::of(&sheet).of_log(&log);
        let label = format!("sheet run: {}", STOPS[0]);
        assert_eq!(decides.contains(&label), stops, "{decides:?}");
    }
}

// ---- What is wanted ---------------------------------------------------------------------------

const STOPS: [&str; 4] = [
    "plus stopping at the greatest decides",
    "plus stopping at the least decides",
    "minus stopping at the greatest decides",
    "minus stopping at the least decides",
];
const PARTS: [&str; 4] = ["the state", "a variable", "what is armed", "the triple"];
const ENGINES: [&str; 3] = ["sheet", "version 2", "version 3"];

/// Of a sheet or of networks of a version: each stop in runs, and in each part of a state.
fn of_engine(engine: &str) -> Vec<String> {
    let runs = STOPS.map(|stop| format!("{engine} run: {stop}"));
    let events = STOPS.iter().flat_map(|stop| {
        let parts = PARTS.iter();
        parts.map(move |part| format!("{engine} event: {stop} {part}"))
    });
    runs.into_iter().chain(events).collect()
}

#[test]
fn all_of_it_is_wanted() {
    let (wanted, tallied) = (wanted(), tally::wanted());
    let labels: Vec<String> = ENGINES.iter().flat_map(|e| of_engine(e)).collect();
    assert_eq!(labels.len(), 60);
    assert_eq!(wanted.len(), 60);
    for label in labels {
        assert!(wanted.contains(&label), "{label}");
        assert!(tallied.contains(&label), "{label}");
    }
}

// ---- condition_cases --------------------------------------------------------------------------

/// The answer where an operator turns round at an end.
fn turned_answer(stop: Stop, frame: &condition_frames::Frame) -> Option<String> {
    let lent = Lent {
        program: &frame.program,
        monitor: &frame.monitor,
        kept: &frame.kept,
    };
    let (bytes, counts) = (&frame.expression, lent.counts());
    Some(match frame.kind {
        Kind::Condition => {
            let condition = expr::read_condition(bytes, counts).ok()?;
            stop.condition(&condition).holds(&lent).to_string()
        }
        Kind::Value => {
            let value = expr::read_value(bytes, counts).ok()?;
            stop.value(&value).of(&lent).to_string()
        }
        Kind::Action => {
            let action = stop.action(&expr::read_action(bytes, counts).ok()?);
            let mut monitor = frame.monitor.clone();
            action.carry_out(lent.program, &mut monitor, lent.kept);
            let values = monitor.iter().map(|n| format!(" {n}"));
            format!("done{}", values.collect::<String>())
        }
        Kind::JudgeCondition | Kind::JudgeAction => return None,
    })
}

#[test]
fn of_conditions() {
    let mut counts = Counts::new();
    for (frame, line) in &evaluations::conditions() {
        for (stop, label) in Stop::ALL.into_iter().zip(STOPS) {
            let turned = turned_answer(stop, frame);
            if turned.is_some_and(|turned| turned != *line) {
                add(&mut counts, format!("{:?}: {label}", frame.kind));
            }
        }
    }
    for (kind, least) in [("Value", 60), ("Condition", 20), ("Action", 5)] {
        for label in STOPS {
            assert_shown(&counts, &[(&format!("{kind}: {label}"), least)]);
        }
    }
}

// ---- monitor_cases and network_cases ----------------------------------------------------------

/// What decides in the frames of a page.
fn count_page<R, O>(page: &[u8], counts: &mut Counts)
where
    R: Written<Own = O, State = O::State>,
    O: Own,
{
    let (frames, _) = read_page::<O>(page);
    let mut bench = Bench::<R>::default();
    let mut turned: Option<Turned<R>> = None;
    for frame in &frames {
        if let Frame::Rules(bytes) = frame {
            turned = R::read(bytes).ok().map(|rules| Turned::of(&rules));
        }
        let labels = match (&turned, frame) {
            (Some(turned), Frame::Run(log)) => turned.of_log(log),
            (Some(turned), Frame::Offer { event, .. }) => turned.of_event(&bench.state, event),
            _ => Vec::new(),
        };
        labels.into_iter().for_each(|label| add(counts, label));
        bench.carry_out(frame);
    }
}

fn assert_each_often(counts: &Counts, engine: &str) {
    for label in of_engine(engine) {
        assert_shown(counts, &[(&label, 5)]);
    }
}

#[test]
fn of_sheets() {
    let mut counts = Counts::new();
    for page in committed("monitor_cases", "stdin").chunks(PAGE) {
        count_page::<Sheet, Arms>(page, &mut counts);
    }
    assert_each_often(&counts, "sheet");
}

#[test]
fn of_networks() {
    let mut counts = Counts::new();
    for page in committed("network_cases", "stdin").chunks(PAGE) {
        count_page::<Network, Checkers>(page, &mut counts);
    }
    assert_each_often(&counts, "version 2");
    assert_each_often(&counts, "version 3");
}
