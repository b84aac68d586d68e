//! The worked examples of source documents 000 and 003: the coffee machine (000, examples 1, 5, 8
//! and 9, section 7.2) and the file transfers (003, figure 2; 000, example 2).

use reference::implementation::engine::Engine;
use reference::implementation::expr::{Action, Assignment, Condition, Value};
use reference::implementation::machine::Kind;
use reference::implementation::network::Pair;
use reference::implementation::run::{run_network, run_sheet, write_log, Record};
use reference::implementation::sheet::Sheet;
use reference::implementation::state::{Cause, Checker};
use reference::implementation::translate::{translate, BUFFER};
use reference::making::draft::SheetDraft;

fn program(n: u8) -> Box<Value> {
    Box::new(Value::Program(n))
}

fn at_entry(n: u8) -> Box<Value> {
    Box::new(Value::AtEntry(n))
}

fn constant(n: i32) -> Box<Value> {
    Box::new(Value::Constant(n))
}

fn plus(a: Box<Value>, b: Box<Value>) -> Box<Value> {
    Box::new(Value::Plus(a, b))
}

fn assign(variable: u8, value: Value) -> Action {
    Action {
        assignments: vec![Assignment { variable, value }],
    }
}

fn call(kind: Kind, unit: u8, number: u16, values: &[i32]) -> Record {
    Record {
        kind: kind.byte(),
        unit,
        call: number,
        values: values.to_vec(),
    }
}

/// The line for a trace, which must be the same on the sheet and on its network.
fn line(sheet: &[u8], records: &[Record]) -> String {
    let read = Sheet::read(sheet).expect("the example is a sheet");
    let log = write_log(read.machine.header.program, records);
    let mut buffer = vec![0; BUFFER];
    let length = translate(sheet, &mut buffer).expect("it can be translated");
    let on_sheet = run_sheet(sheet, &log).result;
    assert_eq!(run_network(&buffer[..length], &log).result, on_sheet);
    on_sheet.to_string()
}

// ---- The coffee machine -----------------------------------------------------------------------

const BREW: u8 = 0;
const CLEAN: u8 = 1;
const IDLE: u8 = 0;
const ACTIVE: u8 = 1;
const BAD: u8 = 2;
const LIMIT: i32 = 5;

/// Program variables: cups, limit. Conditions: 0 true, 1 cups < limit, 2 cups == old(cups) + 1,
/// 3 cups == 0, 4 cups == old(cups). Triples 0 to 3 are h1 to h4.
fn coffee_machine() -> Vec<u8> {
    let mut sheet = SheetDraft::new(3, 2, 2, &[]);
    sheet.front.bad = 1 << BAD;
    let always = sheet.condition(&Condition::True);
    let can_brew = sheet.condition(&Condition::Less(program(0), program(1)));
    let one_more = plus(at_entry(0), constant(1));
    let one_more = sheet.condition(&Condition::Equal(program(0), one_more));
    let none = sheet.condition(&Condition::Equal(program(0), constant(0)));
    let same = sheet.condition(&Condition::Equal(program(0), at_entry(0)));
    let skip = sheet.action(&Action::default());
    sheet.transition(IDLE, ACTIVE, (Kind::Entry, BREW), can_brew, skip);
    sheet.transition(ACTIVE, IDLE, (Kind::Exit, BREW), always, skip);
    sheet.transition(ACTIVE, BAD, (Kind::Entry, BREW), always, skip);
    sheet.transition(ACTIVE, BAD, (Kind::Entry, CLEAN), always, skip);
    sheet.triple(IDLE, BREW, can_brew, one_more);
    sheet.triple(IDLE, CLEAN, always, none);
    sheet.triple(ACTIVE, BREW, can_brew, same);
    sheet.triple(ACTIVE, CLEAN, always, same);
    sheet.bytes()
}

fn starts(unit: u8, number: u16, cups: i32) -> Record {
    call(Kind::Entry, unit, number, &[cups, LIMIT])
}

fn ends(unit: u8, number: u16, cups: i32) -> Record {
    call(Kind::Exit, unit, number, &[cups, LIMIT])
}

#[test]
fn the_samples_have_this_coffee_machine() {
    let sample = include_bytes!("../../samples/coffee.sheet");
    assert_eq!(coffee_machine(), sample);
}

#[test]
fn example_9_valid_traces() {
    let sheet = coffee_machine();
    let w = [
        starts(BREW, 1, 0),
        ends(BREW, 1, 1),
        starts(BREW, 2, 1),
        ends(BREW, 2, 2),
    ];
    let w1 = [
        starts(BREW, 5, 3),
        ends(BREW, 5, 4),
        starts(CLEAN, 2, 4),
        ends(CLEAN, 2, 0),
    ];
    let w2 = [
        starts(CLEAN, 4, 2),
        ends(CLEAN, 4, 0),
        starts(BREW, 2, 0),
        ends(BREW, 2, 1),
    ];
    for trace in [w, w1, w2] {
        assert_eq!(line(&sheet, &trace), "clean 4 state 0 open 0");
    }
}

#[test]
fn example_8_counterexample_by_state() {
    let sheet = coffee_machine();
    let w = [starts(BREW, 1, 0), starts(BREW, 2, 0)];
    assert_eq!(line(&sheet, &w), "violated 2 state 2 triple - entry -");
    let cleaning = [starts(BREW, 1, 0), starts(CLEAN, 2, 0)];
    assert_eq!(
        line(&sheet, &cleaning),
        "violated 2 state 2 triple - entry -"
    );
}

#[test]
fn example_8_counterexample_by_postcondition() {
    let sheet = coffee_machine();
    // The call number 1 is used again, for the other method.
    let w = [
        starts(BREW, 1, 0),
        ends(BREW, 1, 1),
        starts(CLEAN, 1, 1),
        ends(CLEAN, 1, 1),
    ];
    assert_eq!(line(&sheet, &w), "violated 4 state - triple 1 entry 3");
}

#[test]
fn traces_with_a_counterexample_in_front_are_violating() {
    let sheet = coffee_machine();
    let w = [
        starts(BREW, 1, 0),
        starts(BREW, 2, 0),
        ends(BREW, 2, 0),
        ends(BREW, 1, 1),
    ];
    assert_eq!(line(&sheet, &w), "violated 2 state 2 triple - entry -");
}

#[test]
fn brewing_must_add_a_cup() {
    let sheet = coffee_machine();
    let w = [starts(BREW, 1, 0), ends(BREW, 1, 0)];
    assert_eq!(line(&sheet, &w), "violated 2 state - triple 0 entry 1");
}

#[test]
fn at_the_limit_nothing_is_asked_of_brewing() {
    // "The violation of preconditions does not as such result in a counter example."
    let sheet = coffee_machine();
    let w = [starts(BREW, 1, LIMIT), ends(BREW, 1, 77)];
    assert_eq!(line(&sheet, &w), "clean 2 state 0 open 0");
    // Not being active, cleaning may begin meanwhile.
    let w = [
        starts(BREW, 1, LIMIT),
        starts(CLEAN, 2, LIMIT),
        ends(CLEAN, 2, 0),
    ];
    assert_eq!(line(&sheet, &w), "clean 3 state 0 open 1");
}

#[test]
fn example_5_configuration_after_the_first_entry() {
    let sheet = Sheet::read(&coffee_machine()).unwrap();
    let entry = starts(BREW, 9, 0);
    let state = sheet.event(&sheet.fresh(), &entry.event()).unwrap();
    assert_eq!(state.common.main, ACTIVE);
    assert_eq!(state.armed[0].numbers(), [0]);
    assert_eq!(state.common.calls[0].kept[..2], [0, LIMIT]);
    let network = sheet.translate();
    let state = network.event(&network.fresh(), &entry.event()).unwrap();
    let checker = Checker {
        call: 9,
        template: 0,
        entry: 1,
    };
    assert_eq!(state.living_checkers(), [checker]);
}

#[test]
fn section_7_2_translation_of_the_coffee_machine() {
    let network = Sheet::read(&coffee_machine()).unwrap().translate();
    let pair = |condition, template| Pair {
        condition,
        template,
    };
    let pairs: Vec<Vec<Pair>> = network
        .transitions
        .iter()
        .map(|c| c.pairs.clone())
        .collect();
    let given = [vec![pair(1, 0)], vec![], vec![pair(1, 2)], vec![pair(0, 3)]];
    assert_eq!(pairs[..4], given);
    // Document 01 adds one for each state and unit with triples; t'5 of 000 is the second.
    let added = [
        vec![pair(1, 0)],
        vec![pair(0, 1)],
        vec![pair(1, 2)],
        vec![pair(0, 3)],
    ];
    assert_eq!(pairs[4..], added);
    let places: Vec<[u8; 6]> = network.transitions[4..]
        .iter()
        .map(|c| c.transition.bytes())
        .collect();
    let expected = [
        [0, 0, 0, 5, 1, 0],
        [0, 0, 1, 5, 1, 0],
        [1, 0, 0, 5, 1, 1],
        [1, 0, 1, 5, 1, 1],
    ];
    assert_eq!(places, expected);
}

// ---- File transfers ---------------------------------------------------------------------------

const LOGIN: u8 = 0;
const LOGOUT: u8 = 1;
const TRANSFER: u8 = 2;
const RENAME: u8 = 3;
const OUT: u8 = 0;
const IN: u8 = 1;

/// Program variables: bytes, size(f), may write f, name(f), n. Monitor variable: c.
/// Triples: 0 a transfer adds the size; 1 a rename gives the new name; 2 no transfer when out.
/// `counted` is the kind of event at which a transfer is counted. 003 says that a transfer's
/// entry would clash with a triple "if we added" it, so the figure counts exits.
fn file_transfers(counted: Kind) -> Vec<u8> {
    let mut sheet = SheetDraft::new(3, 4, 5, &[0]);
    sheet.front.bad = 1 << BAD;
    let c = || Box::new(Value::Monitor(0));
    let always = sheet.condition(&Condition::True);
    let over = Condition::Less(constant(10), c());
    let within_limit = sheet.condition(&Condition::Not(Box::new(over.clone())));
    let over = sheet.condition(&over);
    let grown = Condition::Equal(program(0), plus(at_entry(0), program(1)));
    let grown = sheet.condition(&grown);
    let may_write = sheet.condition(&Condition::Equal(program(2), constant(1)));
    let renamed = sheet.condition(&Condition::Equal(program(3), program(4)));
    let same = sheet.condition(&Condition::Equal(program(0), at_entry(0)));
    let skip = sheet.action(&Action::default());
    let reset = sheet.action(&assign(0, Value::Constant(0)));
    let count = sheet.action(&assign(0, Value::Plus(c(), constant(1))));
    sheet.transition(OUT, IN, (Kind::Entry, LOGIN), always, reset);
    sheet.transition(IN, IN, (counted, TRANSFER), within_limit, count);
    sheet.transition(IN, BAD, (counted, TRANSFER), over, skip);
    sheet.transition(IN, OUT, (Kind::Entry, LOGOUT), always, skip);
    sheet.triple(IN, TRANSFER, always, grown);
    sheet.triple(IN, RENAME, may_write, renamed);
    sheet.triple(OUT, TRANSFER, always, same);
    sheet.bytes()
}

/// An entry and an exit of one call with the bytes transferred before and after.
fn whole(unit: u8, number: u16, before: i32, after: i32) -> [Record; 2] {
    let size = 100;
    [
        call(Kind::Entry, unit, number, &[before, size, 0, 0, 0]),
        call(Kind::Exit, unit, number, &[after, size, 0, 0, 0]),
    ]
}

/// A login and `count` transfers, each of 100 bytes.
fn session(count: u16) -> Vec<Record> {
    let mut records = whole(LOGIN, 1, 0, 0).to_vec();
    for n in 0..count {
        let before = 100 * i32::from(n);
        records.extend(whole(TRANSFER, 10 + n, before, before + 100));
    }
    records
}

#[test]
fn the_samples_have_these_file_transfers() {
    let sample = include_bytes!("../../samples/files.sheet");
    assert_eq!(file_transfers(Kind::Exit), sample);
}

#[test]
fn ten_transfers_in_a_session_are_valid() {
    for counted in [Kind::Entry, Kind::Exit] {
        let sheet = file_transfers(counted);
        assert_eq!(line(&sheet, &session(10)), "clean 22 state 1 open 0");
        // c <= 10 still lets the eleventh pass, as the transition is written.
        assert_eq!(line(&sheet, &session(11)), "clean 24 state 1 open 0");
    }
}

#[test]
fn a_transfer_with_c_over_10_is_a_counterexample_by_state() {
    let at_exit = line(&file_transfers(Kind::Exit), &session(12));
    assert_eq!(at_exit, "violated 26 state 2 triple - entry -");
    let at_entry = line(&file_transfers(Kind::Entry), &session(12));
    assert_eq!(at_entry, "violated 25 state 2 triple - entry -");
}

#[test]
fn a_new_login_counts_anew() {
    let sheet = file_transfers(Kind::Exit);
    let mut records = session(11);
    records.extend(whole(LOGOUT, 2, 0, 0));
    records.extend(session(11));
    assert_eq!(line(&sheet, &records), "clean 50 state 1 open 0");
}

#[test]
fn a_transfer_must_add_its_size() {
    for counted in [Kind::Entry, Kind::Exit] {
        let mut records = session(3);
        records.extend(whole(TRANSFER, 40, 300, 399));
        assert_eq!(
            line(&file_transfers(counted), &records),
            "violated 10 state - triple 0 entry 9"
        );
    }
}

#[test]
fn the_last_transfer_can_fail_by_state_and_triple_at_once() {
    let mut records = session(11);
    records.extend(whole(TRANSFER, 40, 1100, 1100));
    let sheet = file_transfers(Kind::Exit);
    assert_eq!(
        line(&sheet, &records),
        "violated 26 state 2 triple 0 entry 25"
    );
    let read = Sheet::read(&sheet).unwrap();
    let mut state = read.fresh();
    for record in &records {
        state = read.event(&state, &record.event()).unwrap();
    }
    let both = Cause::Both {
        state: 2,
        triple: 0,
    };
    assert_eq!(state.common.verdict.map(|v| v.cause), Some(both));
}

#[test]
fn logged_out_a_transfer_must_change_nothing() {
    let sheet = file_transfers(Kind::Exit);
    assert_eq!(
        line(&sheet, &whole(TRANSFER, 1, 50, 50)),
        "clean 2 state 0 open 0"
    );
    assert_eq!(
        line(&sheet, &whole(TRANSFER, 1, 50, 150)),
        "violated 2 state - triple 2 entry 1"
    );
}

#[test]
fn the_triple_is_that_of_the_state_at_entry() {
    // A transfer that begins before the logout is judged by the rule for being logged in.
    let sheet = file_transfers(Kind::Exit);
    let mut records = session(0);
    let [begins, ends] = whole(TRANSFER, 5, 0, 100);
    records.push(begins);
    records.extend(whole(LOGOUT, 6, 0, 0));
    records.push(ends);
    assert_eq!(line(&sheet, &records), "clean 6 state 0 open 0");
}

#[test]
fn renaming_needs_the_right_to_write() {
    let sheet = file_transfers(Kind::Exit);
    let rename = |may_write: i32, name_after: i32| {
        let mut records = session(0);
        records.push(call(Kind::Entry, RENAME, 3, &[0, 0, may_write, 7, 8]));
        records.push(call(
            Kind::Exit,
            RENAME,
            3,
            &[0, 0, may_write, name_after, 8],
        ));
        line(&sheet, &records)
    };
    assert_eq!(rename(1, 8), "clean 4 state 1 open 0");
    assert_eq!(rename(1, 7), "violated 4 state - triple 1 entry 3");
    assert_eq!(rename(0, 7), "clean 4 state 1 open 0");
}

#[test]
fn definition_19_actions_in_sequence() {
    // v0 = v0 + 1; v1 = v0: the second assignment sees the first.
    let mut sheet = SheetDraft::new(2, 1, 0, &[4, 0]);
    let always = sheet.condition(&Condition::True);
    let action = Action {
        assignments: vec![
            Assignment {
                variable: 0,
                value: Value::Plus(Box::new(Value::Monitor(0)), constant(1)),
            },
            Assignment {
                variable: 1,
                value: Value::Monitor(0),
            },
        ],
    };
    let action = sheet.action(&action);
    sheet.transition(0, 1, (Kind::Entry, 0), always, action);
    let read = Sheet::read(&sheet.bytes()).unwrap();
    let state = read
        .event(&read.fresh(), &call(Kind::Entry, 0, 1, &[]).event())
        .unwrap();
    assert_eq!(state.common.variables, [5, 5, 0, 0]);
}
