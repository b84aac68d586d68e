//! Document 01's sample A: every line of its list, starred or not.

use reference::implementation::engine::{fresh_network_state, fresh_sheet_state, Engine};
use reference::implementation::network::Network;
use reference::implementation::program::output;
use reference::implementation::refusal::Refusal;
use reference::implementation::run::{run_network, run_sheet, write_log, Outcome, Record};
use reference::implementation::sheet::Sheet;
use reference::implementation::translate::translate;

const SHEET_A: [u8; 39] = [
    0x00, 0x27, 0x01, 0x02, 0x01, 0x02, 0x00, 0x00, 0x00, 0x00, 0x02, 0x01, 0x02,
    0x01, // header
    0x01, 0x00, // condition 0
    0x05, 0x05, 0x11, 0x01, 0x13, 0x00, // condition 1
    0x00, // action 0
    0x00, 0x00, 0x00, 0x00, 0x00, 0x01, // transition 0
    0x01, 0x01, 0x00, 0x00, 0x00, 0x00, // transition 1
    0x00, 0x00, 0x00, 0x01, // triple 0
];

const NETWORK_A: [u8; 53] = [
    0x00, 0x35, 0x02, 0x02, 0x01, 0x02, 0x00, 0x00, 0x00, 0x00, 0x03, 0x02, 0x03,
    0x01, // header
    0x01, 0x00, // condition 0
    0x05, 0x05, 0x11, 0x01, 0x13, 0x00, // condition 1
    0x01, 0x00, // the added condition
    0x00, 0x00, // action 0 and the added one
    0x00, 0x00, 0x00, 0x00, 0x00, 0x01, 0x01, 0x00, 0x00, // transition 0
    0x01, 0x01, 0x00, 0x00, 0x00, 0x00, 0x00, // transition 1
    0x00, 0x00, 0x00, 0x02, 0x01, 0x00, 0x01, 0x00, 0x00, // the added one
    0x00, 0x01, // template 0
];

const LOG: [u8; 30] = [
    0x00, 0x00, 0x00, 0x1E, 0x01, 0x02, // header
    0x00, 0x00, 0x00, 0x07, 0x00, 0x00, 0x00, 0x08, 0x00, 0x00, 0x00, 0x00, // entry
    0x01, 0x00, 0x00, 0x07, 0x00, 0x00, 0x00, 0x08, 0x00, 0x00, 0x00, 0x07, // exit
];

fn record(kind: u8, call: u16, declared: i32, loaded: i32) -> Record {
    Record {
        kind,
        unit: 0,
        call,
        values: vec![declared, loaded],
    }
}

fn entry(call: u16, declared: i32, loaded: i32) -> Record {
    record(0, call, declared, loaded)
}

fn exit(call: u16, declared: i32, loaded: i32) -> Record {
    record(1, call, declared, loaded)
}

/// The program's line, which must be the same for sheet and network.
fn line(records: &[Record]) -> String {
    let log = write_log(2, records);
    let text = output(&[&SHEET_A[..], &log].concat());
    let lines: Vec<&str> = text.lines().collect();
    assert_eq!(lines.len(), 2);
    assert_eq!(lines[0], lines[1]);
    assert_eq!(run_sheet(&SHEET_A, &log).result.to_string(), lines[0]);
    assert_eq!(run_network(&NETWORK_A, &log).result.to_string(), lines[1]);
    lines[0].to_string()
}

#[test]
fn the_log_above() {
    let input = [&SHEET_A[..], &LOG].concat();
    let both = "violated 2 state - triple 0 entry 1\nviolated 2 state - triple 0 entry 1\n";
    assert_eq!(output(&input), both);
    assert_eq!(write_log(2, &[entry(7, 8, 0), exit(7, 8, 7)]), LOG);
}

#[test]
fn the_samples_have_this_sheet_and_log() {
    assert_eq!(SHEET_A[..], include_bytes!("../../samples/A.sheet")[..]);
    assert_eq!(LOG[..], include_bytes!("../../samples/A-loader.log")[..]);
}

#[test]
fn exit_values_8_8_are_clean() {
    assert_eq!(
        line(&[entry(7, 8, 0), exit(7, 8, 8)]),
        "clean 2 state 0 open 0"
    );
}

#[test]
fn exit_values_7_7_fail_for_8_was_declared_at_entry() {
    assert_eq!(
        line(&[entry(7, 8, 0), exit(7, 7, 7)]),
        "violated 2 state - triple 0 entry 1"
    );
}

#[test]
fn a_log_of_6_bytes() {
    assert_eq!(line(&[]), "clean 0 state 0 open 0");
}

#[test]
fn the_entry_alone() {
    assert_eq!(line(&[entry(7, 8, 0)]), "clean 1 state 1 open 1");
}

#[test]
fn two_calls_inside_each_other() {
    let records = [entry(7, 8, 0), entry(9, 3, 0), exit(9, 3, 0), exit(7, 8, 8)];
    assert_eq!(line(&records), "clean 4 state 0 open 0");
}

#[test]
fn exit_9_first() {
    assert_eq!(line(&[exit(9, 0, 0)]), "refused 15 at 1");
    assert_eq!(line(&[exit(9, 0, 0), entry(9, 0, 0)]), "refused 15 at 1");
}

#[test]
fn entry_7_twice() {
    assert_eq!(line(&[entry(7, 8, 0), entry(7, 8, 0)]), "refused 13 at 2");
}

#[test]
fn sixteen_entries_and_a_seventeenth() {
    let mut records: Vec<Record> = (1..=16).map(|call| entry(call, 8, 0)).collect();
    assert_eq!(line(&records), "clean 16 state 1 open 16");
    records.push(entry(17, 8, 0));
    assert_eq!(line(&records), "refused 14 at 17");
    records[16] = entry(5, 8, 0);
    assert_eq!(line(&records), "refused 13 at 17");
    // An exit makes a place free again.
    records[16] = exit(5, 8, 8);
    records.push(entry(17, 8, 0));
    assert_eq!(line(&records), "clean 18 state 1 open 16");
}

#[test]
fn the_network_of_a() {
    let mut buffer = [0xEE; 60];
    assert_eq!(translate(&SHEET_A, &mut buffer), Ok(53));
    assert_eq!(buffer[..53], NETWORK_A);
    assert_eq!(buffer[53..], [0xEE; 7]);
    let mut exact = [0xEE; 53];
    assert_eq!(translate(&SHEET_A, &mut exact), Ok(53));
    assert_eq!(exact, NETWORK_A);
    let mut short = [0xEE; 52];
    assert_eq!(translate(&SHEET_A, &mut short), Err(Refusal::Buffer));
    assert_eq!(short, [0xEE; 52]);
}

#[test]
fn reading_and_writing_give_the_same_bytes() {
    assert_eq!(
        Sheet::read(&SHEET_A).map(|s| s.bytes()),
        Ok(SHEET_A.to_vec())
    );
    assert_eq!(
        Network::read(&NETWORK_A).map(|n| n.bytes()),
        Ok(NETWORK_A.to_vec())
    );
}

#[test]
fn fresh_states() {
    let (state, refusal) = fresh_sheet_state(&SHEET_A);
    assert_eq!(refusal, None);
    assert_eq!((state.common.main, state.common.position), (0, 0));
    assert!(state.is_sound(&Sheet::read(&SHEET_A).unwrap()));
    let (state, refusal) = fresh_network_state(&NETWORK_A);
    assert_eq!(refusal, None);
    assert!(state.is_sound(&Network::read(&NETWORK_A).unwrap()));
    // A refused one has an all-zero state beside its refusal.
    let (state, refusal) = fresh_sheet_state(&NETWORK_A);
    assert_eq!(refusal, Some(Refusal::Version));
    assert_eq!(state, Default::default());
    let (state, refusal) = fresh_network_state(&SHEET_A);
    assert_eq!(refusal, Some(Refusal::Version));
    assert_eq!(state, Default::default());
}

#[test]
fn refused_logs() {
    let run = |log: &[u8]| {
        let outcome = run_sheet(&SHEET_A, log).result;
        assert_eq!(run_network(&NETWORK_A, log).result, outcome);
        outcome
    };
    let changed = |place: usize, byte: u8| {
        let mut log = LOG;
        log[place] = byte;
        log
    };
    let header = Outcome::Refused(Refusal::LogHeader);
    assert_eq!(run(&[]), header);
    assert_eq!(run(&[0, 0, 0, 5, 1]), header);
    assert_eq!(run(&changed(3, 0x1F)), header);
    assert_eq!(run(&changed(0, 1)), header);
    assert_eq!(run(&changed(4, 2)), header);
    assert_eq!(run(&LOG[..29]), header);
    assert_eq!(run(&changed(5, 3)), Outcome::Refused(Refusal::LogVariables));
    assert_eq!(
        run(&[0, 0, 0, 7, 1, 2, 0]),
        Outcome::Refused(Refusal::LogRecords)
    );
    assert_eq!(
        run(&[0, 0, 0, 7, 1, 1, 0]),
        Outcome::Refused(Refusal::LogVariables)
    );
    assert_eq!(
        run(&changed(6, 2)),
        Outcome::RefusedAt(Refusal::Arguments, 1)
    );
    assert_eq!(
        run(&changed(19, 1)),
        Outcome::RefusedAt(Refusal::Arguments, 2)
    );
}

#[test]
fn refusal_18_at_every_length() {
    for length in 6..=LOG.len() {
        let mut log = LOG[..length].to_vec();
        log[3] = length as u8;
        let whole = (length - 6) % 12 == 0;
        let on_sheet = run_sheet(&SHEET_A, &log).result;
        let refused = on_sheet == Outcome::Refused(Refusal::LogRecords);
        assert_eq!(refused, !whole, "{length}");
        assert_eq!(run_network(&NETWORK_A, &log).result, on_sheet);
    }
}

#[test]
fn records_after_a_verdict_are_not_judged() {
    let records = [
        entry(7, 8, 0),
        exit(7, 8, 7),
        record(9, 0, 0, 0),
        exit(3, 0, 0),
    ];
    assert_eq!(line(&records), "violated 2 state - triple 0 entry 1");
}

#[test]
fn the_program_on_odd_inputs() {
    let both = |line: &str| format!("{line}\n{line}\n");
    assert_eq!(output(&[]), both("refused 1"));
    assert_eq!(output(&[0]), both("refused 1"));
    assert_eq!(output(&[0, 0]), both("refused 1"));
    assert_eq!(output(&[0, 1, 9, 9]), both("refused 1"));
    assert_eq!(output(&SHEET_A[..38]), both("refused 1"));
    assert_eq!(output(&SHEET_A), both("refused 16"));
    // The sheet's refusal is first, though the log is wrong too.
    assert_eq!(output(&NETWORK_A), both("refused 2"));
    let mut long = SHEET_A.to_vec();
    long.resize(65_536, 0);
    assert_eq!(output(&long), both("refused 16"));
    long.push(0);
    assert_eq!(output(&long), "too long\n");
    assert_eq!(output(&vec![0xFF; 65_536]), both("refused 2"));
    assert_eq!(output(&vec![0xFF; 65_534]), both("refused 1"));
}

#[test]
fn a_state_from_one_event_to_the_next() {
    let sheet = Sheet::read(&SHEET_A).unwrap();
    let first = entry(7, 8, 0);
    let state = sheet.event(&sheet.fresh(), &first.event()).unwrap();
    assert_eq!(state.armed[0].numbers(), [0]);
    assert_eq!(state.common.calls[0].kept, [8, 0, 0, 0, 0, 0, 0, 0]);
    // A refused event does not advance the position.
    assert_eq!(
        sheet.event(&state, &first.event()),
        Err(Refusal::AlreadyOpen)
    );
    let state = sheet.event(&state, &exit(7, 8, 7).event()).unwrap();
    assert_eq!(state.common.position, 2);
    assert_eq!(
        sheet.event(&state, &first.event()),
        Err(Refusal::HasVerdict)
    );
}
