//! What decides in the cases of `cases`, `monitor_cases` and `network_cases`: the last of the values
//! and variables, each byte of the numbers, units 8 to 15, every order of four exits.

use reference::counting::deciding::{
    named, of_log, of_script, of_steps, wanted_of_events, wanted_of_runs, wanted_orders,
};
use reference::counting::tally::{of_input, wanted, wanted_of_version_3, Tally};
use reference::implementation::network::Network;
use reference::implementation::program::split;
use reference::implementation::run::write_log;
use reference::implementation::sheet::Sheet;
use reference::making::cases::program_cases;
use reference::making::draft::SheetDraft;
use reference::making::scripts::monitor_cases;
use reference::making::scripts::network_cases;
use reference::making::scripts::script::{entry, exit};

fn assert_none_missing(tally: &Tally, wanted: impl Iterator<Item = String>) {
    println!("{}", tally.lines().join("\n"));
    let missing = tally.missing_of(wanted);
    assert!(missing.is_empty(), "{}", missing.join("; "));
}

/// In a script both runs and events have all of it, the events also the orders.
fn wanted_of_script(engine: &str) -> impl Iterator<Item = String> {
    let events = [wanted_of_events(), wanted_orders()].concat();
    named(engine, "run", wanted_of_runs()).chain(named(engine, "event", events))
}

#[test]
fn in_whole_inputs() {
    let frames = program_cases::all();
    let inputs = frames.iter().map(|frame| frame.input());
    let labels = inputs.flat_map(|input| {
        let (sheet, log) = split(&input);
        of_input(sheet, log)
    });
    let wanted = ["sheet", "network"].map(|engine| named(engine, "run", wanted_of_runs()));
    assert_none_missing(&Tally::of(labels), wanted.into_iter().flatten());
}

#[test]
fn in_scripts_on_sheets() {
    let labels = of_script::<Sheet>("sheet", &monitor_cases::all());
    assert_none_missing(&Tally::of(labels), wanted_of_script("sheet"));
}

#[test]
fn in_scripts_on_networks() {
    let labels = of_script::<Network>("network", &network_cases::all());
    assert_none_missing(&Tally::of(labels), wanted_of_script("network"));
}

/// What occurs in the run of a call of unit 8 on the sheet, and in its events.
fn of_call(sheet: &SheetDraft, entered: i32, left: i32) -> [Vec<String>; 2] {
    let sheet = Sheet::read(&sheet.bytes()).expect("the draft is a sheet");
    let values = |last: i32| [1, 2, 3, 4, 5, 6, 7, last];
    let records = [entry(8, 7, &values(entered)), exit(8, 7, &values(left))];
    let run = of_log(&sheet, &write_log(8, &records));
    [run, of_steps(&sheet, &records)]
}

#[test]
fn what_makes_no_difference_is_not_counted() {
    let mut sheet = SheetDraft::new(1, 16, 8, &[1, 2, 3, 4]);
    assert!(of_call(&sheet, 5, 6).concat().is_empty());
    // The last value is to be that at entry.
    sheet.front.conditions = vec![vec![0], vec![5, 17, 7, 19, 7]];
    sheet.triples = vec![[0, 8, 0, 1]];
    let [run, events] = of_call(&sheet, 5, 5);
    assert_eq!(run, ["the last value at entry decides"]);
    let (value, kept) = ("the last program value decides", &run[0]);
    assert!(events.iter().any(|label| label == value));
    assert!(events.contains(kept));
    let [run, events] = of_call(&sheet, 5, 6);
    assert_eq!(run, [value, "a triple of unit 8 broken"]);
    assert!(!events.contains(kept));
    let [run, _] = of_call(&sheet, 0, 6);
    assert_eq!(run, [value, "a triple of unit 8 broken"]);
    // With fewer variables there is no last one.
    sheet.front.monitor = 3;
    sheet.front.initial.pop();
    assert!(of_call(&sheet, 5, 5).concat().is_empty());
}

/// The generator and what is wanted share the orders and the units, so these are written down here.
const ORDERS: [&str; 24] = [
    "0 1 2 3", "0 1 3 2", "0 2 1 3", "0 2 3 1", "0 3 1 2", "0 3 2 1", "1 0 2 3", "1 0 3 2",
    "1 2 0 3", "1 2 3 0", "1 3 0 2", "1 3 2 0", "2 0 1 3", "2 0 3 1", "2 1 0 3", "2 1 3 0",
    "2 3 0 1", "2 3 1 0", "3 0 1 2", "3 0 2 1", "3 1 0 2", "3 1 2 0", "3 2 0 1", "3 2 1 0",
];
const OF_BOTH: [&str; 20] = [
    "the last program value decides",
    "the last value at entry decides",
    "the last variable decides",
    "an entry's high byte decides",
    "an entry's low byte decides",
    "an exit's high byte decides",
    "an exit's low byte decides",
    "whether a unit is below 8 decides",
    "a triple of unit 8 broken",
    "a triple of unit 9 broken",
    "a triple of unit 10 broken",
    "a triple of unit 11 broken",
    "a triple of unit 12 broken",
    "a triple of unit 13 broken",
    "a triple of unit 14 broken",
    "a triple of unit 15 broken",
    "refused 15 by the high byte",
    "refused 13 behind another high byte",
    "refused 15 by the low byte",
    "refused 13 behind another low byte",
];
const OF_EVENTS: [&str; 8] = [
    "the last program value decides the state",
    "the last program value decides a variable",
    "the last program value decides what is armed",
    "the last program value decides the triple",
    "the last value at entry decides the triple",
    "the last variable decides the state",
    "the last variable decides a variable",
    "the last variable decides what is armed",
];

/// What the generator must make of version 3.
const OF_VERSION_3: [&str; 38] = [
    "card run: violated by state",
    "card run: violated by triple",
    "card run: violated by both",
    "card run: clean, calls open",
    "card run: clean, none open",
    "card run: refused 16",
    "card run: refused 17",
    "card run: refused 18",
    "card run: refused 11 at a record",
    "card run: refused 13 at a record",
    "card run: refused 15 at a record",
    "version 3 run: violated by state",
    "version 3 run: violated by triple",
    "version 3 run: violated by both",
    "version 3 run: clean, calls open",
    "version 3 run: clean, none open",
    "version 3 run: refused 16",
    "version 3 run: refused 17",
    "version 3 run: refused 18",
    "version 3 run: refused 11 at a record",
    "version 3 run: refused 13 at a record",
    "version 3 run: refused 15 at a record",
    "version 3 run: refused 01",
    "version 3 run: refused 04",
    "version 3 run: refused 05",
    "version 3 run: refused 06",
    "version 3 run: refused 07",
    "card: refused 01",
    "card: refused 02",
    "card: refused 03",
    "card: refused 04",
    "card: refused 05",
    "card: refused 06",
    "card: refused 07",
    "card: refused 08",
    "card: refused 19",
    "card: refused 21",
    "card: done",
];

#[test]
fn version_3_is_wanted() {
    assert_eq!(wanted_of_version_3(), OF_VERSION_3);
    let tallied = wanted();
    let label = |label: &&str| tallied.iter().any(|wanted| wanted == label);
    assert!(OF_VERSION_3.iter().all(label));
}

#[test]
fn all_of_it_is_wanted() {
    let orders = ORDERS.map(|order| format!("four calls left in the order {order}"));
    let both = OF_BOTH.map(String::from);
    assert_eq!(wanted_orders(), orders);
    assert_eq!(wanted_of_runs(), [&both[..], &orders].concat());
    let events = wanted_of_events();
    assert_eq!(events[..both.len()], both);
    for part in OF_EVENTS {
        assert!(events.iter().any(|label| label == part), "{part}");
    }
    let tallied = wanted();
    for engine in ["sheet", "network"] {
        let runs = named(engine, "run", wanted_of_runs());
        let all = runs.chain(named(engine, "event", wanted_of_events()));
        assert!(all.into_iter().all(|label| tallied.contains(&label)));
    }
}
