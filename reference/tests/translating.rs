//! Translating, through the cases of `translation_cases`: their frames, and version 2.

mod translations;

use reference::framing::pages::PAGE;
use reference::framing::translation_frames::{read_frames, Frame, Room};
use reference::implementation::expr::Condition;
use reference::implementation::machine::{Kind, Transition};
use reference::implementation::network::Version;
use reference::implementation::sheet::{Sheet, LONGEST_SHEET};
use reference::making::cases::translation_cases;
use reference::making::programs;
use std::collections::{BTreeSet, HashSet};
use translations::{by_the_document, met, plain};

/// Document 01's network of sheet A, as it is written there.
const NETWORK_A: &str = "00 35 02 02 01 02 00 00 00 00 03 02 03 01 | 01 00 | 05 05 11 01 13 00 | 01 00 | 00 | 00 | 00 00 00 00 00 01 01 00 00 | 01 01 00 00 00 00 00 | 00 00 00 02 01 00 01 00 00 | 00 01";

#[test]
fn the_file_is_large_enough_and_small_enough() {
    let files = programs::files("translation_cases").expect("the program is in the table");
    let frames = read_frames(&files.stdin).expect("frames fill the file");
    assert_eq!(frames, translation_cases::all());
    assert!(files.stdin.len() <= 3 * PAGE, "{} bytes", files.stdin.len());
    assert!(files.stdout.len() <= 3_000_000, "{}", files.stdout.len());
    let lines: String = frames
        .iter()
        .flat_map(Frame::lines)
        .map(|line| line + "\n")
        .collect();
    assert_eq!(lines.into_bytes(), files.stdout);
    let sheets = frames.iter().map(|frame| (frame.version, &frame.sheet));
    assert_eq!(sheets.collect::<HashSet<_>>().len(), frames.len());
}

#[test]
fn the_chosen_sheets_are_accepted() {
    for sheet in translation_cases::chosen() {
        assert!(Sheet::read(&sheet).is_ok(), "{sheet:?}");
    }
}

#[test]
fn frames_that_are_cut_are_no_frames() {
    let room = |length, seed| Room { length, seed };
    let frame = Frame {
        version: Version::Three,
        sheet: vec![1, 2, 3],
        rooms: vec![room(258, 5), room(1, 255)],
    };
    let mut bytes = Vec::new();
    frame.write(&mut bytes);
    assert_eq!(bytes, [3, 0, 3, 1, 2, 3, 2, 1, 2, 5, 0, 1, 255]);
    assert_eq!(read_frames(&bytes), Some(vec![frame]));
    for length in 1..bytes.len() {
        assert_eq!(read_frames(&bytes[..length]), None);
    }
    for version in [0, 1, 4] {
        bytes[0] = version;
        assert_eq!(read_frames(&bytes), None);
    }
}

#[test]
fn the_pattern_of_a_buffer() {
    let room = |length, seed| Room { length, seed };
    assert_eq!(room(4, 250).bytes(), [250, 1, 8, 15]);
    assert_eq!(room(0, 3).bytes(), []);
    let long = room(u16::MAX, 3).bytes();
    assert_eq!(long.len(), 65_535);
    assert_eq!(long[65_534], ((3 + 7 * 65_534) % 256) as u8);
}

#[test]
fn the_network_of_sheet_a_is_the_document_s() {
    translations::assert_network_of_a(Version::Two, NETWORK_A);
}

#[test]
fn every_buffer_is_what_the_document_says() {
    translations::assert_buffers(Version::Two, plain);
}

#[test]
fn a_byte_left_out_would_show() {
    translations::assert_a_byte_left_out_would_show(Version::Two, plain);
}

// ---- Sorts ------------------------------------------------------------------------------------

/// Every sort of sheet, buffer and answer, and how often it is to occur at least.
const WANTED: [(&str, usize); 40] = [
    ("accepted sheet", 300),
    ("refused sheet", 80),
    ("no triples", 20),
    ("triples in a state without transitions", 80),
    ("triples of several states and units", 60),
    ("triples out of order", 60),
    ("four triples of a state and unit", 20),
    ("an entry clashes with an added one", 80),
    ("an entry with the condition true clashes", 40),
    ("an entry of a unit with triples of other states only", 60),
    ("an exit of a state and unit with triples", 80),
    ("32 triples", 3),
    ("96 transitions in the network", 1),
    ("64 conditions before the added one", 2),
    ("32 actions before the added one", 2),
    ("no actions before the added one", 4),
    ("monitor variables", 100),
    ("the network has 255 bytes", 1),
    ("the network has 256 bytes", 1),
    ("the network has over 256 bytes", 12),
    ("the longest sheet", 1),
    ("the longest network of a sheet", 1),
    ("buffer exactly as long", 300),
    ("buffer one byte shorter", 300),
    ("buffer shorter", 40),
    ("buffer of 0 bytes", 300),
    ("buffer longer", 295),
    ("buffer of 8,192 bytes", 2),
    ("buffer of 65,535 bytes", 1),
    ("buffer of a refused sheet", 240),
    ("written", 600),
    ("refused 19", 600),
    ("refused 1", 30),
    ("refused 2", 30),
    ("refused 3", 30),
    ("refused 4", 30),
    ("refused 5", 30),
    ("refused 6", 30),
    ("refused 7", 30),
    ("refused 8", 30),
];

/// What a sheet's triples are like.
fn sorts_of_triples(sheet: &Sheet) -> Vec<&'static str> {
    let all: Vec<(u8, u8)> = sheet.triples.iter().map(|t| (t.state, t.unit)).collect();
    let states: BTreeSet<u8> = all.iter().map(|place| place.0).collect();
    let units: BTreeSet<u8> = all.iter().map(|place| place.1).collect();
    let lonely = |state: &u8| sheet.transitions.iter().all(|t| t.from != *state);
    let together = |place: &(u8, u8)| all.iter().filter(|other| *other == place).count();
    let several = states.len() > 1 && units.len() > 1;
    let alone = states.iter().any(lonely);
    let four = all.iter().any(|place| together(place) == 4);
    met(&[
        ("no triples", all.is_empty()),
        ("triples in a state without transitions", alone),
        ("triples of several states and units", several),
        ("triples out of order", !all.is_sorted()),
        ("four triples of a state and unit", four),
        ("32 triples", all.len() == 32),
    ])
}

/// How a sheet's transitions meet its triples.
fn sorts_of_transitions(sheet: &Sheet) -> Vec<&'static str> {
    let own = |t: &Transition| !sheet.triples_of(t.from, t.unit).is_empty();
    let any = |test: &dyn Fn(&Transition) -> bool| sheet.transitions.iter().any(test);
    let entry = |t: &Transition| t.kind == Kind::Entry;
    let always =
        |t: &Transition| sheet.machine.conditions[usize::from(t.condition)] == Condition::True;
    let unit_has_triples = |t: &Transition| sheet.triples.iter().any(|u| u.unit == t.unit);
    let elsewhere = any(&|t| entry(t) && !own(t) && unit_has_triples(t));
    let clashes = any(&|t| entry(t) && own(t));
    let clashes_always = any(&|t| entry(t) && own(t) && always(t));
    let exits = any(&|t| !entry(t) && own(t));
    met(&[
        ("an entry clashes with an added one", clashes),
        ("an entry with the condition true clashes", clashes_always),
        (
            "an entry of a unit with triples of other states only",
            elsewhere,
        ),
        ("an exit of a state and unit with triples", exits),
    ])
}

/// How large the tables are, and the network.
fn sorts_of_sizes(bytes: &[u8]) -> Vec<&'static str> {
    let network = by_the_document(bytes);
    let no_actions = bytes[11] == 0 && bytes[13] > 0;
    met(&[
        ("96 transitions in the network", network[12] == 96),
        ("64 conditions before the added one", bytes[10] == 64),
        ("32 actions before the added one", bytes[11] == 32),
        ("no actions before the added one", no_actions),
        ("monitor variables", bytes[6] > 0),
        ("the network has 255 bytes", network.len() == 255),
        ("the network has 256 bytes", network.len() == 256),
        ("the network has over 256 bytes", network.len() > 256),
        ("the longest sheet", bytes.len() == LONGEST_SHEET),
        ("the longest network of a sheet", network.len() == 7_564),
    ])
}

fn sorts(bytes: &[u8]) -> Vec<&'static str> {
    let Ok(sheet) = Sheet::read(bytes) else {
        return vec!["refused sheet"];
    };
    let mut sorts = vec!["accepted sheet"];
    sorts.extend(sorts_of_triples(&sheet));
    sorts.extend(sorts_of_transitions(&sheet));
    sorts.extend(sorts_of_sizes(bytes));
    sorts
}

#[test]
fn every_sort_occurs_often() {
    let counts = translations::count_sorts(Version::Two, plain, sorts);
    translations::assert_wanted(counts, &WANTED);
}
