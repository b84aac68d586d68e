//! Reading sheets, networks and logs, through the cases of `sheet_cases`.

use reference::framing::pages::PAGE;
use reference::framing::sheet_frames::{read_frames, Frame, Kind};
use reference::implementation::network::{Network, LONGEST_NETWORK};
use reference::implementation::sheet::{Sheet, LONGEST_SHEET};
use reference::making::cases::sheet_cases::{self, Row};
use reference::making::programs;

#[test]
fn chosen_cases_have_the_answers_written_beside_them() {
    let rows = sheet_cases::chosen();
    let mut without = 0;
    for (number, row) in rows.iter().enumerate() {
        match &row.expected {
            Some(expected) => {
                assert_eq!(
                    &row.frame.answer(),
                    expected,
                    "case {number}: {:?}",
                    row.frame
                );
            }
            None => without += 1,
        }
    }
    assert!(without <= 24, "{without} chosen cases without an answer");
}

#[test]
fn random_cases_made_sound_have_the_answers_of_their_drafts() {
    for row in sheet_cases::all() {
        if let Some(expected) = row.expected {
            assert_eq!(row.frame.answer(), expected, "{:?}", row.frame);
        }
    }
}

#[test]
fn the_file_is_large_enough_and_small_enough() {
    let files = programs::files("sheet_cases").expect("the program is in the table");
    let frames = read_frames(&files.stdin).expect("frames fill the file");
    assert!(frames.len() >= 700, "{} cases", frames.len());
    assert!(files.stdin.len() <= 5 * PAGE, "{} bytes", files.stdin.len());
    let rows = sheet_cases::all();
    assert!(frames.iter().eq(rows.iter().map(|row| &row.frame)));
    let answers: String = frames.iter().map(|f| f.answer() + "\n").collect();
    assert_eq!(answers.into_bytes(), files.stdout);
    for frame in &frames {
        assert!(frame.kind == Kind::Log || frame.program == 0);
    }
}

#[test]
fn frames_that_are_cut_are_no_frames() {
    let frame = Frame {
        kind: Kind::Log,
        program: 2,
        bytes: vec![1, 2, 3],
    };
    let mut bytes = Vec::new();
    frame.write(&mut bytes);
    assert_eq!(bytes, [2, 2, 0, 3, 1, 2, 3]);
    assert_eq!(read_frames(&bytes), Some(vec![frame]));
    for length in 1..bytes.len() {
        assert_eq!(read_frames(&bytes[..length]), None);
    }
    assert_eq!(read_frames(&[3, 0, 0, 0]), None);
}

fn count(rows: &[Row], kind: Kind, wanted: impl Fn(&str) -> bool) -> usize {
    let matching = |row: &&Row| row.frame.kind == kind && wanted(&row.frame.answer());
    rows.iter().filter(matching).count()
}

#[test]
fn every_answer_and_every_refusal_occurs_often() {
    let rows = sheet_cases::all();
    for (kind, refusals) in [
        (Kind::Sheet, 1..=8),
        (Kind::Network, 1..=7),
        (Kind::Log, 16..=18),
    ] {
        for number in refusals.clone() {
            let answer = format!("refused {number}");
            let found = count(&rows, kind, |a| a == answer);
            assert!(found >= 15, "{kind:?} {answer}: {found}");
        }
        // And no other refusal.
        let refused = count(&rows, kind, |a| a.starts_with("refused"));
        let listed = refusals.map(|n| count(&rows, kind, |a| a == format!("refused {n}")));
        assert_eq!(refused, listed.sum::<usize>());
    }
    for kind in [Kind::Sheet, Kind::Network] {
        let found = count(&rows, kind, |a| a.starts_with("accepted"));
        assert!(found >= 100, "{kind:?} accepted: {found}");
        // With transitions the two places differ.
        let apart = count(&rows, kind, |a| places(a).is_some_and(|(t, l)| t != l));
        assert!(apart >= 50, "{kind:?} with transitions: {apart}");
    }
    assert!(count(&rows, Kind::Log, |a| a.starts_with("records")) >= 30);
    for number in [0, 1, 2] {
        let answer = format!("records {number}");
        assert!(count(&rows, Kind::Log, |a| a == answer) >= 8, "{answer}");
    }
}

fn places(answer: &str) -> Option<(usize, usize)> {
    let (transitions, last) = answer.strip_prefix("accepted ")?.split_once(' ')?;
    Some((transitions.parse().ok()?, last.parse().ok()?))
}

/// What stands at the two places is what the tables are written as.
#[test]
fn the_tables_begin_at_their_places() {
    for Row { frame, .. } in sheet_cases::all() {
        let Some((transitions, last)) = places(&frame.answer()) else {
            continue;
        };
        let bytes = &frame.bytes;
        let (mut first_table, mut last_table) = (Vec::new(), Vec::new());
        if frame.kind == Kind::Sheet {
            let sheet = Sheet::read(bytes).unwrap();
            for t in &sheet.transitions {
                first_table.extend(t.bytes());
            }
            for t in &sheet.triples {
                last_table.extend([t.state, t.unit, t.precondition, t.postcondition]);
            }
        } else {
            let network = Network::read(bytes).unwrap();
            for t in &network.transitions {
                first_table.extend(t.transition.bytes());
                first_table.push(t.pairs.len() as u8);
                first_table.extend(t.pairs.iter().flat_map(|p| [p.condition, p.template]));
            }
            for t in &network.templates {
                last_table.extend([t.unit, t.postcondition]);
            }
        }
        assert_eq!(bytes[transitions..last], first_table);
        assert_eq!(bytes[last..], last_table);
    }
}

fn version(row: &&Row) -> Option<u8> {
    row.frame.bytes.get(2).copied()
}

#[test]
fn the_greatest_occur_once_each() {
    let rows = sheet_cases::all();
    for (kind, number, length) in [
        (Kind::Sheet, 1, LONGEST_SHEET),
        (Kind::Network, 2, LONGEST_NETWORK),
        (Kind::Network, 3, PAGE - 4),
    ] {
        let of_kind = rows.iter().filter(|row| row.frame.kind == kind);
        let accepted = of_kind.filter(|row| places(&row.frame.answer()).is_some());
        let lengths = accepted.filter(|row| version(row) == Some(number));
        let lengths: Vec<usize> = lengths.map(|row| row.frame.bytes.len()).collect();
        assert_eq!(lengths.iter().max(), Some(&length));
        assert_eq!(lengths.iter().filter(|one| **one == length).count(), 1);
    }
}

/// What cases of version 3 must show, and how often at least; without regard to how they are made.
const WANTED_OF_VERSION_3: [(&str, usize); 7] = [
    ("accepted", 100),
    ("refused 1", 30),
    ("refused 3", 40),
    ("refused 4", 80),
    ("refused 5", 60),
    ("refused 6", 60),
    ("refused 7", 40),
];

#[test]
fn every_answer_occurs_often_in_version_3() {
    let rows = sheet_cases::all();
    let networks = rows.iter().filter(|row| row.frame.kind == Kind::Network);
    let cards: Vec<&Row> = networks.filter(|row| version(row) == Some(3)).collect();
    println!("version 3: {}", cards.len());
    for (answer, least) in WANTED_OF_VERSION_3 {
        let found = cards.iter().map(|row| row.frame.answer());
        let found = found.filter(|line| line.starts_with(answer)).count();
        println!("{found:>6}  {answer}");
        assert!(found >= least, "{answer}: {found}");
    }
}
