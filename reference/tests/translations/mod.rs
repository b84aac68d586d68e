//! What the tests of both versions share: the cases of `translation_cases` taken apart, and a sheet's
//! network put together from its bytes.

use reference::framing::translation_frames::{Frame, Room};
use reference::implementation::network::{Network, Version};
use reference::implementation::sheet::Sheet;
use reference::implementation::translate::{BUFFER, CARD_BUFFER};
use reference::making::cases::translation_cases;
use std::collections::BTreeMap;

/// What a sheet's bytes are to be translated to, or the number of the refusal.
pub type Translation = fn(&[u8]) -> Result<Vec<u8>, usize>;

/// A line taken apart: the answer's word and number, and the buffer.
pub fn parts(line: &str) -> (&str, usize, Vec<u8>) {
    let mut words = line.split(' ');
    let answer = words.next().expect("an answer");
    let number = words.next().expect("a number").parse().expect("a number");
    let digits = words.next().unwrap_or("");
    let byte = |at: usize| u8::from_str_radix(&digits[at..at + 2], 16).expect("two digits");
    let buffer = (0..digits.len()).step_by(2).map(byte).collect();
    assert_eq!(words.next(), None);
    (answer, number, buffer)
}

/// Every buffer with its frame and line.
pub fn calls(frames: &[Frame]) -> Vec<(&Frame, Room, String)> {
    let mut calls = Vec::new();
    for frame in frames {
        for (room, line) in frame.rooms.iter().zip(frame.lines()) {
            calls.push((frame, *room, line));
        }
    }
    calls
}

pub fn frames_of(version: Version) -> Vec<Frame> {
    let mut frames = translation_cases::all();
    frames.retain(|frame| frame.version == version);
    frames
}

/// The bytes of a sheet's version 2 network, put together from the sheet's bytes with the document beside.
pub fn by_the_document(bytes: &[u8]) -> Vec<u8> {
    let sheet = Sheet::read(bytes).expect("accepted");
    let places = sheet.places();
    let triples: Vec<&[u8]> = bytes[places.last..].chunks(4).collect();
    let pairs = |state: u8, unit: u8| {
        let numbered = (0u8..).zip(&triples);
        let own = numbered.filter(|(_, t)| t[..2] == [state, unit]);
        let pairs: Vec<[u8; 2]> = own.map(|(number, t)| [t[2], number]).collect();
        [&[pairs.len() as u8][..], &pairs.concat()].concat()
    };
    let mut out = bytes[..14].to_vec();
    out[2] = 2;
    out[10] += 1;
    out[11] += 1;
    let conditions_end = after_conditions(bytes);
    out.extend(&bytes[14..conditions_end]);
    out.extend([1, 0]);
    out.extend(&bytes[conditions_end..places.transitions]);
    out.push(0);
    let mut transitions = bytes[12];
    for t in bytes[places.transitions..places.last].chunks(6) {
        out.extend(t);
        out.extend(if t[1] == 0 {
            pairs(t[0], t[2])
        } else {
            vec![0]
        });
    }
    for state in 0..bytes[3] {
        for unit in 0..bytes[4] {
            if pairs(state, unit).len() > 1 {
                transitions += 1;
                out.extend([state, 0, unit, bytes[10], bytes[11], state]);
                out.extend(pairs(state, unit));
            }
        }
    }
    out[12] = transitions;
    out.extend(triples.iter().flat_map(|t| [t[1], t[3]]));
    let length = (out.len() as u16).to_be_bytes();
    out[..2].copy_from_slice(&length);
    out
}

/// Where the table of conditions ends.
fn after_conditions(bytes: &[u8]) -> usize {
    let first = 14 + 4 * usize::from(bytes[6]);
    (0..bytes[10]).fold(first, |at, _| at + 1 + usize::from(bytes[at]))
}

/// As by the document, unless the sheet is refused.
pub fn plain(sheet: &[u8]) -> Result<Vec<u8>, usize> {
    match Sheet::read(sheet) {
        Ok(_) => Ok(by_the_document(sheet)),
        Err(refusal) => Err(refusal.number().into()),
    }
}

/// Every line and every byte of every buffer is as the documents say.
pub fn assert_buffers(version: Version, translation: Translation) {
    for (frame, room, line) in calls(&frames_of(version)) {
        let before = room.bytes();
        let (answer, number, after) = parts(&line);
        match translation(&frame.sheet) {
            Err(refusal) => {
                assert_eq!((answer, number), ("refused", refusal));
                assert_eq!(after, before);
            }
            Ok(network) if before.len() < network.len() => {
                assert_eq!((answer, number), ("refused", 19));
                assert_eq!(after, before);
            }
            Ok(network) => {
                assert_eq!((answer, number), ("written", network.len()));
                assert_eq!(after, [&network[..], &before[number..]].concat());
                assert!(Network::read(&network).is_ok());
            }
        }
    }
}

/// The lines of sheet A's frame, whose network is written so in the documents.
pub fn assert_network_of_a(version: Version, network: &str) {
    let frames = frames_of(version);
    let lines = frames[0].lines();
    assert_eq!(frames[0].sheet.len(), 39);
    let digits = network.to_lowercase().replace([' ', '|'], "");
    let length = digits.len() / 2;
    assert_eq!(lines[0], format!("written {length} {digits}"));
    let (answer, _, buffer) = parts(&lines[1]);
    assert_eq!((answer, buffer.len()), ("refused", length - 1));
    assert_eq!(lines[2], "refused 19");
    assert!(lines[3].starts_with(&lines[0]) && lines[3].len() > lines[0].len());
    let whole = |line: &String| line.starts_with(&lines[0]) && parts(line).2.len() == BUFFER;
    assert!(lines.iter().any(whole));
}

/// Each network stands in two buffers whose patterns differ at every place of it.
pub fn assert_a_byte_left_out_would_show(version: Version, translation: Translation) {
    for frame in frames_of(version) {
        if translation(&frame.sheet).is_ok() {
            let (first, second) = (frame.rooms[0], frame.rooms[3]);
            assert!(second.length > first.length);
            let pairs = first.bytes().into_iter().zip(second.bytes());
            for (a, b) in pairs {
                assert_ne!(a, b);
            }
        }
    }
}

// ---- Sorts ------------------------------------------------------------------------------------

/// Names with how often each occurs.
pub type Counts = BTreeMap<String, usize>;

pub fn met(tests: &[(&'static str, bool)]) -> Vec<&'static str> {
    let met = tests.iter().filter(|(_, met)| *met);
    met.map(|(name, _)| *name).collect()
}

/// The sorts of a version's sheets, buffers and answers.
pub fn count_sorts(
    version: Version,
    translation: Translation,
    sorts: fn(&[u8]) -> Vec<&'static str>,
) -> Counts {
    let frames = frames_of(version);
    let mut counts = Counts::new();
    let mut add = |label: &str| *counts.entry(label.to_string()).or_insert(0) += 1;
    for frame in &frames {
        sorts(&frame.sheet).into_iter().for_each(&mut add);
    }
    for (frame, room, line) in calls(&frames) {
        add(sort_of_room(translation(&frame.sheet), room));
        match parts(&line) {
            ("refused", number, _) => add(&format!("refused {number}")),
            (answer, _, _) => add(answer),
        }
    }
    counts
}

fn sort_of_room(network: Result<Vec<u8>, usize>, room: Room) -> &'static str {
    let network = match network {
        Err(21) => return "buffer of a sheet refused 21",
        Err(_) => return "buffer of a refused sheet",
        Ok(network) => network.len(),
    };
    match usize::from(room.length) {
        0 => "buffer of 0 bytes",
        length if length == network => "buffer exactly as long",
        length if length + 1 == network => "buffer one byte shorter",
        length if length < network => "buffer shorter",
        BUFFER => "buffer of 8,192 bytes",
        CARD_BUFFER => "buffer of 65,535 bytes",
        _ => "buffer longer",
    }
}

/// Each of these occurs as often as it is to, and nothing else does.
pub fn assert_wanted(mut counts: Counts, wanted: &[(&str, usize)]) {
    for (label, least) in wanted {
        let found = counts.remove(*label).unwrap_or(0);
        println!("{found:>6}  {label}");
        assert!(found >= *least, "{label}: {found}");
    }
    assert!(counts.is_empty(), "{counts:?}");
}
