//! Version 3 networks, through the cases of `translation_cases`.

mod translations;

use reference::implementation::network::{Network, Version};
use translations::{by_the_document, calls, frames_of, met, plain};

/// Its network of version 3, as the request has it.
const CARD_A: &str = "00 44 03 02 01 02 00 00 00 00 06 02 03 01 | 00 01 00 | 00 05 05 11 01 13 00 | 00 01 00 | 00 01 00 | 00 01 00 | 00 04 02 01 00 00 | 00 | 00 | 00 00 00 03 00 01 01 00 00 | 01 01 00 04 00 00 00 | 00 00 00 05 01 00 01 00 00 | 00 01";

/// By the request, unless the sheet is refused or something joined is too long.
fn card(sheet: &[u8]) -> Result<Vec<u8>, usize> {
    let card = separated(&plain(sheet)?, None);
    let longest = conditions(&card).iter().map(Vec::len).max();
    match longest > Some(1_024) || card.len() > 65_535 {
        true => Err(21),
        false => Ok(card),
    }
}

#[test]
fn the_network_of_sheet_a_is_the_request_s() {
    translations::assert_network_of_a(Version::Three, CARD_A);
}

#[test]
fn every_buffer_is_what_the_request_says() {
    translations::assert_buffers(Version::Three, card);
}

#[test]
fn a_byte_left_out_would_show() {
    translations::assert_a_byte_left_out_would_show(Version::Three, card);
}

// ---- Version 3, from the bytes of version 2 ---------------------------------------------------

/// What one could do wrong when writing version 3.
#[derive(Clone, Copy, Debug, PartialEq)]
enum Fault {
    StateNotCompared,
    KindNotCompared,
    UnitNotCompared,
    LaterOnesToo,
    InReverse,
    OnlyTheNearest,
    OnlyTheFirst,
    NotLeftOut,
    AndLeftOut,
    OrForAnd,
    OwnLeftOut,
    OwnFirst,
    ConditionOfTheSameNumber,
    JoinedOnesOfEarlier,
    OldNumberKept,
    AddedOneLeftOut,
}

const FAULTS: [Fault; 16] = [
    Fault::StateNotCompared,
    Fault::KindNotCompared,
    Fault::UnitNotCompared,
    Fault::LaterOnesToo,
    Fault::InReverse,
    Fault::OnlyTheNearest,
    Fault::OnlyTheFirst,
    Fault::NotLeftOut,
    Fault::AndLeftOut,
    Fault::OrForAnd,
    Fault::OwnLeftOut,
    Fault::OwnFirst,
    Fault::ConditionOfTheSameNumber,
    Fault::JoinedOnesOfEarlier,
    Fault::OldNumberKept,
    Fault::AddedOneLeftOut,
];

/// The conditions of a network of either version, one after the other.
fn conditions(network: &[u8]) -> Vec<Vec<u8>> {
    let mut at = 14 + 4 * usize::from(network[6]);
    let mut all = Vec::new();
    for _ in 0..network[10] {
        let mut length = usize::from(network[at]);
        if network[2] == 3 {
            at += 1;
            length = 256 * length + usize::from(network[at]);
        }
        all.push(network[at + 1..at + 1 + length].to_vec());
        at += 1 + length;
    }
    all
}

/// The transitions of a network with their pairs, and what stands behind them.
fn transitions(network: &[u8]) -> (Vec<Vec<u8>>, &[u8]) {
    let mut rest = &network[Network::read(network)
        .expect("a network")
        .places()
        .transitions..];
    let mut all = Vec::new();
    for _ in 0..network[12] {
        let (one, more) = rest.split_at(7 + 2 * usize::from(rest[6]));
        all.push(one.to_vec());
        rest = more;
    }
    (all, rest)
}

/// Whether a fault takes two transitions for rivals.
fn are_rivals(one: &[u8], other: &[u8], fault: Option<Fault>) -> bool {
    let same = |place: usize, unless: Fault| one[place] == other[place] || fault == Some(unless);
    same(0, Fault::StateNotCompared)
        && same(1, Fault::KindNotCompared)
        && same(2, Fault::UnitNotCompared)
}

/// The places of the transitions that a fault, or none, joins before the one at a place.
fn rivals(all: &[Vec<u8>], place: usize, fault: Option<Fault>) -> Vec<usize> {
    let last = match fault {
        Some(Fault::LaterOnesToo) => all.len(),
        _ => place,
    };
    let rival = |at: &usize| *at != place && are_rivals(&all[*at], &all[place], fault);
    let mut rivals: Vec<usize> = (0..last).filter(rival).collect();
    match fault {
        Some(Fault::InReverse) => rivals.reverse(),
        Some(Fault::OnlyTheNearest) => rivals = rivals.pop().into_iter().collect(),
        Some(Fault::OnlyTheFirst) => rivals.truncate(1),
        _ => {}
    }
    rivals
}

/// The joined condition of a transition.
fn joined(old: &[Vec<u8>], all: &[Vec<u8>], place: usize, fault: Option<Fault>) -> Vec<u8> {
    let is = |one: Fault| fault == Some(one);
    let number = |at: usize| match is(Fault::ConditionOfTheSameNumber) {
        true => at.min(old.len() - 1),
        false => usize::from(all[at][3]),
    };
    let mut front = Vec::new();
    for rival in rivals(all, place, fault) {
        if !is(Fault::AndLeftOut) {
            front.push(if is(Fault::OrForAnd) { 3 } else { 2 });
        }
        if !is(Fault::NotLeftOut) {
            front.push(1);
        }
        front.extend(match is(Fault::JoinedOnesOfEarlier) {
            true => joined(old, all, rival, None),
            false => old[number(rival)].clone(),
        });
    }
    let own = &old[number(place)][..];
    match fault {
        Some(Fault::OwnFirst) => [own, &front].concat(),
        Some(Fault::OwnLeftOut) => front,
        _ => [&front, own].concat(),
    }
}

/// A network of version 2 written as version 3, byte by byte with the request beside, or with a fault.
fn separated(network: &[u8], fault: Option<Fault>) -> Vec<u8> {
    let old = conditions(network);
    let (all, rest) = transitions(network);
    let actions_end = network.len() - rest.len() - all.concat().len();
    let mut out = network[..14 + 4 * usize::from(network[6])].to_vec();
    (out[2], out[10]) = (3, (old.len() + all.len()) as u8);
    let new = (0..all.len()).map(|place| {
        let added = all[place][3] == network[10] - 1;
        match fault == Some(Fault::AddedOneLeftOut) && added {
            true => old[old.len() - 1].clone(),
            false => joined(&old, &all, place, fault),
        }
    });
    let actions_start = out.len() + old.len() + old.concat().len();
    for condition in old.iter().cloned().chain(new) {
        out.extend((condition.len() as u16).to_be_bytes());
        out.extend(condition);
    }
    out.extend(&network[actions_start..actions_end]);
    for (place, transition) in all.iter().enumerate() {
        let mut transition = transition.clone();
        if fault != Some(Fault::OldNumberKept) {
            transition[3] = (old.len() + place) as u8;
        }
        out.extend(transition);
    }
    out.extend(rest);
    let length = (out.len() as u16).to_be_bytes();
    out[..2].copy_from_slice(&length);
    out
}

/// Each fault would change what is written for many sheets.
#[test]
fn faults_in_joining_would_show() {
    let frames = frames_of(Version::Three);
    let written = frames.iter().filter(|frame| card(&frame.sheet).is_ok());
    let networks: Vec<Vec<u8>> = written.map(|frame| by_the_document(&frame.sheet)).collect();
    for fault in FAULTS {
        let shows =
            |network: &&Vec<u8>| separated(network, Some(fault)) != separated(network, None);
        let found = networks.iter().filter(shows).count();
        println!("{fault:?}: {found}");
        assert!(found >= 12, "{fault:?}: {found}");
    }
}

// ---- Sorts ------------------------------------------------------------------------------------

/// Every sort of sheet, buffer and answer, and how often it is to occur at least.
const WANTED: [(&str, usize); 43] = [
    ("accepted sheet", 200),
    ("refused sheet", 80),
    ("a sheet refused 21", 6),
    ("the joined condition of a sheet's transition refused", 4),
    (
        "the joined condition of the added transition alone refused",
        1,
    ),
    ("rivals", 80),
    ("three rivals", 60),
    ("an added transition with rivals", 60),
    ("rivals of an exit", 20),
    ("rivals with another state between", 10),
    ("rivals with another kind between", 10),
    ("rivals with another unit between", 10),
    ("a joined condition of 255 bytes", 1),
    ("a joined condition of 256 bytes", 1),
    ("a joined condition of 257 bytes", 1),
    ("a joined condition over 257 bytes", 4),
    ("the longest joined condition has 1,023 bytes", 2),
    ("the longest joined condition has 1,024 bytes", 2),
    ("161 conditions", 1),
    ("the network has over 60,000 bytes", 1),
    ("the network has over 8,192 bytes", 4),
    ("buffer exactly as long", 200),
    ("buffer one byte shorter", 200),
    ("buffer shorter", 80),
    ("buffer of 0 bytes", 200),
    ("buffer longer", 195),
    ("buffer of 8,192 bytes", 1),
    ("buffer of 65,535 bytes", 1),
    ("buffer of a refused sheet", 240),
    ("buffer of a sheet refused 21", 24),
    ("written", 400),
    ("refused 19", 400),
    ("refused 21", 24),
    ("refused 21 in a buffer of no bytes", 6),
    ("refused 21 in a buffer with room for it", 5),
    ("refused 1", 30),
    ("refused 2", 30),
    ("refused 3", 30),
    ("refused 4", 30),
    ("refused 5", 30),
    ("refused 6", 30),
    ("refused 7", 30),
    ("refused 8", 30),
];

/// What a version 2 network's rivals are like.
fn sorts_of_rivals(network: &[u8]) -> Vec<&'static str> {
    let (all, _) = transitions(network);
    let earlier = |place: usize| {
        let before = all[..place].iter();
        before
            .filter(|one| are_rivals(one, &all[place], None))
            .count()
    };
    let any = |test: &dyn Fn(usize) -> bool| (0..all.len()).any(test);
    let added = |place: usize| all[place][3] == network[10] - 1;
    // The transition before a rival differs from it in this one byte.
    let between = |byte: usize| {
        any(&|place| {
            let other = |at: usize| all[place - 1][at] != all[place][at];
            earlier(place) > 0 && (0..3).all(|at| other(at) == (at == byte))
        })
    };
    met(&[
        ("rivals", any(&|place| earlier(place) > 0)),
        ("three rivals", any(&|place| earlier(place) > 1)),
        (
            "an added transition with rivals",
            any(&|place| added(place) && earlier(place) > 0),
        ),
        (
            "rivals of an exit",
            any(&|place| all[place][1] == 1 && earlier(place) > 0),
        ),
        ("rivals with another state between", between(0)),
        ("rivals with another kind between", between(1)),
        ("rivals with another unit between", between(2)),
    ])
}

/// How long what is joined is, and the version 3 network.
fn sorts_of_lengths(card: &[u8]) -> Vec<&'static str> {
    let lengths: Vec<usize> = conditions(card).iter().map(Vec::len).collect();
    let longest = lengths.iter().max().copied();
    let has = |length: usize| lengths.contains(&length);
    met(&[
        ("a joined condition of 255 bytes", has(255)),
        ("a joined condition of 256 bytes", has(256)),
        ("a joined condition of 257 bytes", has(257)),
        ("a joined condition over 257 bytes", longest > Some(257)),
        (
            "the longest joined condition has 1,023 bytes",
            longest == Some(1_023),
        ),
        (
            "the longest joined condition has 1,024 bytes",
            longest == Some(1_024),
        ),
        ("161 conditions", lengths.len() == 161),
        ("the network has over 60,000 bytes", card.len() > 60_000),
        ("the network has over 8,192 bytes", card.len() > 8_192),
    ])
}

/// Whose joined condition is too long.
fn sorts_of_too_long(network: &[u8]) -> Vec<&'static str> {
    let (old, (all, _)) = (conditions(network), transitions(network));
    let too_long = |place: &usize| joined(&old, &all, *place, None).len() > 1_024;
    let first = (0..all.len()).find(too_long).expect("one is too long");
    let added = all[first][3] == network[10] - 1;
    met(&[
        ("a sheet refused 21", true),
        (
            "the joined condition of a sheet's transition refused",
            !added,
        ),
        (
            "the joined condition of the added transition alone refused",
            added,
        ),
    ])
}

fn sorts(sheet: &[u8]) -> Vec<&'static str> {
    match card(sheet) {
        Err(21) => sorts_of_too_long(&by_the_document(sheet)),
        Err(_) => vec!["refused sheet"],
        Ok(card) => {
            let mut sorts = vec!["accepted sheet"];
            sorts.extend(sorts_of_rivals(&by_the_document(sheet)));
            sorts.extend(sorts_of_lengths(&card));
            sorts
        }
    }
}

#[test]
fn every_sort_occurs_often() {
    let mut counts = translations::count_sorts(Version::Three, card, sorts);
    for (frame, room, line) in calls(&frames_of(Version::Three)) {
        if !line.starts_with("refused 21") {
            continue;
        }
        let mut add = |label: &str| *counts.entry(label.into()).or_insert(0) += 1;
        if room.length == 0 {
            add("refused 21 in a buffer of no bytes");
        }
        let whole = separated(&by_the_document(&frame.sheet), None);
        if usize::from(room.length) >= whole.len() {
            add("refused 21 in a buffer with room for it");
        }
    }
    translations::assert_wanted(counts, &WANTED);
}
