//! The pages of `network_cases` on networks of version 3 alone: what the first page has of version 2,
//! conditions of over 64 bytes, rivals, refused networks, random ones and a long one.

use crate::framing::script_frames::{Bench, Frame};
use crate::implementation::network::{Network, Version};
use crate::implementation::run::Record;
use crate::making::cases::rival_sheets;
use crate::making::cases::sheet_cases::{greatest_network, network_of_length};
use crate::making::draft::NetworkDraft;
use crate::making::generate::{self, Size};
use crate::making::random::Random;
use crate::making::scripts::entry_clauses;
use crate::making::scripts::monitor_cases::random_sheet;
use crate::making::scripts::network_cases::{least, random_network, refused_networks, taken, Page};
use crate::making::scripts::random_script::on_rules;
use crate::making::scripts::script::{self, entry, exit, Row, Sort};
use crate::making::scripts::shared_cases::{self, base, Subject};

type Script = script::Script<Network>;

// ---- In version 3 -----------------------------------------------------------------------------

/// A network of version 2 with its conditions joined, or as it is where those would be too long; what
/// is refused stays.
pub fn in_version_3(bytes: &[u8]) -> Vec<u8> {
    let Ok(network) = Network::read(bytes) else {
        return bytes.to_vec();
    };
    let separated = network.separated();
    let card = match Network::read(&separated.bytes()) {
        Ok(_) => separated,
        Err(_) => Network {
            version: Version::Three,
            ..network
        },
    };
    card.bytes()
}

/// A page whose networks are in version 3; what is expected of it stays, but for counts.
pub fn page_in_version_3(page: &Page) -> Page {
    let mut bench = Bench::<Network>::default();
    let mut rewritten = Page::new();
    for row in page {
        let frame = match &row.frame {
            Frame::Rules(bytes) => Frame::Rules(in_version_3(bytes)),
            other => other.clone(),
        };
        rewritten.push(Row {
            sort: row.sort,
            line: bench.carry_out(&frame),
            expected: row.expected.clone(),
            count: None,
            frame,
        });
    }
    rewritten
}

// ---- Long conditions --------------------------------------------------------------------------

/// A condition of this length that holds where the shorter one does: behind `or false` and `and true`.
pub(crate) fn padded(condition: &[u8], length: usize) -> Vec<u8> {
    let missing = length - condition.len();
    let odd: &[u8] = if missing % 2 == 1 { &[3, 1, 0] } else { &[] };
    let even = [2, 0].repeat((missing - odd.len()) / 2);
    [odd, &even, condition].concat()
}

/// States 0-2 (2 is bad), one unit, P 1, V 1. The conditions of this length are 1, below 5, 3, the value
/// at entry again, and 5, below 3; between them stand 2, the variable below the value, and 4, false.
/// Action 1 makes the value the variable.
fn with_long(length: usize) -> NetworkDraft {
    let mut network = NetworkDraft::new(3, 1, 1, &[0]).in_version_3();
    network.front.bad = 0b100;
    network.front.conditions = vec![
        vec![0],
        padded(&[4, 17, 0, 16, 0, 0, 0, 5], length),
        vec![4, 18, 0, 17, 0],
        padded(&[5, 17, 0, 19, 0], length),
        vec![1, 0],
        padded(&[4, 17, 0, 16, 0, 0, 0, 3], length),
    ];
    network.front.actions = vec![vec![], vec![0, 17, 0]];
    network.templates = vec![[0, 3]];
    network.creating([0, 0, 0, 4, 0, 2], &[]);
    network.creating([0, 0, 0, 1, 1, 1], &[[5, 0]]);
    network.creating([0, 0, 0, 0, 0, 0], &[[0, 0], [4, 0]]);
    network.creating([1, 1, 0, 2, 0, 2], &[]);
    network.creating([1, 1, 0, 1, 0, 0], &[]);
    network
}

fn long_conditions(script: &mut Script) {
    script.sort = Sort::Card;
    for length in [65, 255, 256, 257, 1_023, 1_024] {
        script.rules(&with_long(length).bytes());
        script.fresh("accepted");
        entered(script);
        left(script);
        runs(script);
    }
}

/// Below 5 an entry leads on, and below 3 it creates a checker; from 5 on it stays and creates one.
fn entered(script: &mut Script) {
    for value in [i32::MIN, 2, 3, 4, 5, i32::MAX] {
        let leads = value < 5;
        let front = match leads {
            true => format!(" m=1 x0={value}"),
            false => String::new(),
        };
        let created: &[(u16, u8)] = if (3..5).contains(&value) {
            &[]
        } else {
            &[(7, 0)]
        };
        let line = taken(&front, &[(7, 0, 1, &[value])], created, " p=1");
        script.offer(&entry(0, 7, &[value]), &line);
    }
}

/// A call that was entered with 2: below 3 its exit leads back, above it leads to the bad state.
fn left(script: &mut Script) {
    let line = taken(" m=1 x0=2", &[(7, 0, 1, &[2])], &[(7, 0)], " p=1");
    script.step(&entry(0, 7, &[2]), &line);
    for (value, line) in [
        (2, "taken x0=2 p=2"),
        (1, "taken x0=2 p=2 violated 2 state - triple 0 entry 1"),
        (3, "taken m=2 x0=2 p=2 violated 2 state 2 triple 0 entry 1"),
        (9, "taken m=2 x0=2 p=2 violated 2 state 2 triple 0 entry 1"),
    ] {
        script.offer(&exit(0, 7, &[value]), line);
    }
    // Below 5 but not below 3: nothing is to be judged.
    script.fresh("accepted");
    script.step(&entry(0, 8, &[4]), "taken m=1 x0=4");
    script.offer(&exit(0, 8, &[4]), "taken x0=4 p=2");
    script.offer(
        &exit(0, 8, &[5]),
        "taken m=2 x0=4 p=2 violated 2 state 2 triple - entry 0",
    );
}

fn runs(script: &mut Script) {
    let mut run = |records: &[Record], line: &str| script.run_records(1, records, line);
    for (entered, left, line) in [
        (2, 2, "clean 2 state 0 open 0"),
        (2, 1, "violated 2 state - triple 0 entry 1"),
        (2, 3, "violated 2 state 2 triple 0 entry 1"),
        (4, 4, "clean 2 state 0 open 0"),
        (4, 5, "violated 2 state 2 triple - entry -"),
        (5, 5, "clean 2 state 0 open 0"),
        (5, 4, "violated 2 state - triple 0 entry 1"),
    ] {
        run(&[entry(0, 7, &[entered]), exit(0, 7, &[left])], line);
    }
    run(&[entry(0, 7, &[2])], "clean 1 state 1 open 1");
    run(&[entry(0, 7, &[9])], "clean 1 state 0 open 1");
}

// ---- Rivals -----------------------------------------------------------------------------------

/// The longest network of those that are tried.
const LONGEST_RIVALS: usize = 2_000;

/// Of many rivals each in turn is the first that holds, by the value: those of two states, both kinds
/// and two units.
fn rivals(script: &mut Script) {
    let sheets = rival_sheets::all();
    let cards = sheets
        .iter()
        .map(|sheet| in_version_3(&Network::of_sheet(sheet)));
    let cards = cards.filter(|card| card.len() <= LONGEST_RIVALS && card[5] == 1);
    for card in cards.collect::<Vec<_>>() {
        script.sort = Sort::Card;
        script.rules(&card);
        script.fresh("accepted");
        for (number, value) in (19..28).enumerate() {
            let unit = (number % 3 / 2) as u8;
            let call = number as u16;
            script.unknown(&entry(unit, call, &[value]), false);
            script.unknown(&entry(unit, call, &[27 - number as i32]), true);
            script.unknown(&exit(unit, call, &[value]), number % 2 == 0);
        }
        rival_runs(script);
    }
}

fn rival_runs(script: &mut Script) {
    for start in [18, 22, 26] {
        let entries = (0..4).map(|n| entry(n as u8 % 2, n, &[start + i32::from(n)]));
        let exits = (0..4).map(|n| exit(n as u8 % 2, n, &[start + 3 - i32::from(n)]));
        let records: Vec<Record> = entries.chain(exits).collect();
        script.add(
            Frame::Run(crate::implementation::run::write_log(1, &records)),
            None,
        );
    }
}

// ---- Refused and random networks --------------------------------------------------------------

/// Networks of version 3 that are refused, each with its number.
fn refused_cards() -> Vec<(u8, Vec<u8>)> {
    let good = in_version_3(&Network::of_sheet(&base()));
    let make = |program: u8, initial: &[i32]| least(program, initial).in_version_3();
    let mut refused = refused_networks(make, &good);
    let mut change = |number: u8, change: &dyn Fn(&mut NetworkDraft)| {
        let mut network = make(0, &[]);
        change(&mut network);
        refused.push((number, network.bytes()));
    };
    // The other version, and the other width.
    change(4, &|d| d.front.version = 2);
    change(4, &|d| d.front.wide = false);
    change(3, &|d| d.front.conditions.resize(162, vec![0]));
    change(4, &|d| d.front.conditions.push(padded(&[0], 1_025)));
    change(5, &|d| {
        d.front
            .conditions
            .push([padded(&[0], 1_023), vec![0]].concat())
    });
    change(4, &|d| d.front.actions.push(vec![0; 65]));
    change(6, &|d| {
        d.front.conditions.resize(161, vec![0]);
        d.transitions[0].0[3] = 161;
    });
    refused
}

fn reading(script: &mut Script) {
    shared_cases::reading(script, &refused_cards());
}

pub(crate) fn reading_before_entries(script: &mut Script) {
    entry_clauses::reading(script, &refused_cards());
}

const SEED: u64 = 0x5741_5443_480A;
/// Generated networks; every second is translated from a sheet.
const NETWORKS: usize = 12;

fn random_cases(script: &mut Script) {
    let mut random = Random::new(SEED);
    for number in 0..NETWORKS {
        let bytes = match number % 2 {
            0 => in_version_3(&Network::of_sheet(&random_sheet(&mut random))),
            _ => {
                let network = random_network(&mut random);
                generate::lengthened(&mut random, network).bytes()
            }
        };
        on_rules(script, &mut random, &bytes);
    }
}

/// A network that leaves some room on its page.
fn long_network(script: &mut Script) {
    let mut random = Random::new(SEED + 1);
    let greatest = greatest_network(&generate::sheet(&mut random, Size::Full));
    let bytes = network_of_length(greatest, 60_000).bytes();
    on_rules(script, &mut random, &bytes);
}

/// The pages of version 3 behind `first`, a page of version 2 that is to be carried over.
pub fn pages(first: &Page) -> Vec<Page> {
    vec![
        page_in_version_3(first),
        Script::of(&[long_conditions, rivals]),
        Script::of(&[reading, random_cases]),
        Script::of(&[long_network]),
    ]
}
