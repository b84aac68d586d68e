//! The proved library, by way of its static library, beside the reference on generated inputs; and
//! the programs in C. Only under the feature `embed`.

mod places;

use places::directory;
use reference::counting::tally::SEED;
use reference::framing::proved::{self, numbered, Answer};
use reference::implementation::machine::Kind;
use reference::implementation::network::Version;
use reference::implementation::program::{output, MOST_INPUT};
use reference::implementation::run::{run_network, run_sheet, write_log, Outcome, Record};
use reference::implementation::sheet::{Sheet, LONGEST_SHEET};
use reference::implementation::translate::{translate, translate_to, BUFFER, CARD_BUFFER};
use reference::making::cases::rival_sheets;
use reference::making::cases::sheet_cases::{LOG_A, SHEET_A};
use reference::making::draft::NetworkDraft;
use reference::making::generate::{damaged, network_case, run_case, RunCase};
use reference::making::random::Random;
use reference::making::scripts::count_forms::Form;
use reference::making::scripts::script::{entry, exit};
use reference::making::scripts::tried_counts::greatest_network;
use reference::making::workloads;
use std::fs;
use std::path::{Path, PathBuf};
use std::process::{Command, Output};
use std::thread;

const INPUTS: usize = 20_000;
/// What stands in bytes that are not to be written.
const FILL: u8 = 0xA5;

/// Every code must occur often, and counts over 0 with each but where the whole is refused, or the inputs say
/// little.
#[derive(Default)]
struct Codes {
    all: [usize; 4],
    counting: [usize; 4],
}

impl Codes {
    fn count(&mut self, answer: Answer) {
        self.all[answer.code as usize] += 1;
        self.counting[answer.code as usize] += usize::from(answer.count > 0);
    }

    fn assert_many(&self) {
        assert!(self.all.iter().all(|count| *count >= 500), "{:?}", self.all);
        let [clean, violated, refused, event_refused] = self.counting;
        let counting = [clean, violated, event_refused];
        assert!(counting.iter().all(|count| *count >= 300), "{counting:?}");
        assert_eq!(refused, 0);
    }
}

// ---- Runs -------------------------------------------------------------------------------------

#[test]
fn runs_on_sheets() {
    let mut random = Random::new(SEED);
    let mut codes = Codes::default();
    for number in 0..INPUTS {
        let RunCase { sheet, log } = run_case(&mut random);
        let answer = proved::run(&sheet, &log);
        assert_eq!(answer, numbered(run_sheet(&sheet, &log)), "input {number}");
        codes.count(answer);
    }
    codes.assert_many();
}

/// Half of the networks are translated from a sheet, half are the generator's own, of either version.
#[test]
fn runs_on_networks() {
    let mut random = Random::new(SEED + 1);
    compare_runs(|number| any_network(&mut random, number));
}

/// Each network is that of a sheet, one in four of them damaged; or the generator's own.
#[test]
fn runs_on_networks_of_version_3() {
    let mut random = Random::new(SEED + 5);
    compare_runs(|number| any_card(&mut random, number));
}

/// Runs the log that is made for each number on the network that is made with it.
fn compare_runs(mut make: impl FnMut(usize) -> (Vec<u8>, Vec<u8>)) {
    let mut codes = Codes::default();
    for number in 0..INPUTS {
        let (network, log) = make(number);
        let answer = proved::run_network(&network, &log);
        let expected = numbered(run_network(&network, &log));
        assert_eq!(answer, expected, "input {number}");
        codes.count(answer);
    }
    codes.assert_many();
}

/// A run that counts over 32 bits: calls on a network of version 3 that counts as much as can be, one after the other.
#[test]
fn a_count_over_32_bits() {
    let network = greatest_network(Kind::Entry, Form::Version3);
    let call = [entry(0, 7, &[]), exit(0, 7, &[])];
    let one = run_network(&network, &write_log(0, &call)).count;
    assert_eq!(one, 102_460 + 4_096);
    let calls = (u64::from(u32::MAX) / one + 1) as usize;
    let records: Vec<Record> = call.iter().cycle().take(2 * calls).cloned().collect();
    let answer = proved::run_network(&network, &write_log(0, &records));
    let events = 2 * calls as u32;
    assert_eq!((answer.code, answer.numbers), (0, [events, 0, 0, 0]));
    assert_eq!(answer.count, one * calls as u64);
    assert!(answer.count > u64::from(u32::MAX));
}

/// Networks of version 3 with one condition, as deep as its bytes allow: in the last operand, in the first, and where it
/// is passed over.
fn deep_networks() -> Vec<Vec<u8>> {
    let conditions = [
        [vec![1; 1_023], vec![0]].concat(),
        [vec![2; 511], vec![0; 512]].concat(),
        [[2, 0].repeat(511), vec![0]].concat(),
        [vec![3, 0], vec![1; 1_021], vec![0]].concat(),
    ];
    let network_of = |condition| {
        let mut network = NetworkDraft::new(1, 1, 0, &[]);
        network.front.conditions = vec![condition];
        network.front.actions = vec![vec![]];
        network.creating([0, 0, 0, 0, 0, 0], &[]);
        network.in_version_3().bytes()
    };
    conditions.into_iter().map(network_of).collect()
}

/// On a stack of as many bytes as `embed/watch.h` says were used at most. Where they are too few, a signal ends the test.
#[test]
fn deep_conditions_on_a_small_stack() {
    let log = write_log(0, &[entry(0, 7, &[])]);
    let networks = deep_networks();
    let expected: Vec<Answer> = networks.iter().map(|n| numbered(run_network(n, &log))).collect();
    assert!(expected.iter().all(|answer| answer.code == 0));
    let run_all = move || networks.iter().map(|n| proved::run_network(n, &log)).collect();
    let small = thread::Builder::new().stack_size(54 * 1024);
    let answers: Vec<Answer> = small.spawn(run_all).unwrap().join().unwrap();
    assert_eq!(answers, expected);
}

fn any_network(random: &mut Random, number: usize) -> (Vec<u8>, Vec<u8>) {
    let RunCase { sheet, log } = run_case(random);
    match translated(Version::Two, &sheet) {
        Some(network) if number.is_multiple_of(2) => (network, log),
        _ => own_network(random, &log),
    }
}

fn any_card(random: &mut Random, number: usize) -> (Vec<u8>, Vec<u8>) {
    let RunCase { sheet, log } = run_case(random);
    match translated(Version::Three, &sheet) {
        Some(card) if number % 4 == 3 => (damaged(random, card), log),
        Some(card) => (card, log),
        None => loop {
            let (network, log) = own_network(random, &log);
            if network.get(2) == Some(&3) {
                return (network, log);
            }
        },
    }
}

fn translated(version: Version, sheet: &[u8]) -> Option<Vec<u8>> {
    let mut network = vec![0; CARD_BUFFER];
    let length = translate_to(version, sheet, &mut network).ok()?;
    network.truncate(length);
    Some(network)
}

fn own_network(random: &mut Random, log: &[u8]) -> (Vec<u8>, Vec<u8>) {
    let own = network_case(random, log);
    (own.network, own.log)
}

// ---- Translating ------------------------------------------------------------------------------

/// Each sheet is translated to both versions.
#[test]
fn translations() {
    let mut random = Random::new(SEED + 2);
    let mut answers = [[0; 22]; 2];
    for number in 0..INPUTS {
        let sheet = run_case(&mut random).sheet;
        for (version, answers) in VERSIONS.into_iter().zip(&mut answers) {
            let whole = translated(version, &sheet).map_or(0, |network| network.len());
            let room = match random.below(4) {
                0 => random.below(whole),
                1 => whole.saturating_sub(1),
                2 => whole,
                _ => random.pick(&[BUFFER, BUFFER, CARD_BUFFER]),
            };
            answers[compare_translation(version, &sheet, room, number)] += 1;
        }
    }
    // 0 is done; 9 to 18 and 20 are no refusals of a sheet, and 21 is one of version 3.
    for (answers, own) in answers.iter().zip([None, Some(21)]) {
        let met = |answer: &usize| answers[*answer] >= 50;
        let all = (0..9).chain([19]).chain(own);
        assert!(all.clone().all(|n| met(&n)), "{answers:?}");
        assert_eq!(all.map(|n| answers[n]).sum::<usize>(), INPUTS);
    }
}

const VERSIONS: [Version; 2] = [Version::Two, Version::Three];

/// Compares the answer, every byte of the buffer and the size; gives the answer.
fn compare_translation(version: Version, sheet: &[u8], room: usize, number: usize) -> usize {
    let unchanged = 0xA5A5_A5A5;
    let (mut out, mut size) = (vec![FILL; room], unchanged);
    let answer = proved::translate(version, sheet, &mut out, &mut size);
    let mut expected = vec![FILL; room];
    let (code, length) = match translate_to(version, sheet, &mut expected) {
        Ok(length) => (0, length),
        Err(refusal) => (refusal.number().into(), unchanged),
    };
    assert_eq!((answer, size), (code, length), "input {number}");
    assert_eq!(out, expected, "input {number}");
    answer as usize
}

// ---- Lines ------------------------------------------------------------------------------------

#[test]
fn lines_of_inputs() {
    let mut random = Random::new(SEED + 3);
    for number in 0..INPUTS {
        let mut input = run_case(&mut random).input();
        if random.chance(1, 10) {
            input.truncate(random.below(input.len()));
        }
        let room = random.pick(&[0, 1, 12, 30, 300, 300, 300, 400]);
        compare_lines(&input, room, number);
    }
}

#[test]
fn lines_of_long_inputs() {
    for length in MOST_INPUT - 2..MOST_INPUT + 3 {
        for first in [0, 0xFF] {
            compare_lines(&vec![first; length], 300, length);
        }
    }
}

/// Compares how many bytes there are, and every byte of a buffer with so much room.
fn compare_lines(input: &[u8], room: usize, number: usize) {
    let text = output(input).into_bytes();
    let mut expected = vec![FILL; room];
    for (place, byte) in expected.iter_mut().zip(&text) {
        *place = *byte;
    }
    let mut out = vec![FILL; room];
    let size = proved::lines(input, &mut out);
    assert_eq!(size, text.len(), "input {number}");
    assert_eq!(out, expected, "input {number}");
}

// ---- The benchmark's inputs -------------------------------------------------------------------

#[test]
fn the_benchmark_s_logs_are_clean() {
    let tables = [
        workloads::log_lengths(),
        workloads::sheet_sizes(),
        workloads::open_calls(),
        workloads::mondex_runs(),
    ];
    for workload in tables.iter().flatten() {
        let answer = proved::run(&workload.sheet, &workload.log);
        let expected = numbered(run_sheet(&workload.sheet, &workload.log));
        assert_eq!(answer, expected, "{}", workload.name);
        let [events, ..] = answer.numbers;
        assert_eq!(answer.code, 0, "{}", workload.name);
        assert_eq!(events as usize, workload.events, "{}", workload.name);
    }
    let longest = tables[1].iter().map(|w| w.sheet.len()).max();
    assert_eq!(longest, Some(LONGEST_SHEET));
    let mondex = Sheet::read(&tables[3][0].sheet).unwrap();
    let counts = (mondex.transitions.len(), mondex.triples.len());
    assert_eq!((mondex.machine.header.states, counts), (10, (25, 26)));
}

#[test]
fn the_benchmark_refuses_wrong_arguments() {
    for arguments in [&["x"][..], &["--write"], &["--write", "/nowhere/at/all"]] {
        let mut bench = Command::new(env!("CARGO_BIN_EXE_bench"));
        let said = bench.args(arguments).output().expect("it starts");
        let message = String::from_utf8_lossy(&said.stderr);
        assert!(!said.status.success() && said.stdout.is_empty());
        assert_eq!(message.lines().count(), 1, "{message}");
    }
}

// ---- The programs in C ------------------------------------------------------------------------

const TOP: &str = concat!(env!("CARGO_MANIFEST_DIR"), "/..");

/// A program of `embed/`, built with `cc`; none where there is no `cc`.
fn build(name: &str, directory: &Path) -> Option<PathBuf> {
    if Command::new("cc").arg("--version").output().is_err() {
        println!("there is no cc: {name} was not built");
        return None;
    }
    let program = directory.join(name);
    let top = Path::new(TOP);
    let built = Command::new("cc")
        .args(["-std=c99", "-O2", "-Wall", "-Wextra", "-Wpedantic"])
        .args(["-Werror", "-o"])
        .arg(&program)
        .arg(top.join(format!("embed/{name}.c")))
        .arg(top.join("crates/embed/out/libembed.a"))
        .output()
        .expect("cc starts");
    let said = String::from_utf8_lossy(&built.stderr);
    assert!(built.status.success() && said.is_empty(), "{said}");
    Some(program)
}

fn run_example(program: &Path, arguments: &[&Path]) -> Output {
    let mut command = Command::new(program);
    command.args(arguments).output().expect("the example runs")
}

/// The two lines for a sheet and a log that stand apart.
fn two_lines(sheet: &[u8], log: &[u8]) -> String {
    let mut buffer = vec![0; BUFFER];
    let on_network = match translate(sheet, &mut buffer) {
        Ok(length) => run_network(&buffer[..length], log).result,
        Err(refusal) => Outcome::Refused(refusal),
    };
    format!("{}\n{on_network}\n", run_sheet(sheet, log).result)
}

#[test]
fn the_example_prints_the_program_s_lines() {
    let place = directory("example-lines");
    let Some(program) = build("example", &place) else {
        return;
    };
    let (sheet, log) = (place.join("sheet"), place.join("log"));
    let compare = |case: &RunCase| {
        fs::write(&sheet, &case.sheet).unwrap();
        fs::write(&log, &case.log).unwrap();
        let said = run_example(&program, &[&sheet, &log]);
        let expected = two_lines(&case.sheet, &case.log);
        assert_eq!(String::from_utf8_lossy(&said.stdout), expected);
        assert!(said.status.success() && said.stderr.is_empty());
        expected
    };
    let a = RunCase {
        sheet: SHEET_A.to_vec(),
        log: LOG_A.to_vec(),
    };
    let line = "violated 2 state - triple 0 entry 1\n";
    assert_eq!(compare(&a), line.repeat(2));
    let mut random = Random::new(SEED + 4);
    for _ in 0..200 {
        compare(&run_case(&mut random));
    }
}

#[test]
fn the_example_says_what_is_wrong() {
    let place = directory("example-wrong");
    let Some(program) = build("example", &place) else {
        return;
    };
    let (sheet, missing) = (place.join("sheet"), place.join("missing"));
    fs::write(&sheet, SHEET_A).unwrap();
    let wrong: [(&[&Path], i32, &str); 5] = [
        (&[], 2, "usage: "),
        (&[&sheet], 2, "usage: "),
        (&[&sheet, &sheet, &sheet], 2, "usage: "),
        (&[&sheet, &missing], 1, "cannot read"),
        (&[&place, &sheet], 1, "cannot read"),
    ];
    for (arguments, status, text) in wrong {
        let said = run_example(&program, arguments);
        let message = String::from_utf8_lossy(&said.stderr);
        assert_eq!(said.status.code(), Some(status), "{message}");
        assert!(said.stdout.is_empty());
        assert!(message.contains(text), "{message}");
        assert_eq!(message.lines().count(), 1, "{message}");
    }
}

/// The program's standard input is a file.
fn run_card(program: &Path, place: &Path, sheet: &[u8]) -> Output {
    let input = place.join("sheet");
    fs::write(&input, sheet).unwrap();
    let mut command = Command::new(program);
    command.stdin(fs::File::open(&input).unwrap());
    command.output().expect("the program runs")
}

#[test]
fn the_card_s_program_writes_version_3() {
    let place = directory("card-program");
    let Some(program) = build("card", &place) else {
        return;
    };
    let mut buffer = vec![0; CARD_BUFFER];
    let mut compare = |sheet: &[u8]| {
        let said = run_card(&program, &place, sheet);
        match translate_to(Version::Three, sheet, &mut buffer) {
            Ok(length) => {
                assert!(said.status.success() && said.stderr.is_empty());
                assert_eq!(said.stdout, buffer[..length]);
            }
            Err(refusal) => {
                assert_eq!(said.status.code(), Some(2));
                assert_eq!(
                    String::from_utf8_lossy(&said.stderr),
                    format!("{refusal}\n")
                );
                assert!(said.stdout.is_empty());
            }
        }
    };
    compare(&SHEET_A);
    compare(&[]);
    compare(&vec![0; 70_000]);
    for sheet in rival_sheets::all() {
        compare(&sheet.bytes());
    }
    let mut random = Random::new(SEED + 6);
    for _ in 0..200 {
        compare(&run_case(&mut random).sheet);
    }
}
