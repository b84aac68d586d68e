//! Times the proved library, by way of its static library, and the reference on the same inputs in
//! one process, and prints tables. Only under the feature `embed`.
//!
//! `bench [--write DIRECTORY]`; with `--write` it writes the inputs and times nothing, for counting
//! instructions: `valgrind --tool=callgrind example SHEET LOG`.

use reference::framing::proved::{self, numbered, Answer};
use reference::implementation::engine::Engine;
use reference::implementation::network::{Network, Version};
use reference::implementation::run::{run, run_unjudged};
use reference::implementation::sheet::Sheet;
use reference::implementation::translate::{translate_to, CARD_BUFFER};
use reference::making::workloads::{self, Workload, MONDEX_REPORTED};
use std::ffi::OsString;
use std::fs;
use std::hint::black_box;
use std::path::Path;
use std::process::ExitCode;
use std::time::Instant;

/// The shortest of this many turns counts. The contenders take turns.
const TURNS: usize = 50;
/// What a turn takes at least, in seconds.
const TURN: f64 = 0.004;

type Runs<'a> = [&'a dyn Fn() -> Answer; 3];

/// Seconds for a run of the proved library, of the reference, and of the reference without judging
/// the state before each event.
struct Times([f64; 3]);

impl Times {
    fn of(runs: Runs) -> Times {
        let answer = runs[0]();
        assert!(runs.iter().all(|run| run() == answer) && answer.code == 0);
        let repeats = runs.map(repeats);
        let mut best = [f64::INFINITY; 3];
        for _ in 0..TURNS {
            for ((best, run), repeats) in best.iter_mut().zip(runs).zip(repeats) {
                *best = best.min(seconds(run, repeats) / repeats as f64);
            }
        }
        Times(best)
    }

    fn ratio(&self, other: usize) -> f64 {
        self.0[0] / self.0[other]
    }
}

fn seconds(run: &dyn Fn() -> Answer, repeats: usize) -> f64 {
    let start = Instant::now();
    for _ in 0..repeats {
        black_box(run());
    }
    start.elapsed().as_secs_f64()
}

/// How often a run is repeated so that it takes a turn.
fn repeats(run: &dyn Fn() -> Answer) -> usize {
    let mut repeats = 1;
    while seconds(run, repeats) < TURN {
        repeats *= 2;
    }
    repeats
}

// ---- The contenders ---------------------------------------------------------------------------

/// The proved library reads the rules in every run; the reference has decoded them before.
fn timed<E: Engine>(rules: &[u8], log: &[u8], proved: fn(&[u8], &[u8]) -> Answer) -> Times {
    let decoded = E::read(rules).expect("the rules are accepted");
    Times::of([
        &|| proved(black_box(rules), black_box(log)),
        &|| numbered(run(black_box(&decoded), black_box(log))),
        &|| numbered(run_unjudged(black_box(&decoded), black_box(log))),
    ])
}

fn on_sheet(workload: &Workload) -> Times {
    timed::<Sheet>(&workload.sheet, &workload.log, proved::run)
}

fn on_network(workload: &Workload, version: Version) -> Times {
    let mut network = vec![0; CARD_BUFFER];
    let length = translate_to(version, &workload.sheet, &mut network);
    network.truncate(length.expect("the sheet has a network"));
    timed::<Network>(&network, &workload.log, proved::run_network)
}

// ---- Tables -----------------------------------------------------------------------------------

fn head(title: &str, columns: &[&str]) {
    println!("\n### {title}\n");
    println!("| {} |", columns.join(" | "));
    println!("|{}", "---|".repeat(columns.len()));
}

fn rates(title: &str, workloads: &[Workload]) {
    let columns = [
        "input",
        "rules",
        "proved, events/s",
        "reference, events/s",
        "time ratio",
        "reference without 9, events/s",
        "time ratio",
    ];
    head(title, &columns);
    for workload in workloads {
        rate(workload, "sheet", &on_sheet(workload));
        rate(workload, "network", &on_network(workload, Version::Two));
        let card = on_network(workload, Version::Three);
        rate(workload, "network, version 3", &card);
    }
}

fn rate(workload: &Workload, rules: &str, times: &Times) {
    let per_second = |seconds: f64| thousands((workload.events as f64 / seconds) as u64);
    let [proved, reference, unjudged] = times.0.map(per_second);
    let (first, second) = (times.ratio(1), times.ratio(2));
    println!(
        "| {} | {rules} | {proved} | {reference} | {first:.2} | {unjudged} | {second:.2} |",
        workload.name
    );
}

/// With a comma between thousands.
fn thousands(number: u64) -> String {
    match number {
        0..=999 => number.to_string(),
        _ => format!("{},{:03}", thousands(number / 1_000), number % 1_000),
    }
}

fn mondex() {
    let columns = [
        "transactions",
        "events",
        "proved, sheet",
        "proved, network",
        "proved, version 3",
        "reference, sheet",
        "003 (a) none",
        "003 (b) S",
        "003 (c) S'",
    ];
    head(
        "Mondex: milliseconds, beside the table of document 003",
        &columns,
    );
    for (workload, (transactions, reported)) in workloads::mondex_runs().iter().zip(MONDEX_REPORTED)
    {
        let [own, reference, _] = on_sheet(workload).0;
        let [network, card] =
            [Version::Two, Version::Three].map(|version| on_network(workload, version).0[0]);
        let times = [own, network, card, reference].map(|s| format!("{:.3}", s * 1e3));
        let reported = reported.map(|time| thousands(time.into()));
        println!(
            "| {transactions} | {} | {} | {} |",
            workload.events,
            times.join(" | "),
            reported.join(" | ")
        );
    }
}

/// What a run costs before its first event.
fn reading() {
    let columns = ["sheet", "proved, ns", "reference, ns", "time ratio"];
    head(
        "A log of no events: reading the sheet and the log",
        &columns,
    );
    let mondex = workloads::mondex_runs().remove(0);
    let name = format!("Mondex, {} bytes", mondex.sheet.len());
    let mondex = Workload { name, ..mondex };
    for workload in workloads::sheet_sizes().iter().chain([&mondex]) {
        let log = [0, 0, 0, 6, 1, workload.log[5]];
        let sheet = &workload.sheet;
        let reference = || {
            numbered(reference::implementation::run::run_sheet(
                black_box(sheet),
                &log,
            ))
        };
        let proved = || proved::run(black_box(sheet), &log);
        let times = Times::of([&proved, &reference, &reference]);
        let [own, other, _] = times.0.map(|seconds| thousands((seconds * 1e9) as u64));
        println!(
            "| {} | {own} | {other} | {:.2} |",
            workload.name,
            times.ratio(1)
        );
    }
}

/// Writes each sheet and log as `TABLE-ROW.sheet` and `TABLE-ROW.log`, both from 0.
fn write(directory: &Path, tables: &[(&str, Vec<Workload>)]) -> std::io::Result<()> {
    for (table, (_, workloads)) in tables.iter().enumerate() {
        for (row, workload) in workloads.iter().enumerate() {
            let name = directory.join(format!("{table}-{row}"));
            fs::write(name.with_extension("sheet"), &workload.sheet)?;
            fs::write(name.with_extension("log"), &workload.log)?;
        }
    }
    Ok(())
}

fn main() -> ExitCode {
    let tables = [
        ("Log lengths, on sheet A", workloads::log_lengths()),
        ("Sheets, 1,000 events", workloads::sheet_sizes()),
        ("Open calls, 999 or 1,000 events", workloads::open_calls()),
        ("The size of Mondex", workloads::mondex_runs()),
    ];
    let arguments: Vec<OsString> = std::env::args_os().skip(1).collect();
    match &arguments[..] {
        [] => {
            for (title, workloads) in &tables {
                rates(title, workloads);
            }
            mondex();
            reading();
            ExitCode::SUCCESS
        }
        [option, directory] if option == "--write" => match write(directory.as_ref(), &tables) {
            Ok(()) => ExitCode::SUCCESS,
            Err(error) => failed(&format!("{}: {error}", directory.to_string_lossy())),
        },
        _ => failed("wrong arguments; use: bench [--write DIRECTORY]"),
    }
}

fn failed(message: &str) -> ExitCode {
    eprintln!("bench: {message}");
    ExitCode::FAILURE
}
