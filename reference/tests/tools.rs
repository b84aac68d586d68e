//! The binaries: what they write, and what they say to wrong arguments and missing files.

mod places;

use places::directory;
use reference::framing::case_files::{self, Files};
use reference::making::programs::PROGRAMS;
use std::fs;
use std::io::Write;
use std::path::{Path, PathBuf};
use std::process::{Command, Output, Stdio};

const CASES: &str = env!("CARGO_BIN_EXE_cases");
const GENERATE: &str = env!("CARGO_BIN_EXE_generate");
const WATCH: &str = env!("CARGO_BIN_EXE_watch-reference");

/// The case programs, and the files that each has below `crates/`.
const NAMES: [&str; 7] = [
    "condition_cases",
    "bench_cases",
    "sheet_cases",
    "monitor_cases",
    "network_cases",
    "translation_cases",
    "cases",
];
const FILES: [&str; 2] = ["stdin", "stdout"];

fn run(program: &str, arguments: &[&str]) -> Output {
    run_with(program, arguments, &[])
}

fn run_with(program: &str, arguments: &[&str], input: &[u8]) -> Output {
    let mut child = Command::new(program)
        .args(arguments)
        .stdin(Stdio::piped())
        .stdout(Stdio::piped())
        .stderr(Stdio::piped())
        .spawn()
        .expect("the program starts");
    // A program that refuses its arguments may end before it reads.
    let _ = child
        .stdin
        .take()
        .expect("its input is a pipe")
        .write_all(input);
    child.wait_with_output().expect("the program ends")
}

fn assert_one_line_and_failure(output: &Output) {
    let text = String::from_utf8_lossy(&output.stderr);
    assert!(!output.status.success());
    assert_eq!(text.lines().count(), 1, "{text}");
    assert!(output.stdout.is_empty());
}

#[test]
fn cases_reproduces_the_committed_files() {
    let output = run(CASES, &["--check"]);
    assert!(
        output.status.success(),
        "{}",
        String::from_utf8_lossy(&output.stderr)
    );
    assert!(output.stderr.is_empty());
}

#[test]
fn cases_writes_what_it_checks() {
    let root = root("writes");
    let text = root.to_str().unwrap();
    assert_one_line_and_failure(&run(CASES, &["--check", text]));
    assert!(run(CASES, &[text]).status.success());
    assert!(run(CASES, &[text, "--check"]).status.success());
    assert_eq!(case_files::check(&root, committed()), Ok(()));
}

/// One file of each program: every run makes the cases anew, up to the file that differs.
#[test]
fn cases_names_a_file_that_differs() {
    let root = root("differs");
    case_files::write(&root, committed()).unwrap();
    let text = root.to_str().unwrap();
    for (name, file) in NAMES.into_iter().zip(FILES.into_iter().cycle()) {
        let path = root.join("crates").join(name).join(file);
        let good = fs::read(&path).unwrap();
        let changed = change(&path);
        let output = run(CASES, &["--check", text]);
        assert_one_line_and_failure(&output);
        assert_eq!(output.status.code(), Some(1));
        let said = String::from_utf8_lossy(&output.stderr);
        assert!(said.contains("differs"));
        assert!(said.contains(path.to_str().unwrap()));
        // Checking wrote nothing.
        assert_eq!(fs::read(&path).unwrap(), changed);
        fs::write(&path, &good).unwrap();
    }
}

/// Every file of every program, by the function that `cases` calls.
#[test]
fn each_file_that_differs_or_is_missing_is_named() {
    let root = root("named");
    let committed = committed();
    case_files::write(&root, committed.clone()).unwrap();
    for path in paths(&root) {
        let good = fs::read(&path).unwrap();
        let changed = change(&path);
        let said = case_files::check(&root, committed.clone()).unwrap_err();
        assert!(said.contains("differs"));
        assert!(said.contains(path.to_str().unwrap()));
        assert_eq!(fs::read(&path).unwrap(), changed);
        fs::remove_file(&path).unwrap();
        let said = case_files::check(&root, committed.clone()).unwrap_err();
        assert!(said.contains(path.to_str().unwrap()));
        assert!(!path.exists());
        fs::write(&path, &good).unwrap();
    }
    assert_eq!(case_files::check(&root, committed), Ok(()));
}

/// A directory with a directory `crates`.
fn root(name: &str) -> PathBuf {
    let root = directory(name);
    fs::create_dir(root.join("crates")).unwrap();
    root
}

/// The file's bytes with one of them changed.
fn change(path: &Path) -> Vec<u8> {
    let mut bytes = fs::read(path).unwrap();
    bytes[100] ^= 1;
    fs::write(path, &bytes).unwrap();
    bytes
}

/// The files of every program.
fn paths(root: &Path) -> Vec<PathBuf> {
    let files = |name| FILES.map(|file| root.join("crates").join(name).join(file));
    NAMES.into_iter().flat_map(files).collect()
}

/// What the repository has in them.
fn committed() -> Vec<(&'static str, Files)> {
    assert!(PROGRAMS.iter().map(|program| program.name).eq(NAMES));
    let crates = Path::new(env!("CARGO_MANIFEST_DIR")).join("../crates");
    let files = |name| {
        let [stdin, stdout] = FILES.map(|file| fs::read(crates.join(name).join(file)).unwrap());
        (name, Files { stdin, stdout })
    };
    NAMES.into_iter().map(files).collect()
}

#[test]
fn cases_refuses_wrong_arguments() {
    for arguments in [
        &["--wrong"][..],
        &["/nowhere/at/all"],
        &[".", "."],
        &["--check", "-x"],
    ] {
        assert_one_line_and_failure(&run(CASES, arguments));
    }
}

#[test]
fn generate_refuses_wrong_arguments() {
    for arguments in [&["many"][..], &["-1"], &["1", "2"], &["--write"]] {
        assert_one_line_and_failure(&run(GENERATE, arguments));
    }
    assert_one_line_and_failure(&run(GENERATE, &["1", "--write", "/nowhere/at/all"]));
}

#[test]
fn generate_fails_where_something_did_not_occur() {
    let output = run(GENERATE, &["3"]);
    assert_eq!(output.status.code(), Some(1));
    let text = String::from_utf8_lossy(&output.stderr);
    assert_eq!(text.lines().count(), 1);
    assert!(text.contains("did not occur"));
}

#[test]
fn generate_writes_cases_that_the_program_answers() {
    let place = directory("inputs");
    run(GENERATE, &["20", "--write", place.to_str().unwrap()]);
    for number in 0..20 {
        let input = fs::read(place.join(format!("{number:06}.in"))).unwrap();
        let expected = fs::read(place.join(format!("{number:06}.out"))).unwrap();
        let output = run_with(WATCH, &[], &input);
        assert!(output.status.success());
        assert_eq!(output.stdout, expected);
    }
}

#[test]
fn the_program_prints_two_lines_or_too_long() {
    let output = run_with(WATCH, &[], &[]);
    assert_eq!(output.stdout, b"refused 1\nrefused 1\n");
    let output = run_with(WATCH, &[], &vec![0xFF; 65_537]);
    assert_eq!(output.stdout, b"too long\n");
    assert!(output.status.success());
    assert_one_line_and_failure(&run(WATCH, &["file"]));
}
