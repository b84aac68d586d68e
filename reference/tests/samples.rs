//! The samples: the rule for text dumps, and what the tool `samples` writes, checks and refuses.

mod places;

use reference::framing::dump::bytes;
use std::fs;
use std::path::{Path, PathBuf};
use std::process::{Command, Output};

const SAMPLES: &str = env!("CARGO_BIN_EXE_samples");

/// The smallest sheet, with one state and one unit; a log without events; its lines and its row.
const FILES: [(&str, &str); 4] = [
    (
        "S.sheet.txt",
        "00 0E 01 01 01 00 00 00 | 00 00 00 00 00 00\n",
    ),
    ("S-none.log.txt", "# A log.\n00 00 00 06 # length\n01 00\n"),
    (
        "S-none.expected",
        "clean 0 state 0 open 0\nclean 0 state 0 open 0\n",
    ),
    (
        "README.md",
        "| `S-none` | nothing | `clean 0 state 0 open 0` |\n",
    ),
];

fn run(arguments: &[&str]) -> Output {
    let mut command = Command::new(SAMPLES);
    command.args(arguments).output().expect("the tool starts")
}

/// A directory of this test's own with the files above and their bytes.
fn directory(name: &str) -> PathBuf {
    let path = places::directory(name);
    for (file, text) in FILES {
        fs::write(path.join(file), text).unwrap();
    }
    let output = run(&[path.to_str().unwrap()]);
    assert_eq!(output.stdout, b"files written: 2\n");
    path
}

fn check(directory: &Path) -> Output {
    run(&["--check", directory.to_str().unwrap()])
}

/// It ends with status 1 and one line, which has this in it.
fn assert_refused(output: &Output, part: &str) {
    let text = String::from_utf8_lossy(&output.stderr);
    assert_eq!(output.status.code(), Some(1), "{text}");
    assert_eq!(text.lines().count(), 1, "{text}");
    assert!(text.contains(part), "{text} has no {part}");
    assert!(output.stdout.is_empty());
}

#[test]
fn a_dump_has_bytes_separators_and_comments() {
    assert_eq!(bytes(""), Ok(vec![]));
    assert_eq!(bytes("# only 12 a comment\n\n"), Ok(vec![]));
    assert_eq!(
        bytes("00 aF|Fa | 7f# 80\n  01\t02"),
        Ok(vec![0, 0xAF, 0xFA, 0x7F, 1, 2])
    );
}

#[test]
fn a_dump_has_nothing_else() {
    for (text, word) in [
        ("0", "0"),
        ("00\n 0G", "0G"),
        ("0011", "0011"),
        ("+1", "+1"),
        ("é", "é"),
    ] {
        let line = text.lines().count();
        let said = format!("line {line}: `{word}` is not a byte of two hexadecimal digits");
        assert_eq!(bytes(text), Err(said));
    }
}

#[test]
fn the_committed_samples_are_right() {
    let output = run(&["--check"]);
    assert!(
        output.status.success(),
        "{}",
        String::from_utf8_lossy(&output.stderr)
    );
    assert!(output.stderr.is_empty());
}

/// The bytes of the dump behind these words in the README at the root: what each line begins with.
fn shown(readme: &str, words: &str) -> Vec<u8> {
    let (_, behind) = readme.split_once(words).expect(words);
    let block = behind.split("```").nth(1).expect("a block behind it");
    let is_byte = |word: &&str| word.len() == 2 && word.bytes().all(|b| b.is_ascii_hexdigit());
    let bytes = block
        .lines()
        .flat_map(|line| line.split_whitespace().take_while(is_byte));
    bytes
        .map(|word| u8::from_str_radix(word, 16).unwrap())
        .collect()
}

#[test]
fn the_readme_shows_sheet_a_its_log_and_its_lines() {
    let root = Path::new(env!("CARGO_MANIFEST_DIR")).join("..");
    let readme = fs::read_to_string(root.join("README.md")).unwrap();
    let samples = root.join("samples");
    let sheet = fs::read(samples.join("A.sheet")).unwrap();
    assert_eq!(shown(&readme, "**Sheet A, byte by byte**"), sheet);
    let log = fs::read(samples.join("A-loader.log")).unwrap();
    assert_eq!(shown(&readme, "and its log `A-loader`"), log);
    let lines = fs::read_to_string(samples.join("A-loader.expected")).unwrap();
    let (_, behind) = readme
        .split_once("./watch samples/A.sheet samples/A-loader.log")
        .unwrap();
    assert_eq!(behind.split("```").nth(1), Some(&*format!("\n{lines}")));
}

#[test]
fn it_writes_what_it_checks() {
    let place = directory("samples-right");
    assert_eq!(
        fs::read(place.join("S-none.log")).unwrap(),
        [0, 0, 0, 6, 1, 0]
    );
    assert_eq!(check(&place).stdout, b"logs checked: 1\n");
}

#[test]
fn it_sees_what_is_wrong_and_writes_nothing() {
    for (file, text, part) in [
        ("S.sheet", "\0", "S.sheet is not what its dump says"),
        ("S-none.log", "\0", "S-none.log is not what its dump says"),
        ("S-none.log.txt", "0x", "S-none.log.txt: line 1"),
        (
            "S-none.expected",
            "clean 1 state 0 open 0\n",
            "the reference answers clean 0 state 0 open 0; ",
        ),
        (
            "README.md",
            "`S-none` and `clean 1 state 0 open 0`\n",
            "has no row with `S-none` and `clean 0",
        ),
        ("T.sheet", "", "T.sheet stands without T.sheet.txt"),
        ("T-x.log", "", "T-x.log stands without T-x.log.txt"),
        ("T-x.expected", "", "T-x.expected stands without T-x.log"),
    ] {
        let place = directory("samples-wrong");
        fs::write(place.join(file), text).unwrap();
        assert_refused(&check(&place), part);
        assert_eq!(fs::read(place.join(file)).unwrap(), text.as_bytes());
    }
}

#[test]
fn it_sees_what_is_missing() {
    for (file, part) in [
        ("S.sheet", "S.sheet: "),
        ("S-none.log", "S-none.expected stands without S-none.log"),
        ("S-none.expected", "S-none.expected: "),
        ("README.md", "README.md: "),
    ] {
        let place = directory("samples-missing");
        fs::remove_file(place.join(file)).unwrap();
        assert_refused(&check(&place), part);
    }
}

#[test]
fn a_log_is_named_after_its_sheet() {
    let place = directory("samples-names");
    fs::write(place.join("S.log.txt"), "00 00 00 06 01 00").unwrap();
    run(&[place.to_str().unwrap()]);
    assert_refused(&check(&place), "S.log: its name does not begin SHEET-");
}

#[test]
fn it_refuses_wrong_arguments() {
    assert_refused(&run(&["--wrong"]), "use: samples [--check] [DIRECTORY]");
    assert_refused(&run(&["a", "b"]), "one DIRECTORY only");
    assert_refused(&run(&["/nowhere/at/all"]), "/nowhere/at/all: ");
    let empty = directory("samples-empty").join("empty");
    fs::create_dir(&empty).unwrap();
    assert_refused(&run(&[empty.to_str().unwrap()]), "has no file X.sheet.txt");
    assert_refused(&check(&empty), "has no file X.sheet.txt");
}
