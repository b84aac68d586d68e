//! The script `watch` at the root: usage, files, standard input, exit statuses, building. Programs
//! that stand in for the proved one are named by WATCH_PROGRAM.

mod places;
mod stand_ins;

use places::directory;
use stand_ins::script;
use std::fs;
use std::io::Write;
use std::ops::Deref;
use std::os::unix::fs::{symlink, PermissionsExt};
use std::path::{Path, PathBuf};
use std::process::{Command, Output, Stdio};

const REFERENCE: &str = env!("CARGO_BIN_EXE_watch-reference");
const CLEAN: &str = "clean 0 state 0 open 0\nclean 0 state 0 open 0\n";

/// What the script needs from the machine.
const TOOLS: [&str; 10] = [
    "cat", "cp", "dirname", "head", "mktemp", "od", "readlink", "rm", "sh", "wc",
];

/// A directory with links in it, which goes with its test: `rt ci` refuses links below a checkout.
struct Linked(PathBuf);

impl Deref for Linked {
    type Target = PathBuf;

    fn deref(&self) -> &PathBuf {
        &self.0
    }
}

impl Drop for Linked {
    fn drop(&mut self) {
        let _ = fs::remove_dir_all(&self.0);
    }
}

fn root() -> PathBuf {
    Path::new(env!("CARGO_MANIFEST_DIR")).join("..")
}

fn sample(name: &str) -> String {
    root().join("samples").join(name).to_str().unwrap().into()
}

/// The script at the root, with a program in place of the proved one.
fn watch(program: &str) -> Command {
    let mut command = Command::new(root().join("watch"));
    command.env("WATCH_PROGRAM", program);
    command
}

fn run(command: &mut Command, input: &[u8]) -> Output {
    let pipes = command
        .stdin(Stdio::piped())
        .stdout(Stdio::piped())
        .stderr(Stdio::piped());
    let mut child = pipes.spawn().expect("the script starts");
    // It may end before it reads.
    let _ = child
        .stdin
        .take()
        .expect("its input is a pipe")
        .write_all(input);
    child.wait_with_output().expect("the script ends")
}

fn assert_answer(output: &Output, status: i32, lines: &str) {
    let said = String::from_utf8_lossy(&output.stderr);
    assert_eq!(String::from_utf8_lossy(&output.stdout), lines, "{said}");
    assert_eq!(output.status.code(), Some(status), "{said}");
}

/// Nothing was judged: status 3 and one line on standard error, with this in it.
fn assert_unjudged(output: &Output, part: &str) {
    assert_answer(output, 3, "");
    assert_said(output, part);
}

/// One line on standard error, with this in it.
fn assert_said(output: &Output, part: &str) {
    let said = String::from_utf8_lossy(&output.stderr);
    assert_eq!(said.lines().count(), 1, "{said}");
    assert!(said.contains(part), "{said} has no {part}");
}

#[test]
fn usage() {
    let (a, log) = (sample("A.sheet"), sample("A-loader.log"));
    let wrong: [&[&str]; 5] = [&[], &[&a], &[&a, &log, "more"], &["-", "-"], &["--help"]];
    for arguments in wrong {
        let output = run(watch(REFERENCE).args(arguments), b"");
        assert_unjudged(&output, "usage: ./watch SHEET LOG");
    }
}

#[test]
fn files_that_cannot_be_read() {
    let (a, log) = (sample("A.sheet"), sample("A-loader.log"));
    let answer = |sheet: &str, log: &str| run(watch(REFERENCE).args([sheet, log]), b"");
    assert_unjudged(
        &answer("/nowhere/x", &log),
        "there is no file '/nowhere/x' (the sheet)",
    );
    assert_unjudged(&answer(&a, "-x"), "there is no file '-x' (the log)");
    assert_unjudged(&answer(&a, ""), "there is no file '' (the log)");
    assert_unjudged(&answer("/", &log), "'/' (the sheet) is a directory");
    assert_unjudged(&answer(&a, "/"), "'/' (the log) is a directory");
    let hidden = directory("hidden").join("log");
    fs::write(&hidden, b"").unwrap();
    fs::set_permissions(&hidden, fs::Permissions::from_mode(0o000)).unwrap();
    // Who may read every file cannot be kept from this one.
    if fs::read(&hidden).is_err() {
        let said = answer(&a, hidden.to_str().unwrap());
        assert_unjudged(&said, "(the log) may not be read");
    }
}

#[test]
fn the_first_line_decides_the_exit_status() {
    let place = directory("statuses");
    for (status, lines) in [
        (0, CLEAN),
        (
            1,
            "violated 2 state - triple 0 entry 1\nviolated 2 state - triple 0 entry 1\n",
        ),
        (2, "refused 3\nrefused 3\n"),
        (2, "refused 13 at 2\nrefused 13 at 2\n"),
        (2, "too long\n"),
        (
            0,
            "clean 1 state 0 open 0\nviolated 1 state 0 triple - entry -\n",
        ),
        (
            1,
            "violated 1 state 0 triple - entry -\nclean 1 state 0 open 0\n",
        ),
        (2, "refused 1\nclean 1 state 0 open 0\n"),
    ] {
        let program = script(&place, "program", &format!("printf '%s' '{lines}'"));
        let arguments = [sample("A.sheet"), sample("A-loader.log")];
        let output = run(watch(&program).args(arguments), b"");
        assert_answer(&output, status, lines);
        assert!(output.stderr.is_empty());
    }
}

#[test]
fn a_program_that_is_none_or_fails() {
    let place = directory("failing");
    let answer = |program: &str| {
        let arguments = [sample("A.sheet"), sample("A-loader.log")];
        run(watch(program).args(arguments), b"")
    };
    assert_unjudged(
        &answer(&script(&place, "mute", "exit 0")),
        "printed something else",
    );
    let output = answer(&script(&place, "other", "echo cleaner"));
    assert_answer(&output, 3, "cleaner\n");
    let failing = script(&place, "failing", "echo clean 0 state 0 open 0; exit 7");
    assert_unjudged(&answer(&failing), "failed, with status 7");
    assert_unjudged(
        &answer("/nowhere/program"),
        "there is no program '/nowhere/program'",
    );
    assert_unjudged(&answer("/"), "there is no program '/'");
    fs::write(place.join("text"), "echo").unwrap();
    let text = place.join("text");
    assert_unjudged(&answer(text.to_str().unwrap()), "there is no program");
}

/// A program that keeps its input in a file of this directory and says clean.
fn keeper(place: &Path) -> String {
    let kept = place.join("kept");
    let text = format!("cat >'{}'; printf '%s' '{CLEAN}'", kept.display());
    script(place, "keeper", &text)
}

#[test]
fn the_program_gets_the_sheet_and_then_the_log() {
    let place = directory("bytes");
    let program = keeper(&place);
    let (a, log) = (sample("A.sheet"), sample("A-loader.log"));
    let (sheet_bytes, log_bytes) = (fs::read(&a).unwrap(), fs::read(&log).unwrap());
    let whole = [&sheet_bytes[..], &log_bytes].concat();
    let cases: [([&str; 2], &[u8]); 3] = [
        ([&a, &log], b"not read"),
        (["-", &log], &sheet_bytes),
        ([&a, "-"], &log_bytes),
    ];
    for (arguments, input) in cases {
        let output = run(watch(&program).args(arguments), input);
        assert_answer(&output, 0, CLEAN);
        assert!(output.stderr.is_empty());
        assert_eq!(fs::read(place.join("kept")).unwrap(), whole);
        fs::remove_file(place.join("kept")).unwrap();
    }
}

#[test]
fn the_length_has_two_bytes() {
    let place = directory("lengths");
    let program = keeper(&place);
    let log = fs::read(sample("A-loader.log")).unwrap();
    let mut sheet = vec![7; 0x0203];
    sheet[..2].copy_from_slice(&[2, 3]);
    let arguments = ["-".into(), sample("A-loader.log")];
    let output = run(watch(&program).args(arguments), &sheet);
    assert_answer(&output, 0, CLEAN);
    assert_eq!(fs::read(place.join("kept")).unwrap(), [sheet, log].concat());
}

#[test]
fn a_sheet_that_is_too_short_goes_alone() {
    let place = directory("short");
    let program = keeper(&place);
    let sheet = fs::read(sample("A.sheet")).unwrap();
    for length in [0, 1, 2, 14, 38] {
        let short = &sheet[..length];
        let arguments = ["-".into(), sample("A-loader.log")];
        let output = run(watch(&program).args(&arguments), short);
        assert_answer(&output, 0, CLEAN);
        assert_eq!(fs::read(place.join("kept")).unwrap(), short);
        let output = run(watch(REFERENCE).args(&arguments), short);
        assert_answer(&output, 2, "refused 1\nrefused 1\n");
        assert_said(&output, &format!("standard input has {length} bytes"));
    }
}

#[test]
fn a_sheet_with_bytes_behind_it_is_refused_1() {
    let place = directory("long");
    let program = keeper(&place);
    let mut sheet = fs::read(sample("A.sheet")).unwrap();
    sheet.extend(fs::read(sample("A-loader.log")).unwrap());
    let name = place.join("sheet");
    for bytes in [
        &sheet[..],
        &sheet[..40],
        &[0, 0],
        &[0, 1, 1],
        &[0xFF; 65_536],
    ] {
        fs::write(&name, bytes).unwrap();
        let arguments = [name.to_str().unwrap().into(), sample("A-loader.log")];
        let output = run(watch(&program).args(arguments), b"");
        assert_answer(&output, 2, "refused 1\nrefused 1\n");
        assert_said(&output, "has bytes behind the sheet");
        assert!(!place.join("kept").exists());
    }
}

#[test]
fn too_long_is_for_the_program_to_say() {
    let log = vec![0; 65_536 - 39];
    let arguments = [sample("A.sheet"), "-".into()];
    let output = run(watch(REFERENCE).args(&arguments), &log);
    assert_answer(&output, 2, "refused 16\nrefused 16\n");
    let output = run(
        watch(REFERENCE).args(&arguments),
        &[&log[..], &[0]].concat(),
    );
    assert_answer(&output, 2, "too long\n");
    let endless = [sample("A.sheet"), "/dev/zero".into()];
    assert_answer(&run(watch(REFERENCE).args(endless), b""), 2, "too long\n");
}

#[test]
fn it_runs_anywhere_and_leaves_nothing_behind() {
    let place = Linked(directory("elsewhere"));
    symlink(
        root().join("watch").canonicalize().unwrap(),
        place.join("link"),
    )
    .unwrap();
    let rooms = place.join("rooms");
    fs::create_dir(&rooms).unwrap();
    script(&place, "program", &format!("printf '%s' '{CLEAN}'"));
    fs::copy(sample("A.sheet"), place.join("a sheet")).unwrap();
    fs::copy(sample("A-empty.log"), place.join("-log")).unwrap();
    let mut command = Command::new("./link");
    let command = command.current_dir(&*place).env("TMPDIR", &rooms);
    let command = command.env("WATCH_PROGRAM", "program");
    assert_answer(&run(command.args(["a sheet", "-log"]), b""), 0, CLEAN);
    assert_eq!(fs::read_dir(&rooms).unwrap().count(), 0);
}

/// A copy of the script with nothing built, and a directory `bin` with what it needs but `rt`.
fn unbuilt(name: &str) -> Linked {
    let place = Linked(directory(name));
    let bin = place.join("bin");
    fs::create_dir(&bin).unwrap();
    fs::create_dir_all(place.join("crates/watch/out")).unwrap();
    // By another process, as in `script`.
    let mut copy = Command::new("cp");
    let copied = copy.arg(root().join("watch")).arg(&*place).status();
    assert!(copied.expect("cp starts").success());
    let path = std::env::var_os("PATH").unwrap();
    for tool in TOOLS {
        let mut found = std::env::split_paths(&path).map(|place| place.join(tool));
        let found = found.find(|path| path.is_file());
        symlink(found.expect(tool), bin.join(tool)).unwrap();
    }
    place
}

fn watch_in(place: &Path, script: &Path) -> Output {
    let mut command = Command::new(script);
    let command = command.env_remove("WATCH_PROGRAM");
    let command = command.env("PATH", place.join("bin"));
    let arguments = [sample("A.sheet"), "-".into()];
    let log = fs::read(sample("A-loader.log")).unwrap();
    run(command.args(arguments), &log)
}

#[test]
fn without_rt_it_says_so() {
    let place = unbuilt("no-rt");
    let output = watch_in(&place, &place.join("watch"));
    assert_unjudged(
        &output,
        "rt (the Rattle kit), which builds it, is not on the PATH",
    );
}

#[test]
fn it_builds_the_program_once() {
    let place = unbuilt("builds");
    let text = format!(
        "echo \"$PWD: $*\" >&2; cat; cp '{REFERENCE}' out/watch && echo built >>count"
    );
    script(&place.join("bin"), "rt", &text);
    let home = place.join("crates/watch");
    let lines = "violated 2 state - triple 0 entry 1\nviolated 2 state - triple 0 entry 1\n";
    let output = watch_in(&place, &place.join("watch"));
    assert_answer(&output, 1, lines);
    let said = String::from_utf8_lossy(&output.stderr);
    assert!(said.contains("rt run proves the program first"));
    let home_name = home.canonicalize().unwrap();
    assert!(said.contains(&format!("{}: run\n", home_name.display())));
    let link = place.join("bin/linked");
    symlink(place.join("watch"), &link).unwrap();
    for script in [place.join("watch"), link] {
        let output = watch_in(&place, &script);
        assert_answer(&output, 1, lines);
        assert!(output.stderr.is_empty());
    }
    assert_eq!(fs::read(home.join("count")).unwrap(), b"built\n");
}

#[test]
fn a_build_that_fails() {
    let place = unbuilt("fails");
    script(&place.join("bin"), "rt", "exit 1");
    let output = watch_in(&place, &place.join("watch"));
    assert_answer(&output, 3, "");
    let said = String::from_utf8_lossy(&output.stderr);
    assert!(said.contains("rt run failed"));
    // One that says that all is well, and leaves no program.
    script(&place.join("bin"), "rt", "exit 0");
    let output = watch_in(&place, &place.join("watch"));
    assert_answer(&output, 3, "");
    let said = String::from_utf8_lossy(&output.stderr);
    assert!(said.contains("there is no program"));
}

/// How many logs the samples have.
fn logs() -> usize {
    let samples = fs::read_dir(root().join("samples")).unwrap();
    let names = samples.map(|file| file.unwrap().path());
    names
        .filter(|path| path.extension().is_some_and(|end| end == "log"))
        .count()
}

#[test]
fn all_samples_can_be_run() {
    let mut command = Command::new(root().join("samples/run"));
    let output = run(command.env("WATCH_PROGRAM", REFERENCE), b"");
    let lines = format!("samples: {} logs, 0 wrong answers\n", logs());
    assert_answer(&output, 0, &lines);
    let readme = fs::read_to_string(root().join("README.md")).unwrap();
    assert!(readme.contains(&lines));
    let readme = fs::read_to_string(sample("README.md")).unwrap();
    assert!(readme.contains(&format!("{} logs", logs())));
}

#[test]
fn wrong_answers_to_samples_are_seen() {
    let place = directory("samples");
    let text = format!("cat >/dev/null; printf '%s' '{CLEAN}'");
    let program = script(&place, "program", &text);
    let mut command = Command::new(root().join("samples/run"));
    let output = run(command.env("WATCH_PROGRAM", &program), b"");
    assert_eq!(output.status.code(), Some(1));
    let said = String::from_utf8_lossy(&output.stderr);
    let (sheet, log) = ("samples/A.sheet", "samples/A-loader.log");
    let expected = "than samples/A-loader.expected has\n";
    for part in [
        format!("./watch {sheet} {log} prints other lines {expected}"),
        format!("./watch {sheet} {log} ends with status 0\n"),
        format!("{program} prints other lines for {sheet} and {log} {expected}"),
    ] {
        assert!(said.contains(&part), "{said} has no {part}");
    }
    assert!(!said.contains("A-empty"));
}
