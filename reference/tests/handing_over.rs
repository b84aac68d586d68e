//! That the test of the built program sees what is wrong, and nothing else: programs that stand in
//! for it, right and wrong ones.

mod handing;
mod places;
mod stand_ins;

use handing::{long, short, Input, Program, Way};
use std::time::{Duration, Instant};

const REFERENCE: &str = env!("CARGO_BIN_EXE_watch-reference");

/// A script; `watch` in its text is the reference's own program.
fn stand_in(name: &str, text: &str) -> Program {
    let place = places::directory(name);
    let text = text.replace("watch", &format!("'{REFERENCE}'"));
    Program {
        path: stand_ins::script(&place, "program", &text).into(),
        place,
        limit: Duration::from_secs(10),
    }
}

fn named(name: &str) -> Input {
    let mut inputs = short().into_iter().chain(long());
    inputs.find(|input| input.name == name).expect(name)
}

fn assert_right(program: &Program, input: &str, way: &Way) {
    assert_eq!(program.compare(&named(input), way), Ok(()));
}

fn assert_wrong(program: &Program, input: &str, way: &Way, part: &str) {
    let wrong = program.compare(&named(input), way).unwrap_err();
    assert!(wrong.contains(part), "{wrong} has no {part}");
}

#[test]
fn what_is_right_is_no_difference() {
    let program = stand_in("right", "exec watch");
    for input in short().iter().chain(&long()) {
        assert_eq!(program.compare(input, &Way::File), Ok(()));
        assert_eq!(program.compare(input, &Way::AtOnce), Ok(()));
        assert_eq!(program.compare(input, &Way::Pieces(4_096, 1)), Ok(()));
    }
    assert_right(&program, "sample", &Way::Pieces(1, 1));
    assert_right(&program, "700", &Way::Pieces(7, 1));
    assert_right(&program, "65,536, broken", &Way::Ends(7, 20));
}

/// A read gives what is there: all of a file, but of a pipe no more than has been written.
#[test]
fn one_read_is_not_enough() {
    let program = stand_in("one-read", "dd bs=65537 count=1 2>/dev/null | watch");
    assert_right(&program, "sample", &Way::File);
    assert_right(&program, "65,536, broken", &Way::File);
    assert_right(&program, "sample", &Way::AtOnce);
    for (input, way) in [
        ("700", Way::Pieces(1, 1)),
        ("2,000", Way::Pieces(7, 1)),
        ("65,536, clean", Way::Pieces(4_096, 10)),
        ("65,536, broken", Way::Ends(1, 300)),
        ("65,535, broken", Way::Ends(7, 300)),
        ("70,000", Way::Ends(7, 300)),
    ] {
        // Once in a while it may begin so late that all has been written.
        let input = named(input);
        let mut tries = (0..3).filter_map(|_| program.compare(&input, &way).err());
        let wrong = tries.next().expect("a difference is seen");
        assert!(wrong.contains("prints \"refused "), "{wrong}");
    }
}

#[test]
fn the_last_byte_is_missed() {
    let program = stand_in("last-byte", "head -c 65535 | watch");
    assert_right(&program, "sample", &Way::File);
    assert_right(&program, "65,535, broken", &Way::File);
    let part = "prints \"refused 16\\n";
    for way in [Way::File, Way::AtOnce, Way::Pieces(4_096, 1)] {
        assert_wrong(&program, "65,536, clean", &way, part);
        assert_wrong(&program, "65,536, broken", &way, part);
    }
}

#[test]
fn a_cut_is_seen() {
    let program = stand_in("cut", "head -c 65536 | watch");
    assert_right(&program, "65,536, broken", &Way::File);
    for (input, part) in [
        ("65,537", "prints \"refused 16\\n"),
        ("65,536 and one more", "prints \"clean 5457 "),
        ("70,000", "prints \"refused 16\\n"),
        ("65,536 and more", "prints \"clean 5457 "),
    ] {
        assert_wrong(&program, input, &Way::File, part);
        assert_wrong(&program, input, &Way::AtOnce, part);
    }
}

#[test]
fn more_than_the_lines_is_seen() {
    for (name, text, part) in [
        ("line", "watch; echo", "prints \"violated 2 "),
        (
            "error",
            "watch; echo x >&2",
            "has \"x\\n\" on standard error",
        ),
        ("status", "watch; exit 3", "ends with exit status: 3"),
        ("signal", "watch; kill -9 $$", "ends with signal: 9"),
        ("mute", "cat >/dev/null", "prints \"\", not"),
    ] {
        let program = stand_in(name, text);
        assert_wrong(&program, "sample", &Way::File, part);
    }
}

#[test]
fn a_program_that_does_not_read_or_end_or_start() {
    let lines = named("700").lines;
    let program = stand_in("deaf", &format!("printf '%s' '{lines}'"));
    let part = "does not take all of its input";
    assert_wrong(&program, "700", &Way::Pieces(1, 1), part);
    let mut program = stand_in("endless", "exec sleep 60");
    program.limit = Duration::from_millis(200);
    let start = Instant::now();
    for way in [Way::File, Way::AtOnce, Way::Pieces(4_096, 1)] {
        assert_wrong(&program, "70,000", &way, "has not ended after 200ms");
    }
    assert!(start.elapsed() < Duration::from_secs(5));
    program.path = "/nowhere/program".into();
    let part = "/nowhere/program does not start: ";
    assert_wrong(&program, "sample", &Way::File, part);
}
