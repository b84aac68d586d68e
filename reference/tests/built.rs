//! The built program itself, as a child process, beside the reference: inputs at the edges of what
//! it takes, handed over as a file, through a pipe, and in pieces with pauses. Only under the
//! feature `built`. WATCH_PROGRAM names another program; that it is missing is a failure.

mod handing;
mod places;

use handing::{long, short, Input, Program, Way};
use std::env;
use std::path::Path;
use std::time::Duration;

fn program(place: &str) -> Program {
    let named = env::var_os("WATCH_PROGRAM").filter(|name| !name.is_empty());
    let named = named.unwrap_or("../crates/watch/out/watch".into());
    Program {
        path: Path::new(env!("CARGO_MANIFEST_DIR")).join(named),
        place: places::directory(place),
        limit: Duration::from_secs(10),
    }
}

/// Ends with the first difference: a program that hangs takes all of its time at each.
fn assert_right(program: &Program, inputs: &[Input], ways: &[Way]) {
    for input in inputs {
        let answers = ways.iter().map(|way| program.compare(input, way));
        let all: Result<(), String> = answers.collect();
        all.unwrap_or_else(|wrong| panic!("{wrong}"));
    }
}

#[test]
fn short_inputs() {
    let program = program("short");
    let pieces = [1, 7, 4_096].map(|size| Way::Pieces(size, 1));
    assert_right(&program, &short(), &pieces);
    assert_right(&program, &short(), &[Way::File, Way::AtOnce]);
}

#[test]
fn long_inputs() {
    let program = program("long");
    let ways = [Way::File, Way::AtOnce, Way::Pieces(4_096, 3)];
    assert_right(&program, &long(), &ways);
}

#[test]
fn long_inputs_with_small_pieces_at_both_ends() {
    let program = program("ends");
    let ways = [Way::Ends(1, 100), Way::Ends(7, 100)];
    assert_right(&program, &long(), &ways);
}
