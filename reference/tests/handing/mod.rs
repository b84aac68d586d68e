//! Inputs for the program, ways to hand them over on standard input, and what a program does with
//! them beside what the reference says.

use reference::implementation::expr::Action;
use reference::implementation::program::{output, MOST_INPUT};
use reference::implementation::run::{write_log, Record};
use reference::implementation::sheet::Sheet;
use reference::making::cases::program_cases::record;
use reference::making::cases::sheet_cases::{LOG_A, SHEET_A};
use std::fs::{self, File};
use std::io::{self, ErrorKind, Write};
use std::path::PathBuf;
use std::process::{Child, ChildStdin, Command, Output, Stdio};
use std::thread;
use std::time::{Duration, Instant};

// ---- Inputs -----------------------------------------------------------------------------------

pub struct Input {
    pub name: &'static str,
    pub bytes: Vec<u8>,
    /// What is to be printed for it, written by hand.
    pub lines: String,
}

/// The sheet's run and the network's give the same line.
fn judged(name: &'static str, bytes: Vec<u8>, line: &str) -> Input {
    let lines = format!("{line}\n{line}\n");
    Input { name, bytes, lines }
}

fn too_long(name: &'static str, bytes: Vec<u8>) -> Input {
    let lines = "too long\n".into();
    Input { name, bytes, lines }
}

/// What the calls on sheet A declare and so have to load, and a load that breaks the triple.
const LOADED: i32 = 8;
const MISSED: i32 = 7;

/// Short enough to go in pieces of one byte.
pub fn short() -> Vec<Input> {
    let sample = [&SHEET_A[..], &LOG_A].concat();
    vec![
        judged("none", Vec::new(), "refused 1"),
        judged("one byte", vec![0], "refused 1"),
        judged("sheet alone", SHEET_A.to_vec(), "refused 16"),
        judged("sample", sample, "violated 2 state - triple 0 entry 1"),
        judged(
            "700",
            filled(700, MISSED),
            "violated 54 state - triple 0 entry 53",
        ),
        judged("2,000", filled(2_000, LOADED), "clean 162 state 0 open 0"),
    ]
}

/// One byte less than is taken, as many, and too many. Where there are not too many, the last byte
/// decides. What is too long is right but for that, or right up to what is taken: a program without
/// the limit, and one that cuts there, give other lines.
pub fn long() -> Vec<Input> {
    let (clean, broken) = (
        "clean 5457 state 0 open 1",
        "violated 5457 state - triple 0 entry 5456",
    );
    // Bytes behind the log's end.
    let followed = |length: usize| {
        let mut bytes = filled(MOST_INPUT, LOADED);
        bytes.resize(length, 0);
        bytes
    };
    vec![
        judged("65,535, clean", filled(65_535, LOADED), clean),
        judged("65,535, broken", filled(65_535, MISSED), broken),
        judged("65,536, clean", filled(65_536, LOADED), clean),
        judged("65,536, broken", filled(65_536, MISSED), broken),
        too_long("65,537", filled(65_537, LOADED)),
        too_long("65,536 and one more", followed(65_537)),
        too_long("70,000", filled(70_000, MISSED)),
        too_long("65,536 and more", followed(70_000)),
    ]
}

/// Sheet A, with actions that nothing uses, and a log whose last exit loads so much: together so
/// many bytes.
fn filled(length: usize, loaded: i32) -> Vec<u8> {
    let front = SHEET_A.len() + write_log(2, &[]).len();
    let size = write_log(2, &[record(0, 0, 0, 0)]).len() - write_log(2, &[]).len();
    let mut sheet = Sheet::read(&SHEET_A).expect("it is accepted");
    // Each is one byte, its length 0.
    let unused = vec![Action::default(); (length - front) % size];
    sheet.machine.actions.extend(unused);
    let records = calls((length - front) / size, loaded);
    let bytes = [sheet.bytes(), write_log(2, &records)].concat();
    assert_eq!(bytes.len(), length);
    bytes
}

/// Calls one after the other, the last of which loads so much. For an odd number of records, the
/// first call stays open.
fn calls(records: usize, loaded: i32) -> Vec<Record> {
    let call = |number: usize| {
        let last = number == records / 2;
        let loaded = if last { loaded } else { LOADED };
        let number = number as u16;
        [
            record(0, number, LOADED, 0),
            record(1, number, LOADED, loaded),
        ]
    };
    let open = vec![record(0, 0, LOADED, 0); records % 2];
    open.into_iter()
        .chain((1..=records / 2).flat_map(call))
        .collect()
}

// ---- Ways -------------------------------------------------------------------------------------

#[derive(Debug)]
pub enum Way {
    File,
    /// Through a pipe, in one go.
    AtOnce,
    /// Through a pipe, in pieces of so many bytes, with a pause of so many milliseconds after each
    /// and a longer one before the first.
    Pieces(usize, u64),
    /// Pieces of so many bytes, so many of them at each end, and what is between them in one.
    Ends(usize, usize),
}

/// How many pauses there are before the first piece.
const FIRST: u32 = 20;

impl Way {
    /// What is written to the pipe, piece by piece, and the pause after each.
    fn cut(&self, bytes: &[u8]) -> (Vec<Vec<u8>>, Duration) {
        let (size, ends, pause) = match *self {
            Way::File | Way::AtOnce => (1, 0, 0),
            Way::Pieces(size, pause) => (size, bytes.len(), pause),
            Way::Ends(size, count) => (size, size * count, 1),
        };
        let (head, rest) = bytes.split_at(ends.min(bytes.len()));
        let (middle, tail) = rest.split_at(rest.len() - ends.min(rest.len()));
        let whole = middle.chunks(middle.len().max(1));
        let pieces = head.chunks(size).chain(whole).chain(tail.chunks(size));
        let pieces = pieces.map(<[u8]>::to_vec).collect();
        (pieces, Duration::from_millis(pause))
    }
}

fn hand_over(mut pipe: ChildStdin, pieces: &[Vec<u8>], pause: Duration) -> io::Result<()> {
    thread::sleep(pause * FIRST);
    for piece in pieces {
        pipe.write_all(piece)?;
        pipe.flush()?;
        thread::sleep(pause);
    }
    Ok(())
}

// ---- Programs ---------------------------------------------------------------------------------

pub struct Program {
    pub path: PathBuf,
    /// For what is handed over as a file.
    pub place: PathBuf,
    /// How long it may take.
    pub limit: Duration,
}

impl Program {
    /// Hands the input over and says what the program does otherwise than the reference. It is to
    /// print what the reference does, to say nothing on standard error, and to end with status 0,
    /// having read the input to its end or to where it is too long.
    pub fn compare(&self, input: &Input, way: &Way) -> Result<(), String> {
        let expected = output(&input.bytes);
        assert_eq!(expected, input.lines, "the reference, {}", input.name);
        let run = self.run(input, way);
        let wrong = run.and_then(|(said, written)| {
            judge_output(&said, &expected)?;
            judge_reading(written, input.bytes.len())
        });
        let program = self.path.display();
        wrong.map_err(|wrong| format!("{program} {wrong} ({}, {way:?})", input.name))
    }

    fn run(&self, input: &Input, way: &Way) -> Result<(Output, io::Result<()>), String> {
        let mut command = Command::new(&self.path);
        let command = command.stdin(self.standard_input(input, way));
        let started = command.stdout(Stdio::piped()).stderr(Stdio::piped());
        let mut child = started.spawn().map_err(|error| {
            format!("does not start: {error}; `rt run` in crates/watch builds crates/watch/out/watch")
        })?;
        // None where the input is a file.
        let pipe = child.stdin.take();
        let (pieces, pause) = way.cut(&input.bytes);
        // A program that hangs may never take its input, so the writer stands apart and is waited
        // for only after the program has ended.
        let writer = pipe.map(|pipe| thread::spawn(move || hand_over(pipe, &pieces, pause)));
        let said = end(child, self.limit)?;
        let written = writer.map_or(Ok(()), |writer| writer.join().expect("it does not panic"));
        Ok((said, written))
    }

    fn standard_input(&self, input: &Input, way: &Way) -> Stdio {
        let Way::File = way else {
            return Stdio::piped();
        };
        let path = self.place.join("input");
        fs::write(&path, &input.bytes).expect("the file is written");
        File::open(&path).expect("the file is there").into()
    }
}

/// Waits for the program, and kills it when its time is over. It prints less than a pipe holds, so
/// that it need not be read before.
fn end(mut child: Child, limit: Duration) -> Result<Output, String> {
    let start = Instant::now();
    while child.try_wait().expect("it is a child").is_none() {
        if start.elapsed() > limit {
            let _ = child.kill();
            let _ = child.wait();
            return Err(format!("has not ended after {limit:?} and was killed"));
        }
        thread::sleep(Duration::from_millis(1));
    }
    Ok(child.wait_with_output().expect("its output is read"))
}

fn judge_output(said: &Output, expected: &str) -> Result<(), String> {
    let printed = String::from_utf8_lossy(&said.stdout);
    if said.stdout != expected.as_bytes() {
        return Err(format!("prints {printed:?}, not {expected:?}"));
    }
    if !said.stderr.is_empty() {
        let error = String::from_utf8_lossy(&said.stderr);
        return Err(format!("has {error:?} on standard error"));
    }
    if said.status.code() != Some(0) {
        return Err(format!("ends with {}", said.status));
    }
    Ok(())
}

/// Of an input that is too long the rest need not be read.
fn judge_reading(written: io::Result<()>, length: usize) -> Result<(), String> {
    match written {
        Err(error) if error.kind() != ErrorKind::BrokenPipe || length <= MOST_INPUT => {
            Err(format!("does not take all of its input: {error}"))
        }
        _ => Ok(()),
    }
}
