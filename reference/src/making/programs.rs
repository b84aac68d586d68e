//! The case programs, and what their input and expected output hold. To add one, add a line to
//! `PROGRAMS` and describe its frames in CASES.md.

use crate::framing::bench_frames;
use crate::framing::case_files::Files;
use crate::framing::pages;
use crate::framing::script_frames::Own;
use crate::framing::translation_frames::Frame;
use crate::making::cases::bench_cases;
use crate::making::cases::condition_cases;
use crate::making::cases::program_cases;
use crate::making::cases::sheet_cases;
use crate::making::cases::translation_cases;
use crate::making::scripts::monitor_cases;
use crate::making::scripts::network_cases;
use crate::making::scripts::script::Page;

pub struct Program {
    /// The directory under `crates/`.
    pub name: &'static str,
    pub make: fn() -> Files,
}

pub const PROGRAMS: &[Program] = &[
    Program {
        name: "condition_cases",
        make: || {
            let parts = condition_cases::parts();
            let frames = parts
                .each_ref()
                .map(|part| part.iter().map(|row| &row.frame));
            paged(frames.map(|part| gather(part, |f, out| f.write(out), |f| Some(f.answer()))))
        },
    },
    Program {
        name: "bench_cases",
        make: || {
            let frames = bench_cases::all();
            let lines = |f: &&bench_frames::Frame| Some(f.lines().join("\n"));
            gather(frames.iter(), |f, out| f.write(out), lines)
        },
    },
    Program {
        name: "sheet_cases",
        make: || {
            let rows = sheet_cases::all();
            let frames = rows.iter().map(|row| &row.frame);
            gather(frames, |f, out| f.write(out), |f| Some(f.answer()))
        },
    },
    Program {
        name: "monitor_cases",
        make: || script(&monitor_cases::all()),
    },
    Program {
        name: "network_cases",
        make: || script(&network_cases::all()),
    },
    Program {
        name: "translation_cases",
        make: || {
            let frames = translation_cases::all();
            let lines = |f: &&Frame| Some(f.lines().join("\n"));
            gather(frames.iter(), |f, out| f.write(out), lines)
        },
    },
    Program {
        name: "cases",
        make: || {
            let frames = program_cases::all();
            gather(frames.iter(), |f, out| f.write(out), |f| Some(f.lines()))
        },
    },
];

/// The name and the files of each program, which are made when they are asked for.
pub fn made() -> impl Iterator<Item = (&'static str, Files)> {
    PROGRAMS
        .iter()
        .map(|program| (program.name, (program.make)()))
}

/// The files of a program of the table.
pub fn files(name: &str) -> Option<Files> {
    let program = PROGRAMS.iter().find(|program| program.name == name)?;
    Some((program.make)())
}

/// Writes frames one after the other in pages, and the lines of those that have one.
fn gather<F>(
    frames: impl Iterator<Item = F>,
    write: fn(&F, &mut Vec<u8>),
    line: fn(&F) -> Option<String>,
) -> Files {
    let mut files = Files::default();
    for frame in frames {
        let mut bytes = Vec::new();
        write(&frame, &mut bytes);
        pages::append(&bytes, &mut files.stdin);
        if let Some(line) = line(&frame) {
            files.stdout.extend(line.into_bytes());
            files.stdout.push(b'\n');
        }
    }
    files
}

/// The pages of a script, each filled but for the last.
fn script<O: Own>(all: &[Page<O>]) -> Files {
    let rows = all.iter().map(|page| page.iter());
    paged(rows.map(|page| gather(page, |r, out| r.frame.write(out), |r| r.line.clone())))
}

/// One after the other, each on a page of its own.
fn paged(parts: impl IntoIterator<Item = Files>) -> Files {
    let mut files = Files::default();
    for part in parts {
        pages::fill(&mut files.stdin);
        files.stdin.extend(part.stdin);
        files.stdout.extend(part.stdout);
    }
    files
}
