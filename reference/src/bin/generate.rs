//! Makes cases from a fixed seed and prints how often each thing occurred in them.
//!
//! `generate [COUNT] [--write DIRECTORY]`; with `--write` the inputs of the program and its
//! expected outputs are also written, as NUMBER.in and NUMBER.out.

use reference::counting::tally::{tally, SEED, USUAL};
use reference::implementation::program::output;
use reference::making::generate::run_case;
use reference::making::random::Random;
use std::ffi::OsString;
use std::fs;
use std::io::Write;
use std::path::{Path, PathBuf};
use std::process::ExitCode;

struct Arguments {
    count: usize,
    directory: Option<PathBuf>,
}

fn main() -> ExitCode {
    match arguments(std::env::args_os().skip(1)).and_then(|arguments| work(&arguments)) {
        Ok(()) => ExitCode::SUCCESS,
        Err(message) => {
            eprintln!("generate: {message}");
            ExitCode::FAILURE
        }
    }
}

fn arguments(mut given: impl Iterator<Item = OsString>) -> Result<Arguments, String> {
    let (mut count, mut directory) = (None, None);
    while let Some(argument) = given.next() {
        let text = argument.to_string_lossy();
        if text == "--write" && directory.is_none() {
            let next = given.next().ok_or("--write needs a directory")?;
            directory = Some(PathBuf::from(next));
        } else if count.is_none() {
            let number: usize = text.parse().map_err(|_| wrong_argument(&text))?;
            count = Some(number);
        } else {
            return Err(wrong_argument(&text));
        }
    }
    Ok(Arguments {
        count: count.unwrap_or(USUAL),
        directory,
    })
}

fn wrong_argument(text: &str) -> String {
    format!("wrong argument {text}; use: generate [COUNT] [--write DIRECTORY]")
}

fn work(arguments: &Arguments) -> Result<(), String> {
    if let Some(directory) = &arguments.directory {
        write_cases(directory, arguments.count)?;
    }
    let tally = tally(SEED, arguments.count)?;
    let text = tally.lines().join("\n") + "\n";
    let printed = std::io::stdout().write_all(text.as_bytes());
    printed.map_err(|error| format!("standard output: {error}"))?;
    let missing = tally.missing();
    if missing.is_empty() {
        return Ok(());
    }
    Err(format!("these did not occur: {}", missing.join("; ")))
}

fn write_cases(directory: &Path, count: usize) -> Result<(), String> {
    let mut random = Random::new(SEED);
    for number in 0..count {
        let input = run_case(&mut random).input();
        let expected = output(&input).into_bytes();
        write(&directory.join(format!("{number:06}.in")), &input)?;
        write(&directory.join(format!("{number:06}.out")), &expected)?;
    }
    Ok(())
}

fn write(path: &Path, bytes: &[u8]) -> Result<(), String> {
    fs::write(path, bytes).map_err(|error| format!("{}: {error}", path.display()))
}
