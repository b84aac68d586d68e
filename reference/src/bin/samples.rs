//! Writes the bytes of the samples' dumps, or checks the committed ones and their expected lines.
//!
//! `samples [--check] [DIRECTORY]`; DIRECTORY is by default `samples/` beside `reference/`.

use reference::framing::samples::{check, write};
use std::path::{Path, PathBuf};
use std::process::ExitCode;

struct Arguments {
    check: bool,
    directory: PathBuf,
}

fn main() -> ExitCode {
    match arguments().and_then(|arguments| work(&arguments)) {
        Ok(()) => ExitCode::SUCCESS,
        Err(message) => {
            eprintln!("samples: {message}");
            ExitCode::FAILURE
        }
    }
}

fn arguments() -> Result<Arguments, String> {
    let mut check = false;
    let mut directory = None;
    for argument in std::env::args_os().skip(1) {
        let text = argument.to_string_lossy();
        if text == "--check" {
            check = true;
        } else if text.starts_with('-') {
            return Err(format!(
                "unknown argument {text}; use: samples [--check] [DIRECTORY]"
            ));
        } else if directory.is_some() {
            return Err(format!("one DIRECTORY only, not also {text}"));
        } else {
            directory = Some(PathBuf::from(&argument));
        }
    }
    let directory = directory.unwrap_or_else(default_directory);
    Ok(Arguments { check, directory })
}

fn default_directory() -> PathBuf {
    let here = Path::new(env!("CARGO_MANIFEST_DIR"));
    here.parent().unwrap_or(here).join("samples")
}

fn work(arguments: &Arguments) -> Result<(), String> {
    let directory = &arguments.directory;
    if arguments.check {
        println!("logs checked: {}", check(directory)?);
    } else {
        println!("files written: {}", write(directory)?);
    }
    Ok(())
}
