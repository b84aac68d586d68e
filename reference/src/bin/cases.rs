//! Writes the input and the expected output of the case programs, or checks the committed ones.
//!
//! `cases [--check] [ROOT]`; ROOT is the repository's root, by default the parent of `reference/`.

use reference::framing::case_files;
use reference::making::programs::made;
use std::path::{Path, PathBuf};
use std::process::ExitCode;

struct Arguments {
    check: bool,
    root: PathBuf,
}

fn main() -> ExitCode {
    match arguments().and_then(|arguments| work(&arguments)) {
        Ok(()) => ExitCode::SUCCESS,
        Err(message) => {
            eprintln!("cases: {message}");
            ExitCode::FAILURE
        }
    }
}

fn arguments() -> Result<Arguments, String> {
    let mut check = false;
    let mut root = None;
    for argument in std::env::args_os().skip(1) {
        let text = argument.to_string_lossy();
        if text == "--check" {
            check = true;
        } else if text.starts_with('-') {
            return Err(format!(
                "unknown argument {text}; use: cases [--check] [ROOT]"
            ));
        } else if root.is_some() {
            return Err(format!("one ROOT only, not also {text}"));
        } else {
            root = Some(PathBuf::from(&argument));
        }
    }
    let root = root.unwrap_or_else(default_root);
    if !root.join("crates").is_dir() {
        return Err(format!("{} has no directory crates", root.display()));
    }
    Ok(Arguments { check, root })
}

fn default_root() -> PathBuf {
    let here = Path::new(env!("CARGO_MANIFEST_DIR"));
    here.parent().unwrap_or(here).to_path_buf()
}

fn work(arguments: &Arguments) -> Result<(), String> {
    if arguments.check {
        case_files::check(&arguments.root, made())
    } else {
        case_files::write(&arguments.root, made())
    }
}
