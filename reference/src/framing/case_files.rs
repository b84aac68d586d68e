//! The files of the case programs, below `crates/` of a repository: written, or checked.

use std::fs;
use std::path::Path;

/// What a case program reads, and what it must print.
#[derive(Clone, Default)]
pub struct Files {
    pub stdin: Vec<u8>,
    pub stdout: Vec<u8>,
}

/// The files of each program, by its name. The error is about the first that cannot be written.
pub fn write<'a>(
    root: &Path,
    programs: impl IntoIterator<Item = (&'a str, Files)>,
) -> Result<(), String> {
    each_file(root, programs, write_file)
}

/// Writes nothing. The error is about the first that differs or is missing.
pub fn check<'a>(
    root: &Path,
    programs: impl IntoIterator<Item = (&'a str, Files)>,
) -> Result<(), String> {
    each_file(root, programs, check_file)
}

fn each_file<'a>(
    root: &Path,
    programs: impl IntoIterator<Item = (&'a str, Files)>,
    work: fn(&Path, &[u8]) -> Result<(), String>,
) -> Result<(), String> {
    for (name, files) in programs {
        let directory = root.join("crates").join(name);
        work(&directory.join("stdin"), &files.stdin)?;
        work(&directory.join("stdout"), &files.stdout)?;
    }
    Ok(())
}

fn check_file(path: &Path, bytes: &[u8]) -> Result<(), String> {
    let committed = fs::read(path).map_err(|error| format!("{}: {error}", path.display()))?;
    if committed == bytes {
        return Ok(());
    }
    let same = committed
        .iter()
        .zip(bytes)
        .take_while(|(a, b)| a == b)
        .count();
    Err(format!(
        "{} differs from what the reference makes, first at byte {same}",
        path.display()
    ))
}

fn write_file(path: &Path, bytes: &[u8]) -> Result<(), String> {
    let say = |error: std::io::Error| format!("{}: {error}", path.display());
    if let Some(directory) = path.parent() {
        fs::create_dir_all(directory).map_err(say)?;
    }
    fs::write(path, bytes).map_err(say)
}
