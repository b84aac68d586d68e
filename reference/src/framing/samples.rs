//! The samples' files. A dump `X.sheet.txt` or `X.log.txt` is the source of the bytes `X.sheet` or
//! `X.log`. A log is called `SHEET-WHAT.log`, and the program's lines for it stand in
//! `SHEET-WHAT.expected`. README.md has a row for each log, with its name and line.

use crate::framing::dump;
use crate::implementation::program::output;
use std::collections::BTreeSet;
use std::fs;
use std::path::Path;

const README: &str = "README.md";

/// Writes the bytes of every dump and gives their number.
pub fn write(directory: &Path) -> Result<usize, String> {
    let dumps = dumps(directory, &names(directory)?)?;
    for name in &dumps {
        let bytes = dumped(directory, name)?;
        let path = directory.join(name);
        fs::write(&path, bytes).map_err(|error| format!("{}: {error}", path.display()))?;
    }
    Ok(dumps.len())
}

/// Checks the bytes of every dump, and for every log its lines and its row; gives the number of
/// logs. Nothing is written.
pub fn check(directory: &Path) -> Result<usize, String> {
    let names = names(directory)?;
    check_strays(directory, &names)?;
    for name in dumps(directory, &names)? {
        check_bytes(directory, &name)?;
    }
    let readme = read_text(&directory.join(README))?;
    let logs: Vec<&str> = names
        .iter()
        .filter_map(|n| n.strip_suffix(".log"))
        .collect();
    for log in &logs {
        check_log(directory, log, &readme)?;
    }
    Ok(logs.len())
}

/// The names of the directory's files, in order.
fn names(directory: &Path) -> Result<BTreeSet<String>, String> {
    let say = |error: std::io::Error| format!("{}: {error}", directory.display());
    let mut names = BTreeSet::new();
    for entry in fs::read_dir(directory).map_err(say)? {
        let name = entry.map_err(say)?.file_name();
        names.insert(name.to_string_lossy().into_owned());
    }
    Ok(names)
}

/// The files of bytes that have a dump; there must be some.
fn dumps(directory: &Path, names: &BTreeSet<String>) -> Result<Vec<String>, String> {
    let dumped = names.iter().filter_map(|name| name.strip_suffix(".txt"));
    let dumped: Vec<String> = dumped
        .filter(|name| is_bytes(name))
        .map(String::from)
        .collect();
    if dumped.is_empty() {
        let place = directory.display();
        return Err(format!("{place} has no file X.sheet.txt or X.log.txt"));
    }
    Ok(dumped)
}

fn is_bytes(name: &str) -> bool {
    name.ends_with(".sheet") || name.ends_with(".log")
}

/// No file of bytes without a dump, no expected lines without a log.
fn check_strays(directory: &Path, names: &BTreeSet<String>) -> Result<(), String> {
    for name in names {
        let needed = match name.strip_suffix(".expected") {
            Some(log) => format!("{log}.log"),
            None if is_bytes(name) => format!("{name}.txt"),
            None => continue,
        };
        if !names.contains(&needed) {
            let path = directory.join(name);
            return Err(format!("{} stands without {needed}", path.display()));
        }
    }
    Ok(())
}

fn dumped(directory: &Path, name: &str) -> Result<Vec<u8>, String> {
    let path = directory.join(format!("{name}.txt"));
    let text = read_text(&path)?;
    dump::bytes(&text).map_err(|wrong| format!("{}: {wrong}", path.display()))
}

fn check_bytes(directory: &Path, name: &str) -> Result<(), String> {
    let made = dumped(directory, name)?;
    let path = directory.join(name);
    if read(&path)? == made {
        return Ok(());
    }
    Err(format!("{} is not what its dump says", path.display()))
}

fn check_log(directory: &Path, log: &str, readme: &str) -> Result<(), String> {
    let sheet = log.split_once('-').map(|(sheet, _)| sheet);
    let sheet = sheet.ok_or_else(|| format!("{log}.log: its name does not begin SHEET-"))?;
    let mut input = read(&directory.join(format!("{sheet}.sheet")))?;
    input.extend(read(&directory.join(format!("{log}.log")))?);
    let path = directory.join(format!("{log}.expected"));
    let expected = read_text(&path)?;
    let answered = output(&input);
    if expected != answered {
        let lines = answered.replace('\n', "; ");
        return Err(format!("{}: the reference answers {lines}", path.display()));
    }
    check_row(directory, log, &expected, readme)
}

/// README.md has a line with the log's name and the first of its expected lines.
fn check_row(directory: &Path, log: &str, expected: &str, readme: &str) -> Result<(), String> {
    let expected = expected.lines().next().unwrap_or_default();
    let (name, line) = (format!("`{log}`"), format!("`{expected}`"));
    let mut rows = readme.lines();
    if rows.any(|row| row.contains(&name) && row.contains(&line)) {
        return Ok(());
    }
    let path = directory.join(README);
    Err(format!(
        "{} has no row with {name} and {line}",
        path.display()
    ))
}

fn read(path: &Path) -> Result<Vec<u8>, String> {
    fs::read(path).map_err(|error| format!("{}: {error}", path.display()))
}

fn read_text(path: &Path) -> Result<String, String> {
    fs::read_to_string(path).map_err(|error| format!("{}: {error}", path.display()))
}
