//! The committed files of the case programs, and what is counted in them.

use std::collections::BTreeMap;
use std::fs;

/// How often each thing occurs, by its label.
pub type Counts = BTreeMap<String, usize>;

pub fn committed(program: &str, file: &str) -> Vec<u8> {
    let top = concat!(env!("CARGO_MANIFEST_DIR"), "/../crates");
    fs::read(format!("{top}/{program}/{file}")).expect("the file is there")
}

/// The lines of a program's output.
pub fn lines(program: &str) -> Vec<String> {
    let text = String::from_utf8(committed(program, "stdout")).expect("it is text");
    text.lines().map(String::from).collect()
}

pub fn assert_shown(counts: &Counts, wanted: &[(&str, usize)]) {
    for (label, least) in wanted {
        let found = counts.get(*label).copied().unwrap_or(0);
        println!("{found:>6}  {label}");
        assert!(found >= *least, "{label}: {found}");
    }
}

pub fn add(counts: &mut Counts, label: String) {
    *counts.entry(label).or_insert(0) += 1;
}
