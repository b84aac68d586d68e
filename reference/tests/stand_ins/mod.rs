//! Programs that stand in for the proved one.

use std::path::Path;
use std::process::Command;

/// Writes a shell script that can be run and gives its path.
pub fn script(place: &Path, name: &str, text: &str) -> String {
    let path = place.join(name);
    // By another process: this one may start a child while it has the file open for writing, and
    // the child would keep it from being run.
    let made = Command::new("sh")
        .args([
            "-c",
            "printf '#!/bin/sh\\n%s\\n' \"$2\" >\"$1\" && chmod +x \"$1\"",
            "sh",
        ])
        .args([path.to_str().unwrap(), text])
        .status();
    assert!(made.expect("sh starts").success());
    path.to_str().unwrap().into()
}
