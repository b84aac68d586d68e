//! Where tests write files.

use std::fs;
use std::path::{Path, PathBuf};

/// An empty directory of this test's own.
pub fn directory(name: &str) -> PathBuf {
    let tests = Path::new(env!("CARGO_TARGET_TMPDIR")).join(env!("CARGO_CRATE_NAME"));
    let path = tests.join(name);
    let _ = fs::remove_dir_all(&path);
    fs::create_dir_all(&path).expect("a directory for the test");
    path
}
