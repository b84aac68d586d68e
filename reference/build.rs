//! Under the feature `embed`, links the static library that `rt lib` makes in `crates/embed`.

use std::path::Path;

fn main() {
    println!("cargo:rerun-if-changed=build.rs");
    if std::env::var_os("CARGO_FEATURE_EMBED").is_none() {
        return;
    }
    let directory = Path::new(env!("CARGO_MANIFEST_DIR")).join("../crates/embed/out");
    let library = directory.join("libembed.a");
    println!("cargo:rerun-if-changed={}", library.display());
    if !library.is_file() {
        let place = library.display();
        println!("cargo:warning={place} is not there: run `rt lib` in crates/embed first");
        std::process::exit(1);
    }
    println!("cargo:rustc-link-search=native={}", directory.display());
    println!("cargo:rustc-link-lib=static=embed");
}
