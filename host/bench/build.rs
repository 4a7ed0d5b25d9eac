//! Links the two searches, built beforehand.

use std::env;
use std::path::Path;

fn main() {
    let crate_dir = env::var("CARGO_MANIFEST_DIR").unwrap_or_default();
    let folder = Path::new(&crate_dir).join("../../crates/searches_c/out");
    let archive = folder.join("libsearches_c.a");
    println!("cargo::rerun-if-changed=build.rs");
    println!("cargo::rerun-if-changed={}", archive.display());
    if !archive.is_file() {
        let missing = archive.display();
        println!("cargo::error={missing} is missing: run `rt lib` in crates/searches_c first");
    } else {
        println!("cargo::rustc-link-search=native={}", folder.display());
        println!("cargo::rustc-link-lib=static=searches_c");
    }
}
