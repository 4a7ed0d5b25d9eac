//! Links the proved static library, built beforehand.

use std::env;
use std::path::Path;

fn main() {
    let crate_dir = env::var("CARGO_MANIFEST_DIR").unwrap_or_default();
    let folder = Path::new(&crate_dir).join("../../target/staticlib");
    let archive = folder.join("libeventlog.a");
    println!("cargo::rerun-if-changed=build.rs");
    println!("cargo::rerun-if-changed={}", archive.display());

    let arch = env::var("CARGO_CFG_TARGET_ARCH").unwrap_or_default();
    let os = env::var("CARGO_CFG_TARGET_OS").unwrap_or_default();
    if (arch.as_str(), os.as_str()) != ("x86_64", "linux") {
        println!("cargo::error=libeventlog.a is for x86-64 Linux, not for {arch} {os}");
    } else if !archive.is_file() {
        let missing = archive.display();
        println!("cargo::error={missing} is missing: run `bash library.sh` first");
    } else {
        println!("cargo::rustc-link-search=native={}", folder.display());
        println!("cargo::rustc-link-lib=static=eventlog");
    }
}
