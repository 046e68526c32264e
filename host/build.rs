//! Links the archive of the three operations, which the Rattle toolchain makes and cargo cannot.

use std::path::Path;

fn main() {
    let staticlib = Path::new(env!("CARGO_MANIFEST_DIR")).join("../target/staticlib");
    let archive = staticlib.join("libpanel.a");
    println!("cargo::rerun-if-changed={}", archive.display());
    if !archive.is_file() {
        println!(
            "cargo::error=target/staticlib/libpanel.a is missing: run `tools/archive` in the repository's root, then this again"
        );
        return;
    }
    println!("cargo::rustc-link-search=native={}", staticlib.display());
    println!("cargo::rustc-link-lib=static=panel");
}
