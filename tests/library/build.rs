//! Links target/staticlib/libconsole.a, which tests/library/build writes.

use std::path::Path;

fn main() {
    let tests = Path::new(env!("CARGO_MANIFEST_DIR")).parent().unwrap();
    let folder = tests.parent().unwrap().join("target/staticlib");
    println!("cargo:rerun-if-changed={}", folder.join("libconsole.a").display());
    println!("cargo:rustc-link-search=native={}", folder.display());
    println!("cargo:rustc-link-lib=static=console");
}
