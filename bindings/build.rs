//! Links the archive that `tools/staticlib` writes.

use std::env;
use std::path::Path;

fn main() {
    let here = env::var("CARGO_MANIFEST_DIR").expect("cargo names the package's folder");
    let archive = Path::new(&here).join("../target/staticlib");
    println!("cargo:rustc-link-search=native={}", archive.display());
    println!("cargo:rustc-link-lib=static=host");
    println!("cargo:rerun-if-changed={}/libhost.a", archive.display());
}
