//! Links the proved library, which `bash build library` writes at the root of the repository. It is
//! for x86-64; on another machine nothing is linked, and `src/absent.rs` stands in for it.

use std::env;
use std::path::Path;

fn main() {
    let folder = Path::new(env!("CARGO_MANIFEST_DIR")).join("../../target/staticlib");
    let archive = folder.join("libnephinor.a");
    println!("cargo::rerun-if-changed={}", archive.display());
    if env::var("CARGO_CFG_TARGET_ARCH").as_deref() != Ok("x86_64") {
        return;
    }
    if !archive.is_file() {
        eprintln!(
            "nephinor: {} is missing: run `bash build library` at the root first",
            archive.display()
        );
        std::process::exit(1);
    }
    println!("cargo::rustc-link-search=native={}", folder.display());
    println!("cargo::rustc-link-lib=static=nephinor");
}
