//! Links the engine's static library, which `host/library` proves and writes.

use std::env;
use std::path::PathBuf;

fn main() {
    // Cargo runs a build script with this variable set; without it the path is relative.
    let crate_root = PathBuf::from(env::var_os("CARGO_MANIFEST_DIR").unwrap_or_default());
    let directory = crate_root.join("..").join("..").join("target").join("staticlib");
    let library = directory.join("libtquery.a");
    println!("cargo::rerun-if-changed={}", library.display());
    // `canonicalize` fails exactly where the directory or the library cannot be read.
    match (directory.canonicalize(), library.canonicalize()) {
        (Ok(directory), Ok(_)) => {
            println!("cargo::rustc-link-search=native={}", directory.display());
            println!("cargo::rustc-link-lib=static=tquery");
        }
        _ => println!(
            "cargo::error=the engine's library is not at {}: run `host/library` at the top of the repository to make it",
            library.display()
        ),
    }
}
