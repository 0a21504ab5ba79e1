//! Links the engine's static library, which `host/library` writes.

fn main() {
    let here = std::env::var("CARGO_MANIFEST_DIR").expect("cargo says where the crate is");
    let library = format!("{here}/../../target/staticlib");
    println!("cargo:rustc-link-search=native={library}");
    println!("cargo:rustc-link-lib=static=tquery");
    println!("cargo:rerun-if-changed={library}/libtquery.a");
}
