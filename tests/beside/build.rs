//! Links the proved library, which `tools/build library` builds.

use std::path::Path;

fn main() {
    let here = std::env::var("CARGO_MANIFEST_DIR").expect("cargo says where it is");
    let library = Path::new(&here).join("../../target/staticlib");
    println!("cargo:rustc-link-search=native={}", library.display());
    println!("cargo:rustc-link-lib=static=bridge");
    println!("cargo:rerun-if-changed={}", library.join("libbridge.a").display());
}
