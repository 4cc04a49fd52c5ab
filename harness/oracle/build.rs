//! Finds the original beside the repository; without it the crate still builds, and its cfg says so.
use std::{env, fs, path::Path};

fn main() {
    let here = env::var("CARGO_MANIFEST_DIR").unwrap();
    let original = Path::new(&here).join("../../../shared/docs/src/src/qdldl/qdldl.rs");
    println!("cargo::rustc-check-cfg=cfg(qdldl)");
    println!("cargo::rerun-if-changed={}", original.display());

    let mut module = String::new();
    if let Ok(path) = original.canonicalize() {
        println!("cargo::rustc-cfg=qdldl");
        println!("cargo::metadata=present=yes");
        // It keeps functions that nothing calls.
        module = format!("#[allow(dead_code)]\n#[path = {path:?}]\npub mod qdldl;\n");
    }
    fs::write(Path::new(&env::var("OUT_DIR").unwrap()).join("original.rs"), module).unwrap();
}
