//! Links the proved archive that a crate names by `links`; without it, or for another machine than x86-64, the crate still
//! builds, and its cfg says so.
use std::{env, path::Path};

fn main() {
    let here = env::var("CARGO_MANIFEST_DIR").unwrap();
    let name = env::var("CARGO_MANIFEST_LINKS").unwrap();
    let folder = Path::new(&here).join("../../target/staticlib");
    let archive = folder.join(format!("lib{name}.a"));
    println!("cargo::rustc-check-cfg=cfg(archive)");
    println!("cargo::rerun-if-changed={}", archive.display());
    if archive.exists() && env::var("CARGO_CFG_TARGET_ARCH").unwrap() == "x86_64" {
        println!("cargo::rustc-cfg=archive");
        println!("cargo::metadata=present=yes");
        println!("cargo::rustc-link-search=native={}", folder.display());
        println!("cargo::rustc-link-lib=static={name}");
    }
}
