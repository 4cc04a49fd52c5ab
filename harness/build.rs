//! Passes on whether the oracle crate found the original, and the crates of the archives both of them.
fn main() {
    for (cfg, found) in
        [("qdldl", &["DEP_QDLDL_PRESENT"][..]), ("archive", &["DEP_FACE_PRESENT", "DEP_KERNELS_PRESENT"])]
    {
        println!("cargo::rustc-check-cfg=cfg({cfg})");
        if found.iter().all(|name| std::env::var_os(name).is_some()) {
            println!("cargo::rustc-cfg={cfg}");
        }
    }
}
