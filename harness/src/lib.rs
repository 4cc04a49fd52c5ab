//! Cases for both readings of QDLDL, the original's and document 01's, and the text in which their answers are kept.
#![allow(non_snake_case)]

use std::io::Write;

pub mod by_plain;
pub mod case;
pub mod faults;
pub mod list;
pub mod random;
pub mod rng;
pub mod text;

#[cfg(all(archive, qdldl))]
pub mod benchmark;
#[cfg(archive)]
pub mod by_face;
#[cfg(archive)]
pub mod by_kernels;
#[cfg(qdldl)]
pub mod by_oracle;
#[cfg(all(archive, qdldl))]
pub mod differential;

/// Says what was left out because the original or the archive is not there.
pub fn skip_either(count: usize, what: &str) {
    if cfg!(archive) {
        skip(count, what);
    } else {
        coinravel::skip(count, what);
    }
}

/// Says what was left out because the original is not there; past the capture of a test's output, so that it is seen.
pub fn skip(count: usize, what: &str) {
    let line = format!("skipped: {count} {what}, since ../shared is not beside the repository\n");
    std::io::stderr().write_all(line.as_bytes()).unwrap();
}
