//! Document 01 in plain, slow Rust, written from its sentences (quoted above each function) and not from qdldl.rs.
//!
//! `calls` has the calls with status and lent tables; the other modules are what they are made of, over slices.
#![allow(non_snake_case)]
#![allow(clippy::assign_op_pattern, clippy::needless_range_loop)] // 01's formulas stand as it writes them

pub mod calls;
pub mod desk;
pub mod edit;
pub mod factor;
pub mod order;
pub mod refusal;
pub mod solve;
pub mod strike;

pub use calls::*;
pub use desk::*;
pub use factor::Pivot;
