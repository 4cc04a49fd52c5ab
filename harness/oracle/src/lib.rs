//! qdldl.rs of clarabel 0.11.1 as it stands, what it leans on, and a view of the tables that it keeps private.
#![allow(non_snake_case)]

pub mod algebra;

include!(concat!(env!("OUT_DIR"), "/original.rs"));

#[cfg(qdldl)]
mod private;
#[cfg(qdldl)]
pub use private::Private;
