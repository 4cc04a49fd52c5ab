//! The proved analysis, safely: include/coinravel.h over slices, with the names of the original.
//!
//! The archive is target/staticlib/libface.a, which `harness/archives` writes for x86-64; where it is absent, and on another
//! machine, the crate has its types and no call.
#![allow(non_snake_case)]

#[cfg(archive)]
mod face;

use std::io::Write;

/// The words of a status.
pub const STATUS_WORDS: usize = 6;

#[derive(Clone, Copy, Debug, PartialEq, Eq)]
pub enum Phase {
    Empty,
    Analysed,
    Logical,
    Numeric,
    Failed,
}

impl Phase {
    const ALL: [Phase; 5] = [Phase::Empty, Phase::Analysed, Phase::Logical, Phase::Numeric, Phase::Failed];
}

/// The order, the entries, the length of L, the pivots above zero and the shifts.
#[derive(Clone, Copy, Debug, PartialEq, Eq)]
pub struct Status {
    pub phase: Phase,
    pub n: u64,
    pub m: u64,
    pub nnzL: u64,
    pub inertia: u64,
    pub shifts: u64,
}

impl Status {
    pub const EMPTY: Status = Status { phase: Phase::Empty, n: 0, m: 0, nnzL: 0, inertia: 0, shifts: 0 };

    #[must_use]
    pub fn words(self) -> [u64; STATUS_WORDS] {
        [self.phase as u64, self.n, self.m, self.nnzL, self.inertia, self.shifts]
    }

    /// Any other phase than the five is read as Empty.
    #[must_use]
    pub fn of(words: [u64; STATUS_WORDS]) -> Status {
        let [phase, n, m, nnzL, inertia, shifts] = words;
        let phase = usize::try_from(phase).ok().and_then(|i| Phase::ALL.get(i)).copied().unwrap_or(Phase::Empty);
        Status { phase, n, m, nnzL, inertia, shifts }
    }
}

/// The upper triangle by columns.
#[derive(Clone, Copy, Debug)]
pub struct Matrix<'a> {
    pub rows: usize,
    pub columns: usize,
    pub colptr: &'a [u32],
    pub rowval: &'a [u32],
    pub nzval: &'a [f64],
}

/// What the analysis writes: the reordered triangle, the map of its entries, parents, counts, and the signs in the new order.
#[derive(Debug)]
pub struct Tables<'a> {
    pub Ap: &'a mut [u32],
    pub Ai: &'a mut [u32],
    pub Ax: &'a mut [f64],
    pub AtoPAPt: &'a mut [u32],
    pub etree: &'a mut [u32],
    pub Lnz: &'a mut [u32],
    pub Dsigns: &'a mut [i8],
}

/// A refusal: its number, and its value, 0 where it has none.
#[derive(Clone, Copy, Debug, PartialEq, Eq)]
pub struct Refusal {
    pub number: u32,
    pub value: u64,
}

#[cfg(archive)]
impl Status {
    /// The analysis, from any status; each part of the scratch has n words or more.
    #[must_use = "the next status or the refusal"]
    pub fn analyse(
        self,
        A: Matrix,
        perm: &[u32],
        Dsigns: &[i8],
        out: Tables,
        scratch: [&mut [u32]; 3],
    ) -> Result<Status, Refusal> {
        let (mut status, mut value) = (self.words(), 0);
        match analyse(&mut status, &mut value, A, perm, Dsigns, out, scratch) {
            0 => Ok(Status::of(status)),
            number => Err(Refusal { number, value }),
        }
    }
}

/// The call of the header as it stands, over any words of a status.
#[cfg(archive)]
#[must_use = "0 or the number of a refusal"]
pub fn analyse(
    status: &mut [u64],
    value: &mut u64,
    A: Matrix,
    perm: &[u32],
    Dsigns: &[i8],
    out: Tables,
    scratch: [&mut [u32]; 3],
) -> u32 {
    face::analyse(status, value, A, perm, Dsigns, out, scratch)
}

/// Says what was left out because an archive is not there or not for this machine; past the capture of a test's output, so that it is seen.
pub fn skip(count: usize, what: &str) {
    let line =
        format!("skipped: {count} {what}, since an archive of target/staticlib is not there, or this is not x86-64\n");
    std::io::stderr().write_all(line.as_bytes()).unwrap();
}
