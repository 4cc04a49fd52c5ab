//! Changes to what is lent, each with the number that it brings about.
use crate::{
    by_plain::{analysis_tables, matrix},
    case::Case,
};
use plain::*;

/// A number, and a change to what is lent that brings it about.
pub type Fault<L> = (u32, fn(&mut L));

pub fn arrow() -> Case {
    Case::new(&[0, 1, 3, 5], &[0, 0, 1, 0, 2], &[4.0, 1.0, 3.0, 2.0, 5.0])
}

#[derive(Clone, Debug)]
pub struct ToAnalysis {
    pub A: Matrix,
    pub perm: Vec<u32>,
    pub Dsigns: Vec<i8>,
    pub out: Analysis,
    pub scratch: Scratch,
}

impl ToAnalysis {
    /// What a case lends, each written table `past` longer than it needs.
    pub fn of(case: &Case, past: usize) -> ToAnalysis {
        let (n, m) = (case.n(), case.rowval.len());
        ToAnalysis {
            A: matrix(case),
            perm: case.perm.clone(),
            Dsigns: case.Dsigns.clone(),
            out: analysis_tables(n, m, past),
            scratch: Scratch::of(n),
        }
    }

    /// Document 01's reading of the call.
    pub fn call(&mut self) -> Result<Status, Refusal> {
        analysis(&self.A, &self.perm, &self.Dsigns, &mut self.out, &self.scratch)
    }
}

/// The arrow, which `ANALYSIS` damages.
pub fn to_analysis() -> ToAnalysis {
    ToAnalysis::of(&arrow().perm(&[2, 0, 1]).signs(&[1, 0, -1]), 0)
}

pub const ANALYSIS: &[Fault<ToAnalysis>] = &[
    (2, |l| l.A.rows = 2),
    (2, |l| l.A.rows = 4),
    (3, |l| (l.A.rows, l.A.columns) = (0, 0)),
    (3, |l| (l.A.rows, l.A.columns) = (2_049, 2_049)),
    (3, |l| l.A.rowval.resize(65_537, 0)),
    (4, |l| l.A.colptr.truncate(3)),
    (4, |l| l.A.colptr.push(5)),
    (4, |l| l.A.nzval.truncate(4)),
    (4, |l| l.A.nzval.push(0.0)),
    (4, |l| l.perm.truncate(2)),
    (4, |l| l.perm.push(3)),
    (4, |l| l.Dsigns.truncate(2)),
    (4, |l| l.Dsigns.push(1)),
    (4, |l| l.out.A.Ap.truncate(3)),
    (4, |l| l.out.A.Ai.truncate(4)),
    (4, |l| l.out.A.Ax.truncate(4)),
    (4, |l| l.out.AtoPAPt.truncate(4)),
    (4, |l| l.out.A.etree.truncate(2)),
    (4, |l| l.out.A.Lnz.truncate(2)),
    (4, |l| l.out.A.Dsigns.truncate(2)),
    (4, |l| l.scratch.words[0] = 2),
    (4, |l| l.scratch.words[2] = 2),
    (5, |l| l.A.colptr[0] = 1),
    (5, |l| l.A.colptr[1] = 4),
    (5, |l| *l.A.colptr.last_mut().unwrap() = 6),
    (5, |l| l.A.rowval[4] = 3),
    (6, |l| l.A.rowval[0] = 1),
    (6, |l| l.A.rowval[0] = 2),
    (7, |l| l.A.colptr[2] = 1),
    (8, |l| l.A.rowval.swap(3, 4)),
    (8, |l| l.A.rowval[3] = 2),
    (9, |l| l.perm[0] = 1),
    (9, |l| l.perm[0] = 3),
    (10, |l| l.Dsigns[0] = 2),
    (10, |l| l.Dsigns[2] = -128),
    (0, |l| l.Dsigns.clear()),
    (0, |l| (l.scratch.bytes, l.scratch.floats) = (0, 0)),
];
