//! A case answered by document 01's reading, with tables longer than needed and full of sentinels.
use crate::case::{Answer, Case};
use plain::*;

/// What lies past the needed part, and what a zero pivot keeps in a table never written.
pub const WORD: u32 = 0xdead;
pub const FLOAT: f64 = -777.25;
pub const SIGN: i8 = 77;
const PAST: usize = 2;

pub fn matrix(case: &Case) -> Matrix {
    let n = case.n();
    let (colptr, rowval, nzval) = (case.colptr.clone(), case.rowval.clone(), case.nzval.clone());
    Matrix { rows: n, columns: n, colptr, rowval, nzval }
}

/// Tables for the analysis, each `past` longer than it needs.
pub fn analysis_tables(n: usize, m: usize, past: usize) -> Analysis {
    let A = Permuted {
        Ap: vec![WORD; n + 1 + past],
        Ai: vec![WORD; m + past],
        Ax: vec![FLOAT; m + past],
        etree: vec![WORD; n + past],
        Lnz: vec![WORD; n + past],
        Dsigns: vec![SIGN; n + past],
    };
    Analysis { A, AtoPAPt: vec![WORD; m + past] }
}

/// Tables for the factor, each `past` longer than it needs.
pub fn factor_tables(n: usize, nnzL: usize, past: usize) -> Factors {
    Factors {
        Lp: vec![WORD; n + 1 + past],
        Li: vec![WORD; nnzL + past],
        Lx: vec![FLOAT; nnzL + past],
        D: vec![FLOAT; n + past],
        Dinv: vec![FLOAT; n + past],
    }
}

/// The needed part of a table; what lies past it must still be the sentinel.
fn cut<T: Copy + PartialEq + std::fmt::Debug>(table: &[T], needed: usize, sentinel: T) -> Vec<T> {
    assert!(table[needed..].iter().all(|&x| x == sentinel), "written past the needed part: {table:?}");
    table[..needed].to_vec()
}

/// The analysis in tables of the exact length, and the status after it.
pub fn analysed(case: &Case) -> Result<(Status, Analysis), Refusal> {
    let (n, m) = (case.n(), case.rowval.len());
    let mut out = analysis_tables(n, m, PAST);
    let status = analysis(&matrix(case), &case.perm, &case.Dsigns, &mut out, &Scratch::of(n))?;
    let A = Permuted {
        Ap: cut(&out.A.Ap, n + 1, WORD),
        Ai: cut(&out.A.Ai, m, WORD),
        Ax: cut(&out.A.Ax, m, FLOAT),
        etree: cut(&out.A.etree, n, WORD),
        Lnz: cut(&out.A.Lnz, n, WORD),
        Dsigns: cut(&out.A.Dsigns, n, SIGN),
    };
    Ok((status, Analysis { A, AtoPAPt: cut(&out.AtoPAPt, m, WORD) }))
}

/// The whole case; refused where the analysis refuses.
pub fn answer(case: &Case) -> Result<Answer, Refusal> {
    let (status, tables) = analysed(case)?;
    Ok(answer_from(case, status, tables))
}

/// The rest of a case, from any tables that the factor accepts.
pub fn answer_from(case: &Case, status: Status, mut tables: Analysis) -> Answer {
    let (n, nnzL) = (status.n, status.nnzL);
    let scratch = Scratch::of(n);
    let mut F = factor_tables(n, nnzL, PAST);
    let (mut status, mut reply) = factor(status, &tables.A, case.settings, case.logical, &mut F, &scratch);
    for one in &case.edits {
        edit(&status, one, &tables.AtoPAPt, &mut tables.A.Ax).unwrap();
    }
    if case.refactor {
        (status, reply) = refactor(status, &tables.A, case.settings, &mut F, &scratch);
    }

    let F = Factors {
        Lp: cut(&F.Lp, n + 1, WORD),
        Li: cut(&F.Li, nnzL, WORD),
        Lx: cut(&F.Lx, nnzL, FLOAT),
        D: cut(&F.D, n, FLOAT),
        Dinv: cut(&F.Dinv, n, FLOAT),
    };
    let mut x = case.b.clone();
    if let Err(refused) = solve(&status, &case.perm, &F, &mut x, &scratch) {
        assert_eq!(refused, Refusal::NotReady);
        x.clear();
    }
    let Analysis { A, AtoPAPt } = tables;
    Answer {
        Ap: A.Ap,
        Ai: A.Ai,
        Ax: A.Ax,
        AtoPAPt,
        etree: A.etree,
        Lnz: A.Lnz,
        Dsigns: A.Dsigns,
        zero: reply.err().map(|refused| {
            assert_eq!(refused.number(), 14);
            refused.value().unwrap() as u32
        }),
        Lp: F.Lp,
        Li: F.Li,
        Lx: F.Lx,
        D: F.D,
        Dinv: F.Dinv,
        inertia: status.positive_inertia() as u32,
        shifts: status.regularize_count() as u32,
        x,
    }
}
