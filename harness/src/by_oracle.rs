//! A case answered by the original.
use crate::case::{Answer, Case, Edit, Settings};
use oracle::{algebra::CscMatrix, qdldl::*, Private};

/// To usize.
pub fn wide(table: &[u32]) -> Vec<usize> {
    table.iter().map(|&x| x as usize).collect()
}

/// To u32, and `usize::MAX` to 4294967295.
pub fn narrow(table: &[usize]) -> Vec<u32> {
    table.iter().map(|&x| if x == usize::MAX { u32::MAX } else { u32::try_from(x).unwrap() }).collect()
}

/// What `new` of the original takes for this case.
pub fn lent(case: &Case) -> (CscMatrix, QDLDLSettings<f64>) {
    let n = case.n();
    let A = CscMatrix { m: n, n, colptr: wide(&case.colptr), rowval: wide(&case.rowval), nzval: case.nzval.clone() };
    let mut opts = QDLDLSettings {
        perm: Some(wide(&case.perm)),
        logical: case.logical,
        Dsigns: (!case.Dsigns.is_empty()).then(|| case.Dsigns.clone()),
        regularize_enable: false,
        ..Default::default()
    };
    if let Settings::On { eps, delta } = case.settings {
        opts.regularize_enable = true;
        opts.regularize_eps = eps;
        opts.regularize_delta = delta;
    }
    (A, opts)
}

/// `new` of the original for this case.
pub fn new(case: &Case) -> Result<QDLDLFactorisation, QDLDLError> {
    let (A, opts) = lent(case);
    QDLDLFactorisation::new(&A, Some(opts))
}

/// The whole case; an error is that of `new`, which then leaves nothing to see.
pub fn answer(case: &Case) -> Result<Answer, QDLDLError> {
    let mut F = new(case)?;
    for edit in &case.edits {
        let indices = wide(edit.indices());
        match edit {
            Edit::Update { values, .. } => F.update_values(&indices, values),
            Edit::Scale { scale, .. } => F.scale_values(&indices, *scale),
            Edit::Offset { offset, signs, .. } => F.offset_values(&indices, *offset, signs),
        }
    }
    let failed = case.refactor && F.refactor().is_err();

    let mut x = vec![];
    if !failed && (case.refactor || !case.logical) {
        x = case.b.clone();
        F.solve(&mut x);
    }
    let tables = Private::of(&F);
    Ok(Answer {
        Ap: narrow(&tables.colptr),
        Ai: narrow(&tables.rowval),
        Ax: tables.nzval,
        AtoPAPt: narrow(&tables.AtoPAPt),
        etree: narrow(&tables.etree),
        Lnz: narrow(&tables.Lnz),
        Dsigns: tables.Dsigns,
        // The crate does not say which row; the pivots before it are not zero.
        zero: failed.then(|| F.D.iter().position(|&d| d == 0.0).unwrap() as u32),
        Lp: narrow(&F.L.colptr),
        Li: narrow(&F.L.rowval),
        Lx: F.L.nzval.clone(),
        // The crate keeps the inertia of the factor before; 01 says 0.
        inertia: if failed { 0 } else { F.positive_inertia() as u32 },
        shifts: F.regularize_count() as u32,
        D: F.D,
        Dinv: F.Dinv,
        x,
    })
}
