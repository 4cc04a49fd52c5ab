// Inside the original's module, so that what it keeps private can be called by itself.

/// What answers to the analysis: the test of the structure, the inverse, the reordered triangle with its map, the tree.
pub fn analysis(
    A: &CscMatrix,
    perm: &[usize],
    work: &mut [usize],
    Lnz: &mut [usize],
    etree: &mut [usize],
) -> Result<(CscMatrix, Vec<usize>), QDLDLError> {
    check_structure(A)?;
    let iperm = _invperm(perm)?;
    let (P, AtoPAPt) = permute_symmetric(A, &iperm);
    _etree(P.n, &P.colptr, &P.rowval, work, Lnz, etree)?;
    Ok((P, AtoPAPt))
}

/// The two triangular solves.
pub fn triangular_solves(L: &CscMatrix, Dinv: &[f64], x: &mut [f64]) {
    _solve(&L.colptr, &L.rowval, &L.nzval, Dinv, x);
}
