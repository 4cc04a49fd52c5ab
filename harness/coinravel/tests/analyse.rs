//! The archive through the safe crate: the arrow of document 01 in two orderings, and two refusals.
#![allow(non_snake_case)]

#[cfg(not(archive))]
#[test]
fn arrow() {
    coinravel::skip(4, "calls of the archive");
}

#[cfg(archive)]
#[test]
fn arrow() {
    use coinravel::*;
    let (mut Ap, mut Ai, mut Ax, mut AtoPAPt) = ([0; 4], [0; 5], [0.0; 5], [0; 5]);
    let (mut etree, mut Lnz, mut Dsigns) = ([0; 3], [0; 3], [0; 3]);
    let (mut iperm, mut next, mut work) = ([0; 3], [0; 3], [0; 3]);
    let A = Matrix {
        rows: 3,
        columns: 3,
        colptr: &[0, 1, 3, 5],
        rowval: &[0, 0, 1, 0, 2],
        nzval: &[4.0, 1.0, 3.0, 2.0, 5.0],
    };
    let mut call = |perm: &[u32], signs: &[i8]| {
        let out = Tables {
            Ap: &mut Ap,
            Ai: &mut Ai,
            Ax: &mut Ax,
            AtoPAPt: &mut AtoPAPt,
            etree: &mut etree,
            Lnz: &mut Lnz,
            Dsigns: &mut Dsigns,
        };
        let reply = Status::EMPTY.analyse(A, perm, signs, out, [&mut iperm, &mut next, &mut work]);
        (reply, AtoPAPt, etree, Lnz, Dsigns)
    };
    let analysed = |nnzL| Ok(Status { phase: Phase::Analysed, n: 3, m: 5, nnzL, inertia: 0, shifts: 0 });
    let refused = |number| Err(Refusal { number, value: 0 });
    assert_eq!(call(&[0, 1, 2], &[]), (analysed(3), [0, 1, 2, 3, 4], [1, 2, u32::MAX], [2, 1, 0], [1, 1, 1]));
    let last = ([2, 3, 1, 4, 0], [2, 2, u32::MAX], [1, 1, 0], [0, -1, 1]);
    let kept = |reply| (reply, last.0, last.1, last.2, last.3);
    assert_eq!(call(&[2, 1, 0], &[1, -1, 0]), kept(analysed(2)));
    assert_eq!(call(&[1, 1, 0], &[]), kept(refused(9)));
    assert_eq!(call(&[0, 1], &[]), kept(refused(4)));
}
