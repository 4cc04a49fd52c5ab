//! For each call its tests in number order, so that "the lowest number that applies is given".
use crate::{
    desk::{Refusal::*, *},
    edit::Edit,
    order::is_ordering,
    strike::strike,
};

type Verdict = Result<(), Refusal>;

fn refuse(refusal: Refusal, when: bool) -> Verdict {
    if when {
        Err(refusal)
    } else {
        Ok(())
    }
}

/// "Analysis uses 2 to 10"; "6 to 8 are considered only where 5 doesn't hold".
pub fn analysis(A: &Matrix, perm: &[u32], Dsigns: &[i8], out: &Analysis, scratch: &Scratch) -> Verdict {
    let (n, m) = (A.columns, A.rowval.len());
    refuse(IncompatibleDimension, A.rows != A.columns)?;
    refuse(BadSize, !(1..=MAX_N).contains(&n) || m > MAX_M)?;
    let read =
        A.colptr.len() == n + 1 && A.nzval.len() == m && perm.len() == n && (Dsigns.is_empty() || Dsigns.len() == n);
    refuse(BadLength, !read || !out.fits(n, m) || scratch.words.iter().any(|&len| len < n))?;
    refuse(MalformedMatrix, !pointers_hold(&A.colptr, m) || A.rowval.iter().any(|&r| r as usize >= n))?;
    refuse(NotUpperTriangular, !is_triu(&A.colptr, &A.rowval))?;
    refuse(EmptyColumn, (0..n).any(|c| column(&A.colptr, c).is_empty()))?;
    let rising = |c| A.rowval[column(&A.colptr, c)].windows(2).all(|w| w[0] < w[1]);
    refuse(UnsortedColumn, !(0..n).all(rising))?;
    refuse(InvalidPermutation, !is_ordering(perm, n))?;
    refuse(BadSign, has_bad_sign(Dsigns))
}

/// "factor and refactor 1, 3, 4, 10, 11, 13, 14"; the last is found on the way.
pub fn factor(status: &Status, A: &Permuted, out: &Factors, scratch: &Scratch) -> Verdict {
    let (n, m) = (status.n, status.m);
    refuse(NotReady, status.kind == Kind::Empty)?;
    refuse(BadSize, bad_status_size(status))?;
    let read = A.Ap.len() == n + 1
        && A.Ai.len() == m
        && A.Ax.len() == m
        && A.etree.len() == n
        && A.Lnz.len() == n
        && A.Dsigns.len() == n;
    let written = out.Lp.len() > n && out.D.len() >= n && out.Dinv.len() >= n;
    refuse(BadLength, !read || !written || !scratch.holds(n))?;
    refuse(BadSign, has_bad_sign(&A.Dsigns))?;
    refuse(Spoiled, is_spoiled(A, m))?;
    let sum = A.Lnz.iter().sum::<u32>() as usize;
    refuse(NoRoom(sum), out.Li.len() < sum || out.Lx.len() < sum)
}

/// "permuted pointers don't start at 0, fall, or don't end at m; a row exceeds its column; or parents or counts aren't those
/// of this pattern."
pub fn is_spoiled(A: &Permuted, m: usize) -> bool {
    if !pointers_hold(&A.Ap, m) || !is_triu(&A.Ap, &A.Ai) {
        return true;
    }
    let struck = strike(&A.Ap, &A.Ai);
    A.etree != struck.etree || A.Lnz != struck.Lnz
}

/// "solve 1, 3, 4, 9, 11".
pub fn solve(status: &Status, perm: &[u32], F: &Factors, b: &[f64], scratch: &Scratch) -> Verdict {
    let n = status.n;
    refuse(NotReady, status.kind != Kind::Numeric)?;
    refuse(BadSize, bad_status_size(status))?;
    let read = perm.len() == n && b.len() == n && F.Lp.len() == n + 1 && F.Dinv.len() == n;
    refuse(BadLength, !read || scratch.bytes < n || scratch.floats < n)?;
    refuse(InvalidPermutation, !is_ordering(perm, n))?;
    refuse(Spoiled, L_is_spoiled(F, n))
}

/// "L's pointers don't start at 0, fall, or end past its rows or values; or a row of column i isn't in i+1..n-1."
pub fn L_is_spoiled(F: &Factors, n: usize) -> bool {
    let end = F.Lp[n] as usize;
    !pointers_hold(&F.Lp, end)
        || end > F.Li.len()
        || end > F.Lx.len()
        || (0..n).any(|i| F.Li[column(&F.Lp, i)].iter().any(|&r| !(i + 1..n).contains(&(r as usize))))
}

/// "edits 1, 3, 4, 11, 12".
pub fn edit(status: &Status, edit: &Edit, AtoPAPt: &[u32], nzval: &[f64]) -> Verdict {
    let m = status.m;
    refuse(NotReady, status.kind == Kind::Empty)?;
    refuse(BadSize, bad_status_size(status))?;
    refuse(BadLength, edit.is_uneven() || nzval.len() != m || AtoPAPt.len() != m)?;
    refuse(Spoiled, AtoPAPt.iter().any(|&place| place as usize >= m))?;
    refuse(BadIndex, edit.indices().iter().any(|&index| index as usize >= m))
}

/// "n outside 1..2,048, or m above 65,536; after analysis also m = 0".
fn bad_status_size(status: &Status) -> bool {
    !(1..=MAX_N).contains(&status.n) || !(1..=MAX_M).contains(&status.m)
}

/// "pointers don't start at 0, fall, or don't end at m", denied.
fn pointers_hold(colptr: &[u32], m: usize) -> bool {
    colptr[0] == 0 && colptr.windows(2).all(|w| w[0] <= w[1]) && *colptr.last().unwrap() as usize == m
}

/// "a row exceeds its column", denied.
fn is_triu(colptr: &[u32], rowval: &[u32]) -> bool {
    (0..colptr.len() - 1).all(|c| rowval[column(colptr, c)].iter().all(|&r| r as usize <= c))
}

/// "a sign outside -1, 0, 1 (not in offset edits)".
fn has_bad_sign(Dsigns: &[i8]) -> bool {
    Dsigns.iter().any(|s| !(-1..=1).contains(s))
}
