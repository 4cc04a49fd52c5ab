//! The calls: each takes the status and hands the next one back, and every table is lent.
use crate::{desk::*, edit::Edit, order, refusal, strike::strike};

/// "A longer written buffer keeps what lies past the needed part."
fn write<T: Copy>(buffer: &mut [T], needed: &[T]) {
    buffer[..needed.len()].copy_from_slice(needed);
}

/// "Analysis may be called from any status; it sets the length of L to the counts' sum, inertia and shifts to 0."
pub fn analysis(
    A: &Matrix,
    perm: &[u32],
    Dsigns: &[i8],
    out: &mut Analysis,
    scratch: &Scratch,
) -> Result<Status, Refusal> {
    refusal::analysis(A, perm, Dsigns, out, scratch)?;
    let new = order::permute_symmetric(&A.colptr, &A.rowval, &A.nzval, &order::invperm(perm));
    let struck = strike(&new.Ap, &new.Ai);
    let all_plus = vec![1; perm.len()];
    let signs = if Dsigns.is_empty() { &all_plus } else { Dsigns };

    write(&mut out.A.Ap, &new.Ap);
    write(&mut out.A.Ai, &new.Ai);
    write(&mut out.A.Ax, &new.Ax);
    write(&mut out.AtoPAPt, &new.AtoPAPt);
    write(&mut out.A.etree, &struck.etree);
    write(&mut out.A.Lnz, &struck.Lnz);
    write(&mut out.A.Dsigns, &order::permute(signs, perm));
    Ok(Status {
        kind: Kind::Analysed,
        n: A.columns,
        m: A.rowval.len(),
        nnzL: struck.rows.concat().len(),
        inertia: 0,
        shifts: 0,
    })
}

/// "Every refusal but 14 hands back status and all buffers untouched"; after 14 "Status is Failed, inertia 0, shifts those
/// up to and including row k".
pub fn refactor(
    status: Status,
    A: &Permuted,
    settings: Settings,
    out: &mut Factors,
    scratch: &Scratch,
) -> (Status, Result<(), Refusal>) {
    if let Err(refused) = refusal::factor(&status, A, out, scratch) {
        return (status, Err(refused));
    }
    let count = crate::factor::numeric(A, settings, out);
    let (kind, reply) = match count.zero {
        Some(row) => (Kind::Failed, Err(Refusal::ZeroPivot(row))),
        None => (Kind::Numeric, Ok(())),
    };
    let nnzL = out.Lp[status.n] as usize;
    (Status { kind, nnzL, inertia: count.inertia, shifts: count.shifts, ..status }, reply)
}

/// A factor that may be logical: then "inertia and shifts 0; signs, once past refusal 10, and settings have no effect, and
/// there is no ZeroPivot".
pub fn factor(
    status: Status,
    A: &Permuted,
    settings: Settings,
    logical: bool,
    out: &mut Factors,
    scratch: &Scratch,
) -> (Status, Result<(), Refusal>) {
    if !logical {
        return refactor(status, A, settings, out, scratch);
    }
    if let Err(refused) = refusal::factor(&status, A, out, scratch) {
        return (status, Err(refused));
    }
    crate::factor::logical(A, out);
    let nnzL = out.Lp[status.n] as usize;
    (Status { kind: Kind::Logical, nnzL, inertia: 0, shifts: 0, ..status }, Ok(()))
}

/// The solve, in place of the right side.
pub fn solve(status: &Status, perm: &[u32], F: &Factors, b: &mut [f64], scratch: &Scratch) -> Result<(), Refusal> {
    refusal::solve(status, perm, F, b, scratch)?;
    crate::solve::solve(perm, &F.Lp, &F.Li, &F.Lx, &F.Dinv, b);
    Ok(())
}

/// An edit of the permuted values: "Status stays, and solve still answers from the last factor."
pub fn edit(status: &Status, edit: &Edit, AtoPAPt: &[u32], nzval: &mut [f64]) -> Result<(), Refusal> {
    refusal::edit(status, edit, AtoPAPt, nzval)?;
    edit.apply(AtoPAPt, nzval);
    Ok(())
}

/// "the part is empty where the column has no next pointer, its two pointers fall, or the later one passes the list's end".
pub fn rows_of_column<'a>(colptr: &[u32], rowval: &'a [u32], column: usize) -> &'a [u32] {
    match colptr.get(column..).unwrap_or(&[]) {
        [first, last, ..] => rowval.get(*first as usize..*last as usize).unwrap_or(&[]),
        _ => &[],
    }
}
