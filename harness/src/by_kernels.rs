//! The factor, the edits and the solve answered by the proved kernels, each after a test of what it asks.
use crate::case::{Case, Edit, Settings};
use kernels::{Columns, Scratch, Step, Tables, Triangle};
use plain::{order::is_ordering, Factors, Permuted, MAX_N};

fn within(list: &[u32], end: usize) -> bool {
    list.iter().all(|&i| (i as usize) < end)
}

/// The permuted values after the edits of a case.
pub fn edited(case: &Case, AtoPAPt: &[u32]) -> Vec<f64> {
    let mut vals = case.nzval.clone();
    for (&place, &value) in AtoPAPt.iter().zip(&case.nzval) {
        vals[place as usize] = value;
    }
    for edit in &case.edits {
        let indices = edit.indices();
        assert!(within(AtoPAPt, vals.len()) && within(indices, AtoPAPt.len()) && !edit.is_uneven());
        // Sound by the line above.
        unsafe {
            match edit {
                Edit::Update { values, .. } => kernels::update_values(AtoPAPt, indices, values, &mut vals),
                Edit::Scale { scale, .. } => kernels::scale_values(AtoPAPt, indices, *scale, &mut vals),
                Edit::Offset { offset, signs, .. } => {
                    kernels::offset_values(AtoPAPt, indices, *offset, signs, &mut vals)
                }
            }
        }
    }
    vals
}

/// The solution for the right side b.
pub fn solved(perm: &[u32], L: Columns, Dinv: &[f64], b: &[f64]) -> Vec<f64> {
    let n = perm.len();
    let (mut b, mut x) = (b.to_vec(), vec![f64::NAN; n]);
    assert!(is_ordering(perm, n) && L.Lp.len() == n + 1 && !kernels::spoiled(n, L));
    assert!(Dinv.len() == n && b.len() == n);
    // Sound by the two lines above.
    unsafe { kernels::solve(perm, L, Dinv, &mut b, &mut x) };
    b
}

pub fn triangle(A: &Permuted) -> Triangle<'_> {
    Triangle { Ap: &A.Ap, Ai: &A.Ai, Ax: &A.Ax, etree: &A.etree, Lnz: &A.Lnz, Dsigns: &A.Dsigns }
}

pub fn tables(F: &mut Factors) -> Tables<'_> {
    Tables { Lp: &mut F.Lp, Li: &mut F.Li, Lx: &mut F.Lx, D: &mut F.D, Dinv: &mut F.Dinv }
}

pub fn settings(settings: Settings) -> Option<(f64, f64)> {
    match settings {
        Settings::Off => None,
        Settings::On { eps, delta } => Some((eps, delta)),
    }
}

/// The factor in place, numeric or logical; a logical one has done all rows and counts nothing.
pub fn factored(A: &Permuted, with: Settings, logical: bool, F: &mut Factors) -> Step {
    let (n, nnzL) = (A.etree.len(), A.Lnz.iter().sum::<u32>() as usize);
    let mut scratch = Scratch::of(n);
    assert!((1..=MAX_N).contains(&n) && A.Ax.len() == A.Ai.len() && !A.Ax.is_empty() && A.Dsigns.len() == n);
    assert!(!kernels::spoiled_factor(triangle(A), &mut scratch));
    assert!(F.Lp.len() > n && F.D.len() >= n && F.Dinv.len() >= n && F.Li.len() >= nnzL && F.Lx.len() >= nnzL);
    // Sound by the three lines above.
    unsafe {
        if logical {
            kernels::logical(triangle(A), tables(F), &mut scratch);
            Step { done: true, row: n, inertia: 0, shifts: 0 }
        } else {
            kernels::numeric(triangle(A), settings(with), tables(F), &mut scratch)
        }
    }
}
