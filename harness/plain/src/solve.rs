//! The solve with L and Dinv.
use crate::{desk::column, order};

/// "for i rising, each x[r] = x[r] - L[r,i]*x[i]".
pub fn lsolve(Lp: &[u32], Li: &[u32], Lx: &[f64], x: &mut [f64]) {
    for i in 0..x.len() {
        for p in column(Lp, i) {
            let r = Li[p] as usize;
            x[r] = x[r] - Lx[p] * x[i];
        }
    }
}

/// "for i falling: s from +0 adds L[r,i]*x[r] in stored order; x[i] = x[i]*Dinv[i], then minus s".
pub fn dltsolve(Lp: &[u32], Li: &[u32], Lx: &[f64], Dinv: &[f64], x: &mut [f64]) {
    for i in (0..x.len()).rev() {
        let mut s = 0.0;
        for p in column(Lp, i) {
            s = s + Lx[p] * x[Li[p] as usize];
        }
        x[i] = x[i] * Dinv[i];
        x[i] = x[i] - s;
    }
}

/// "x is the permuted right side; .. Then back through the ordering."
pub fn solve(perm: &[u32], Lp: &[u32], Li: &[u32], Lx: &[f64], Dinv: &[f64], b: &mut [f64]) {
    let mut x = order::permute(b, perm);
    lsolve(Lp, Li, Lx, &mut x);
    dltsolve(Lp, Li, Lx, Dinv, &mut x);
    order::ipermute(b, &x, perm);
}
