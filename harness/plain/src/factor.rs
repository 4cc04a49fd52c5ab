//! The pivot, one row in its order, and the whole factor, numeric or logical.
use crate::{desk::*, strike::strike};

/// "A pivot is one value: the number, its reciprocal, and whether it was shifted."
pub struct Pivot {
    pub D: f64,
    pub Dinv: f64,
    pub shifted: bool,
}

/// "With regularisation on, if D*sign < eps (strictly) then D = delta*sign and the shift counts. .. Dinv = 1/D."
pub fn pivot(D: f64, sign: i8, settings: Settings) -> Pivot {
    let sign = f64::from(sign);
    match settings {
        Settings::On { eps, delta } if D * sign < eps => {
            let D = delta * sign;
            Pivot { D, Dinv: 1.0 / D, shifted: true }
        }
        _ => Pivot { D, Dinv: 1.0 / D, shifted: false },
    }
}

/// "In storage order, each off-diagonal entry whose unknown isn't marked starts a path: itself, then parents while they are
/// below k and unmarked; all are marked. Paths run latest first, each from its start towards the root."
pub fn columns_of_row(k: usize, rows: &[u32], etree: &[u32]) -> Vec<usize> {
    let mut marked = vec![false; k];
    let mut paths = vec![];
    for &r in rows {
        let mut path = vec![];
        let mut c = r as usize;
        while c < k && !marked[c] {
            marked[c] = true;
            path.push(c);
            c = etree[c] as usize; // none is no number below k
        }
        paths.push(path);
    }
    paths.into_iter().rev().flatten().collect()
}

/// "y starts as zeros and D[k] as +0. Column k's entries go to y, the diagonal one to D[k]; if a place comes twice the last
/// wins. .. For a column c: v = y[c]; for every row r already listed in c, in order, y[r] = y[r] - L[r,c]*v; then l =
/// v*Dinv[c] is stored at row k of c, and D[k] = D[k] - v*l." `listed` counts the rows already listed in each column.
fn row(k: usize, A: &Permuted, F: &mut Factors, listed: &mut [usize]) -> f64 {
    let mut y = vec![0.0; k + 1];
    for p in column(&A.Ap, k) {
        y[A.Ai[p] as usize] = A.Ax[p];
    }
    let mut Dk = y[k];

    for c in columns_of_row(k, &A.Ai[column(&A.Ap, k)], &A.etree) {
        let v = y[c];
        let first = F.Lp[c] as usize;
        let place = first + listed[c];
        for p in first..place {
            let r = F.Li[p] as usize;
            y[r] = y[r] - F.Lx[p] * v;
        }
        let l = v * F.Dinv[c];
        F.Li[place] = k as u32;
        F.Lx[place] = l;
        Dk = Dk - v * l;
        listed[c] += 1;
    }
    Dk
}

/// What a numeric factor counts, and the row of its zero pivot if there is one.
pub struct Count {
    pub inertia: usize,
    pub shifts: usize,
    pub zero: Option<usize>,
}

/// "Pivot 0 starts from the first stored value of the permuted matrix. For k from 1 .." one row each; "Zero refuses; above
/// zero adds one to inertia .. NaN is neither zero nor positive and goes on." At a zero the rest of L and Dinv is kept.
pub fn numeric(A: &Permuted, settings: Settings, F: &mut Factors) -> Count {
    let n = A.Lnz.len();
    write_pointers(&A.Lnz, &mut F.Lp);
    F.D[..n].fill(0.0);

    let mut listed = vec![0; n];
    let mut count = Count { inertia: 0, shifts: 0, zero: None };
    for k in 0..n {
        let start = if k == 0 { A.Ax[0] } else { row(k, A, F, &mut listed) };
        let pivot = pivot(start, A.Dsigns[k], settings);
        F.D[k] = pivot.D;
        count.shifts += usize::from(pivot.shifted);
        if pivot.D == 0.0 {
            return Count { inertia: 0, zero: Some(k), ..count };
        }
        count.inertia += usize::from(pivot.D > 0.0);
        F.Dinv[k] = pivot.Dinv;
    }
    count
}

/// "L's values and Dinv become 1 over their needed part; D[0] = +0; later D[k] is the stored diagonal value, +0 if none".
pub fn logical(A: &Permuted, F: &mut Factors) {
    let n = A.Lnz.len();
    write_pointers(&A.Lnz, &mut F.Lp);
    let rows = strike(&A.Ap, &A.Ai).rows.concat();
    F.Li[..rows.len()].copy_from_slice(&rows);
    F.Lx[..rows.len()].fill(1.0);
    F.Dinv[..n].fill(1.0);
    F.D[..n].fill(0.0);
    for k in 1..n {
        for p in column(&A.Ap, k) {
            if A.Ai[p] as usize == k {
                F.D[k] = A.Ax[p];
            }
        }
    }
}

/// L's pointers are the running sums of the counts.
fn write_pointers(Lnz: &[u32], Lp: &mut [u32]) {
    for i in 0..=Lnz.len() {
        Lp[i] = Lnz[..i].iter().sum();
    }
}
