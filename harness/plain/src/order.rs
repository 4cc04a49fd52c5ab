//! Orderings, and the triangle in the new order.
use crate::desk::column;

/// "ordering isn't each of 0..n-1 once", denied.
pub fn is_ordering(perm: &[u32], n: usize) -> bool {
    (0..n).all(|i| perm.iter().filter(|&&p| p as usize == i).count() == 1)
}

/// "inverse, iperm[perm[i]] = i".
pub fn invperm(perm: &[u32]) -> Vec<u32> {
    let mut iperm = vec![0; perm.len()];
    for i in 0..perm.len() {
        iperm[perm[i] as usize] = i as u32;
    }
    iperm
}

/// "x[i] = b[p[i]]".
pub fn permute<T: Copy>(b: &[T], p: &[u32]) -> Vec<T> {
    p.iter().map(|&p| b[p as usize]).collect()
}

/// ".. and back".
pub fn ipermute(x: &mut [f64], b: &[f64], p: &[u32]) {
    for i in 0..p.len() {
        x[p[i] as usize] = b[i];
    }
}

/// The reordered triangle, and where each input entry went.
pub struct Reordered {
    pub Ap: Vec<u32>,
    pub Ai: Vec<u32>,
    pub Ax: Vec<f64>,
    pub AtoPAPt: Vec<u32>,
}

/// "entry (r, c) goes to column max(iperm[r], iperm[c]), row the minimum. Columns fill in input storage order, so their
/// rows may be unsorted. The map gives each input entry's new place."
pub fn permute_symmetric(colptr: &[u32], rowval: &[u32], nzval: &[f64], iperm: &[u32]) -> Reordered {
    let n = iperm.len();
    let mut entries = vec![]; // (new column, new row, input place)
    for c in 0..n {
        for p in column(colptr, c) {
            let (i, j) = (iperm[rowval[p] as usize], iperm[c]);
            entries.push((i.max(j), i.min(j), p));
        }
    }
    entries.sort_by_key(|e| e.0); // a stable sort: storage order stays within a column

    let mut AtoPAPt = vec![0; entries.len()];
    for (place, e) in entries.iter().enumerate() {
        AtoPAPt[e.2] = place as u32;
    }
    Reordered {
        Ap: (0..=n).map(|j| entries.iter().filter(|e| (e.0 as usize) < j).count() as u32).collect(),
        Ai: entries.iter().map(|e| e.1).collect(),
        Ax: entries.iter().map(|e| nzval[e.2]).collect(),
        AtoPAPt,
    }
}
