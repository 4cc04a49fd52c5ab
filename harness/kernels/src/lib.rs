//! The kernels of factor, solve and edit by themselves, from the archive that `harness/archives` writes for x86-64; where it is
//! absent, and on another machine, the crate is empty.
#![allow(non_snake_case)]
#![cfg(archive)]

extern "C" {
    fn coinravel_kernel_spoiled_factor(
        n: usize,
        colptr: *const u32,
        colptr_len: usize,
        rowval: *const u32,
        rowval_len: usize,
        etree: *const u32,
        etree_len: usize,
        lnz: *const u32,
        lnz_len: usize,
        work: *mut u32,
        work_len: usize,
        counts: *mut u32,
        counts_len: usize,
        parents: *mut u32,
        parents_len: usize,
    ) -> bool;
    fn coinravel_kernel_numeric(
        colptr: *const u32,
        colptr_len: usize,
        rowval: *const u32,
        rowval_len: usize,
        nzval: *const f64,
        nzval_len: usize,
        etree: *const u32,
        etree_len: usize,
        lnz: *const u32,
        lnz_len: usize,
        dsigns: *const i8,
        dsigns_len: usize,
        on: bool,
        eps: f64,
        delta: f64,
        lp: *mut u32,
        lp_len: usize,
        li: *mut u32,
        li_len: usize,
        lx: *mut f64,
        lx_len: usize,
        d: *mut f64,
        d_len: usize,
        dinv: *mut f64,
        dinv_len: usize,
        next: *mut u32,
        next_len: usize,
        order: *mut u32,
        order_len: usize,
        marks: *mut u8,
        marks_len: usize,
        y: *mut f64,
        y_len: usize,
        words: *mut usize,
        words_len: usize,
    ) -> bool;
    fn coinravel_kernel_logical(
        colptr: *const u32,
        colptr_len: usize,
        rowval: *const u32,
        rowval_len: usize,
        nzval: *const f64,
        nzval_len: usize,
        etree: *const u32,
        etree_len: usize,
        lnz: *const u32,
        lnz_len: usize,
        lp: *mut u32,
        lp_len: usize,
        li: *mut u32,
        li_len: usize,
        lx: *mut f64,
        lx_len: usize,
        d: *mut f64,
        d_len: usize,
        dinv: *mut f64,
        dinv_len: usize,
        next: *mut u32,
        next_len: usize,
        order: *mut u32,
        order_len: usize,
        marks: *mut u8,
        marks_len: usize,
    );
    fn coinravel_kernel_spoiled(
        n: usize,
        lp: *const u32,
        lp_len: usize,
        li: *const u32,
        li_len: usize,
        lx: *const f64,
        lx_len: usize,
    ) -> bool;
    fn coinravel_kernel_lsolve(
        lp: *const u32,
        lp_len: usize,
        li: *const u32,
        li_len: usize,
        lx: *const f64,
        lx_len: usize,
        x: *mut f64,
        x_len: usize,
    );
    fn coinravel_kernel_dltsolve(
        lp: *const u32,
        lp_len: usize,
        li: *const u32,
        li_len: usize,
        lx: *const f64,
        lx_len: usize,
        dinv: *const f64,
        dinv_len: usize,
        x: *mut f64,
        x_len: usize,
    );
    fn coinravel_kernel_solve(
        perm: *const u32,
        perm_len: usize,
        lp: *const u32,
        lp_len: usize,
        li: *const u32,
        li_len: usize,
        lx: *const f64,
        lx_len: usize,
        dinv: *const f64,
        dinv_len: usize,
        b: *mut f64,
        b_len: usize,
        x: *mut f64,
        x_len: usize,
    );
    fn coinravel_kernel_update_values(
        map: *const u32,
        map_len: usize,
        indices: *const u32,
        indices_len: usize,
        values: *const f64,
        values_len: usize,
        vals: *mut f64,
        vals_len: usize,
    );
    fn coinravel_kernel_scale_values(
        map: *const u32,
        map_len: usize,
        indices: *const u32,
        indices_len: usize,
        scale: f64,
        vals: *mut f64,
        vals_len: usize,
    );
    fn coinravel_kernel_offset_values(
        map: *const u32,
        map_len: usize,
        indices: *const u32,
        indices_len: usize,
        offset: f64,
        signs: *const i8,
        signs_len: usize,
        vals: *mut f64,
        vals_len: usize,
    );
}

/// What the factor reads: the permuted triangle, parents, counts and signs.
#[derive(Clone, Copy, Debug)]
pub struct Triangle<'a> {
    pub Ap: &'a [u32],
    pub Ai: &'a [u32],
    pub Ax: &'a [f64],
    pub etree: &'a [u32],
    pub Lnz: &'a [u32],
    pub Dsigns: &'a [i8],
}

/// What the factor writes.
#[derive(Debug)]
pub struct Tables<'a> {
    pub Lp: &'a mut [u32],
    pub Li: &'a mut [u32],
    pub Lx: &'a mut [f64],
    pub D: &'a mut [f64],
    pub Dinv: &'a mut [f64],
}

/// Scratch of an order, which holds anything.
#[derive(Clone, Debug)]
pub struct Scratch {
    words: [Vec<u32>; 3],
    bytes: Vec<u8>,
    floats: Vec<f64>,
}

impl Scratch {
    #[must_use]
    pub fn of(n: usize) -> Scratch {
        Scratch { words: [(); 3].map(|()| vec![0xdead; n]), bytes: vec![0xde; n], floats: vec![f64::NAN; n] }
    }
}

/// What a numeric factor came to: whether all rows are done, the next row or that of the zero pivot, inertia and shifts.
#[derive(Clone, Copy, Debug, PartialEq, Eq)]
pub struct Step {
    pub done: bool,
    pub row: usize,
    pub inertia: usize,
    pub shifts: usize,
}

/// The test of what the factor reads, at the order of the parents.
#[must_use]
pub fn spoiled_factor(A: Triangle, scratch: &mut Scratch) -> bool {
    let n = A.etree.len();
    let [work, counts, parents] = &mut scratch.words;
    assert!(u32::try_from(n).is_ok() && A.Ap.len() == n + 1);
    assert!(work.len() >= n && counts.len() >= n && parents.len() >= n);
    // Sound by the two lines above.
    unsafe {
        coinravel_kernel_spoiled_factor(
            n,
            A.Ap.as_ptr(),
            A.Ap.len(),
            A.Ai.as_ptr(),
            A.Ai.len(),
            A.etree.as_ptr(),
            A.etree.len(),
            A.Lnz.as_ptr(),
            A.Lnz.len(),
            work.as_mut_ptr(),
            work.len(),
            counts.as_mut_ptr(),
            counts.len(),
            parents.as_mut_ptr(),
            parents.len(),
        )
    }
}

/// The numeric factor; regularisation is off, or on with an eps and a delta.
///
/// # Safety
///
/// The order is within the limits, values are as many as rows and at least one, signs as many as parents; A is not spoiled; the written
/// tables and scratch are long enough.
pub unsafe fn numeric(A: Triangle, regularisation: Option<(f64, f64)>, L: Tables, scratch: &mut Scratch) -> Step {
    let (eps, delta) = regularisation.unwrap_or_default();
    let [next, order, _] = &mut scratch.words;
    let mut words = [0; 3];
    let done = coinravel_kernel_numeric(
        A.Ap.as_ptr(),
        A.Ap.len(),
        A.Ai.as_ptr(),
        A.Ai.len(),
        A.Ax.as_ptr(),
        A.Ax.len(),
        A.etree.as_ptr(),
        A.etree.len(),
        A.Lnz.as_ptr(),
        A.Lnz.len(),
        A.Dsigns.as_ptr(),
        A.Dsigns.len(),
        regularisation.is_some(),
        eps,
        delta,
        L.Lp.as_mut_ptr(),
        L.Lp.len(),
        L.Li.as_mut_ptr(),
        L.Li.len(),
        L.Lx.as_mut_ptr(),
        L.Lx.len(),
        L.D.as_mut_ptr(),
        L.D.len(),
        L.Dinv.as_mut_ptr(),
        L.Dinv.len(),
        next.as_mut_ptr(),
        next.len(),
        order.as_mut_ptr(),
        order.len(),
        scratch.bytes.as_mut_ptr(),
        scratch.bytes.len(),
        scratch.floats.as_mut_ptr(),
        scratch.floats.len(),
        words.as_mut_ptr(),
        words.len(),
    );
    let [row, inertia, shifts] = words;
    Step { done, row, inertia, shifts }
}

/// The logical factor.
///
/// # Safety
///
/// As for `numeric`, but for the signs.
pub unsafe fn logical(A: Triangle, L: Tables, scratch: &mut Scratch) {
    let [next, order, _] = &mut scratch.words;
    coinravel_kernel_logical(
        A.Ap.as_ptr(),
        A.Ap.len(),
        A.Ai.as_ptr(),
        A.Ai.len(),
        A.Ax.as_ptr(),
        A.Ax.len(),
        A.etree.as_ptr(),
        A.etree.len(),
        A.Lnz.as_ptr(),
        A.Lnz.len(),
        L.Lp.as_mut_ptr(),
        L.Lp.len(),
        L.Li.as_mut_ptr(),
        L.Li.len(),
        L.Lx.as_mut_ptr(),
        L.Lx.len(),
        L.D.as_mut_ptr(),
        L.D.len(),
        L.Dinv.as_mut_ptr(),
        L.Dinv.len(),
        next.as_mut_ptr(),
        next.len(),
        order.as_mut_ptr(),
        order.len(),
        scratch.bytes.as_mut_ptr(),
        scratch.bytes.len(),
    );
}

/// L by columns.
#[derive(Clone, Copy, Debug)]
pub struct Columns<'a> {
    pub Lp: &'a [u32],
    pub Li: &'a [u32],
    pub Lx: &'a [f64],
}

/// The test of L at an order n below 2^32.
#[must_use]
pub fn spoiled(n: usize, L: Columns) -> bool {
    let Columns { Lp, Li, Lx } = L;
    assert!(u32::try_from(n).is_ok());
    // Sound by the line above.
    unsafe { coinravel_kernel_spoiled(n, Lp.as_ptr(), Lp.len(), Li.as_ptr(), Li.len(), Lx.as_ptr(), Lx.len()) }
}

/// Solves (L + I) x = b, with x in place of b.
///
/// # Safety
///
/// L has one pointer more than x has numbers, and is not spoiled at that order.
pub unsafe fn lsolve(L: Columns, x: &mut [f64]) {
    let Columns { Lp, Li, Lx } = L;
    coinravel_kernel_lsolve(
        Lp.as_ptr(),
        Lp.len(),
        Li.as_ptr(),
        Li.len(),
        Lx.as_ptr(),
        Lx.len(),
        x.as_mut_ptr(),
        x.len(),
    );
}

/// Solves D (L + I)' x = b, with x in place of b.
///
/// # Safety
///
/// As for `lsolve`, and Dinv is as long as x.
pub unsafe fn dltsolve(L: Columns, Dinv: &[f64], x: &mut [f64]) {
    let Columns { Lp, Li, Lx } = L;
    coinravel_kernel_dltsolve(
        Lp.as_ptr(),
        Lp.len(),
        Li.as_ptr(),
        Li.len(),
        Lx.as_ptr(),
        Lx.len(),
        Dinv.as_ptr(),
        Dinv.len(),
        x.as_mut_ptr(),
        x.len(),
    );
}

/// Solves through the ordering, with the solution in place of b; x is scratch.
///
/// # Safety
///
/// perm is an ordering, Dinv and b are as long as it, x is no shorter, and L is not spoiled at that order.
pub unsafe fn solve(perm: &[u32], L: Columns, Dinv: &[f64], b: &mut [f64], x: &mut [f64]) {
    let Columns { Lp, Li, Lx } = L;
    coinravel_kernel_solve(
        perm.as_ptr(),
        perm.len(),
        Lp.as_ptr(),
        Lp.len(),
        Li.as_ptr(),
        Li.len(),
        Lx.as_ptr(),
        Lx.len(),
        Dinv.as_ptr(),
        Dinv.len(),
        b.as_mut_ptr(),
        b.len(),
        x.as_mut_ptr(),
        x.len(),
    );
}

/// Writes each value to the place of its index.
///
/// # Safety
///
/// Each index is a place of the map, each entry of the map a place of vals, and values is as long as indices.
pub unsafe fn update_values(AtoPAPt: &[u32], indices: &[u32], values: &[f64], vals: &mut [f64]) {
    coinravel_kernel_update_values(
        AtoPAPt.as_ptr(),
        AtoPAPt.len(),
        indices.as_ptr(),
        indices.len(),
        values.as_ptr(),
        values.len(),
        vals.as_mut_ptr(),
        vals.len(),
    );
}

/// Multiplies the value at the place of each index by scale.
///
/// # Safety
///
/// Each index is a place of the map, and each entry of the map a place of vals.
pub unsafe fn scale_values(AtoPAPt: &[u32], indices: &[u32], scale: f64, vals: &mut [f64]) {
    coinravel_kernel_scale_values(
        AtoPAPt.as_ptr(),
        AtoPAPt.len(),
        indices.as_ptr(),
        indices.len(),
        scale,
        vals.as_mut_ptr(),
        vals.len(),
    );
}

/// Adds offset at the place of each index, or subtracts it, as the index's sign says.
///
/// # Safety
///
/// As for `update_values`, with signs for values.
pub unsafe fn offset_values(AtoPAPt: &[u32], indices: &[u32], offset: f64, signs: &[i8], vals: &mut [f64]) {
    coinravel_kernel_offset_values(
        AtoPAPt.as_ptr(),
        AtoPAPt.len(),
        indices.as_ptr(),
        indices.len(),
        offset,
        signs.as_ptr(),
        signs.len(),
        vals.as_mut_ptr(),
        vals.len(),
    );
}
