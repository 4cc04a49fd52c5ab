//! As much of clarabel's `algebra` as qdldl.rs uses, for f64.
use std::fmt::Debug;
use std::ops::{AddAssign, Mul, MulAssign, SubAssign};

pub trait FloatT: Copy + Debug + PartialOrd + Mul<Output = Self> + AddAssign + SubAssign + MulAssign {
    fn zero() -> Self;
    fn one() -> Self;
    fn is_zero(&self) -> bool;
    fn recip(self) -> Self;
    fn from_i8(x: i8) -> Option<Self>;
    fn from_f64(x: f64) -> Self;
}

impl FloatT for f64 {
    fn zero() -> f64 {
        0.0
    }
    fn one() -> f64 {
        1.0
    }
    fn is_zero(&self) -> bool {
        *self == 0.0
    }
    fn recip(self) -> f64 {
        1.0 / self
    }
    fn from_i8(x: i8) -> Option<f64> {
        Some(f64::from(x))
    }
    fn from_f64(x: f64) -> f64 {
        x
    }
}

pub trait AsFloatT<T> {
    fn as_T(&self) -> T;
}

impl<T: FloatT> AsFloatT<T> for f64 {
    fn as_T(&self) -> T {
        T::from_f64(*self)
    }
}

#[derive(Debug, Clone)]
pub struct CscMatrix<T = f64> {
    pub m: usize,
    pub n: usize,
    pub colptr: Vec<usize>,
    pub rowval: Vec<usize>,
    pub nzval: Vec<T>,
}

impl<T: FloatT> CscMatrix<T> {
    pub fn spalloc((m, n): (usize, usize), nnz: usize) -> Self {
        let mut colptr = vec![0; n + 1];
        colptr[n] = nnz;
        CscMatrix { m, n, colptr, rowval: vec![0; nnz], nzval: vec![T::zero(); nnz] }
    }
    pub fn nnz(&self) -> usize {
        self.colptr[self.n]
    }
    pub fn nrows(&self) -> usize {
        self.m
    }
    pub fn ncols(&self) -> usize {
        self.n
    }
    pub fn size(&self) -> (usize, usize) {
        (self.m, self.n)
    }
    pub fn is_square(&self) -> bool {
        self.m == self.n
    }
    pub fn is_triu(&self) -> bool {
        (0..self.n).all(|c| {
            let rows = &self.rowval[self.colptr[c]..self.colptr[c + 1]];
            rows.iter().all(|&r| r <= c)
        })
    }
}
