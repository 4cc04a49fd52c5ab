//! What crosses the desk: the limits, the matrix, the settings, the status, the tables lent, and the numbers sent back.

/// "n is 1 to 2,048; m is at most 65,536."
pub const MAX_N: usize = 2_048;
pub const MAX_M: usize = 65_536;

/// "4,294,967,295 stands for none".
pub const NONE: u32 = u32::MAX;

/// "A matrix is its upper triangle by columns".
#[derive(Clone, Debug, Default)]
pub struct Matrix {
    pub rows: usize,
    pub columns: usize,
    pub colptr: Vec<u32>,
    pub rowval: Vec<u32>,
    pub nzval: Vec<f64>,
}

/// The places of column c, by the pointers.
pub(crate) fn column(colptr: &[u32], c: usize) -> std::ops::Range<usize> {
    colptr[c] as usize..colptr[c + 1] as usize
}

/// "regularisation is off, or on with an eps and a delta".
#[derive(Clone, Copy, Debug, PartialEq)]
pub enum Settings {
    Off,
    On { eps: f64, delta: f64 },
}

#[derive(Clone, Copy, Debug, PartialEq, Eq)]
pub enum Kind {
    Empty,
    Analysed,
    Logical,
    Numeric,
    Failed,
}

/// "Empty, Analysed, Logical, Numeric or Failed, with n, m, the length of L, inertia and shift count".
#[derive(Clone, Copy, Debug, PartialEq, Eq)]
pub struct Status {
    pub kind: Kind,
    pub n: usize,
    pub m: usize,
    pub nnzL: usize,
    pub inertia: usize,
    pub shifts: usize,
}

/// "On Empty the four read-outs are 0; else nnzA is the status's m and nnzL its length of L."
impl Status {
    fn read_out(&self, field: usize) -> usize {
        if self.kind == Kind::Empty {
            0
        } else {
            field
        }
    }
    pub fn positive_inertia(&self) -> usize {
        self.read_out(self.inertia)
    }
    pub fn regularize_count(&self) -> usize {
        self.read_out(self.shifts)
    }
    pub fn nnzA(&self) -> usize {
        self.read_out(self.m)
    }
    pub fn nnzL(&self) -> usize {
        self.read_out(self.nnzL)
    }
}

/// What the factor reads: "the permuted pointers, rows and values, .. parents, counts, and the signs in the new order".
#[derive(Clone, Debug, Default)]
pub struct Permuted {
    pub Ap: Vec<u32>,
    pub Ai: Vec<u32>,
    pub Ax: Vec<f64>,
    pub etree: Vec<u32>,
    pub Lnz: Vec<u32>,
    pub Dsigns: Vec<i8>,
}

/// What the analysis writes: the same, and the map for edits.
#[derive(Clone, Debug, Default)]
pub struct Analysis {
    pub A: Permuted,
    pub AtoPAPt: Vec<u32>,
}

impl Analysis {
    pub fn fits(&self, n: usize, m: usize) -> bool {
        let A = &self.A;
        A.Ap.len() > n
            && [A.Ai.len(), A.Ax.len(), self.AtoPAPt.len()].iter().all(|&len| len >= m)
            && [A.etree.len(), A.Lnz.len(), A.Dsigns.len()].iter().all(|&len| len >= n)
    }
}

/// What the factor writes and the solve reads (D aside).
#[derive(Clone, Debug, Default)]
pub struct Factors {
    pub Lp: Vec<u32>,
    pub Li: Vec<u32>,
    pub Lx: Vec<f64>,
    pub D: Vec<f64>,
    pub Dinv: Vec<f64>,
}

/// "Scratch, 3n u32, n bytes and n f64": only the lengths matter, "no answer depends on it".
#[derive(Clone, Copy, Debug)]
pub struct Scratch {
    pub words: [usize; 3],
    pub bytes: usize,
    pub floats: usize,
}

impl Scratch {
    pub fn of(n: usize) -> Scratch {
        Scratch { words: [n; 3], bytes: n, floats: n }
    }

    pub fn holds(&self, n: usize) -> bool {
        self.words.iter().all(|&len| len >= n) && self.bytes >= n && self.floats >= n
    }
}

#[derive(Clone, Copy, Debug, PartialEq, Eq)]
pub enum Refusal {
    NotReady,
    IncompatibleDimension,
    BadSize,
    BadLength,
    MalformedMatrix,
    NotUpperTriangular,
    EmptyColumn,
    UnsortedColumn,
    InvalidPermutation,
    BadSign,
    Spoiled,
    BadIndex,
    NoRoom(usize),
    ZeroPivot(usize),
}
use Refusal::*;

impl Refusal {
    pub fn number(self) -> u32 {
        match self {
            NotReady => 1,
            IncompatibleDimension => 2,
            BadSize => 3,
            BadLength => 4,
            MalformedMatrix => 5,
            NotUpperTriangular => 6,
            EmptyColumn => 7,
            UnsortedColumn => 8,
            InvalidPermutation => 9,
            BadSign => 10,
            Spoiled => 11,
            BadIndex => 12,
            NoRoom(_) => 13,
            ZeroPivot(_) => 14,
        }
    }

    /// "the sum is returned", "its row is returned".
    pub fn value(self) -> Option<usize> {
        match self {
            NoRoom(sum) => Some(sum),
            ZeroPivot(row) => Some(row),
            _ => None,
        }
    }
}
