//! A case is what is lent; an answer is every table after its last factor.
pub use plain::{edit::Edit, Settings};

/// Analysis, a factor (logical or numeric), the edits, a refactor if wanted, then a solve where the status allows it.
#[derive(Clone, Debug)]
pub struct Case {
    pub colptr: Vec<u32>,
    pub rowval: Vec<u32>,
    pub nzval: Vec<f64>,
    pub perm: Vec<u32>,
    pub Dsigns: Vec<i8>,
    pub settings: Settings,
    pub logical: bool,
    pub edits: Vec<Edit>,
    pub refactor: bool,
    pub b: Vec<f64>,
}

impl Case {
    pub fn n(&self) -> usize {
        self.colptr.len() - 1
    }

    /// A matrix in its own order: no signs, regularisation off, one numeric factor, right side 1, 2, ..
    pub fn new(colptr: &[u32], rowval: &[u32], nzval: &[f64]) -> Case {
        let n = colptr.len() as u32 - 1;
        Case {
            colptr: colptr.to_vec(),
            rowval: rowval.to_vec(),
            nzval: nzval.to_vec(),
            perm: (0..n).collect(),
            Dsigns: vec![],
            settings: Settings::Off,
            logical: false,
            edits: vec![],
            refactor: false,
            b: (1..=n).map(f64::from).collect(),
        }
    }

    pub fn perm(mut self, perm: &[u32]) -> Case {
        self.perm = perm.to_vec();
        self
    }

    pub fn signs(mut self, Dsigns: &[i8]) -> Case {
        self.Dsigns = Dsigns.to_vec();
        self
    }

    pub fn on(mut self, eps: f64, delta: f64) -> Case {
        self.settings = Settings::On { eps, delta };
        self
    }

    /// On with 01's eps and delta.
    pub fn defaults(self) -> Case {
        self.on(1e-12, 1e-7)
    }

    pub fn edits(mut self, edits: impl Into<Vec<Edit>>) -> Case {
        self.edits = edits.into();
        self
    }

    pub fn logical(mut self) -> Case {
        self.logical = true;
        self
    }

    pub fn refactor(mut self) -> Case {
        self.refactor = true;
        self
    }

    /// A logical factor and then the numeric one, so that what a zero pivot leaves can be seen.
    pub fn seen(self) -> Case {
        self.logical().refactor()
    }

    pub fn b(mut self, b: &[f64]) -> Case {
        self.b = b.to_vec();
        self
    }
}

/// The tables after the last factor; `zero` is the row of a zero pivot, `x` is empty where there is no solution.
#[derive(Clone, Debug)]
pub struct Answer {
    pub Ap: Vec<u32>,
    pub Ai: Vec<u32>,
    pub Ax: Vec<f64>,
    pub AtoPAPt: Vec<u32>,
    pub etree: Vec<u32>,
    pub Lnz: Vec<u32>,
    pub Dsigns: Vec<i8>,
    pub zero: Option<u32>,
    pub Lp: Vec<u32>,
    pub Li: Vec<u32>,
    pub Lx: Vec<f64>,
    pub D: Vec<f64>,
    pub Dinv: Vec<f64>,
    pub inertia: u32,
    pub shifts: u32,
    pub x: Vec<f64>,
}
