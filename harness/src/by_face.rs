//! The analysis answered by the proved archive.
use crate::{by_plain::WORD, faults::ToAnalysis, text::same};
use coinravel::{Matrix, Tables};
use plain::Analysis;

/// The number, the value, the words of the status, and the tables afterwards.
#[derive(Clone, Debug)]
pub struct Reply {
    pub number: u32,
    pub value: u64,
    pub words: Vec<u64>,
    pub out: Analysis,
}

impl Reply {
    /// Bit for bit, with any NaN for a NaN.
    pub fn same(&self, other: &Reply) -> bool {
        let (a, b) = (&self.out, &other.out);
        (self.number, self.value, &self.words) == (other.number, other.value, &other.words)
            && (&a.A.Ap, &a.A.Ai, &a.AtoPAPt) == (&b.A.Ap, &b.A.Ai, &b.AtoPAPt)
            && same(&a.A.Ax, &b.A.Ax)
            && (&a.A.etree, &a.A.Lnz, &a.A.Dsigns) == (&b.A.etree, &b.A.Lnz, &b.A.Dsigns)
    }
}

/// The call in place.
pub fn call(lent: &mut ToAnalysis, words: &mut [u64], value: &mut u64, scratch: &mut [Vec<u32>; 3]) -> u32 {
    let A = Matrix {
        rows: lent.A.rows,
        columns: lent.A.columns,
        colptr: &lent.A.colptr,
        rowval: &lent.A.rowval,
        nzval: &lent.A.nzval,
    };
    let out = Tables {
        Ap: &mut lent.out.A.Ap,
        Ai: &mut lent.out.A.Ai,
        Ax: &mut lent.out.A.Ax,
        AtoPAPt: &mut lent.out.AtoPAPt,
        etree: &mut lent.out.A.etree,
        Lnz: &mut lent.out.A.Lnz,
        Dsigns: &mut lent.out.A.Dsigns,
    };
    let [iperm, next, work] = scratch;
    coinravel::analyse(words, value, A, &lent.perm, &lent.Dsigns, out, [iperm, next, work])
}

/// Scratch that holds anything.
pub fn scratch(lent: &ToAnalysis) -> [Vec<u32>; 3] {
    lent.scratch.words.map(|len| vec![WORD; len])
}

/// The call on a copy, from any words of a status.
pub fn analyse(lent: &ToAnalysis, words: &[u64]) -> Reply {
    let (mut after, mut words, mut value) = (lent.clone(), words.to_vec(), u64::from(WORD));
    let number = call(&mut after, &mut words, &mut value, &mut scratch(lent));
    Reply { number, value, words, out: after.out }
}
