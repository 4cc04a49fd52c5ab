//! Random cases that the analysis accepts.
use crate::case::{Case, Edit};
use crate::rng::Rng;

/// Where the values of a matrix come from.
#[derive(Clone, Copy)]
pub enum Values {
    /// Heavy diagonals of either sign: the factor goes through.
    Heavy,
    /// Small halves: pivots cancel to zero often.
    Halves,
    /// Reals, with an edge of binary64 here and there.
    Edges,
}

impl Values {
    pub fn one(self, rng: &mut Rng, diagonal: bool) -> f64 {
        match self {
            Values::Heavy if diagonal => rng.pick(&[-1.0, 1.0]) * (8.0 + rng.real()),
            Values::Heavy => rng.real(),
            Values::Halves => rng.half(),
            Values::Edges if rng.once_in(4) => rng.special(),
            Values::Edges => rng.real(),
        }
    }
}

/// Each entry off the diagonal is there once in `sparse`; columns with none get their diagonal.
pub fn matrix(rng: &mut Rng, n: usize, sparse: usize, values: Values) -> Case {
    let (mut colptr, mut rowval, mut nzval) = (vec![0], vec![], vec![]);
    for c in 0..n {
        let mut rows: Vec<usize> = (0..c).filter(|_| rng.once_in(sparse)).collect();
        let left_out = !matches!(values, Values::Heavy) && !rows.is_empty() && rng.once_in(6);
        if !left_out {
            rows.push(c);
        }
        for r in rows {
            rowval.push(r as u32);
            nzval.push(values.one(rng, r == c));
        }
        colptr.push(rowval.len() as u32);
    }
    let perm = rng.ordering(n);
    let b: Vec<f64> = (0..n).map(|_| rng.half()).collect();
    Case::new(&colptr, &rowval, &nzval).perm(&perm).b(&b)
}

pub fn signs(rng: &mut Rng, n: usize) -> Vec<i8> {
    (0..n).map(|_| rng.pick(&[1, 1, 1, -1, -1, -1, 0])).collect()
}

/// Settings over and past what is sensible.
pub fn settings(rng: &mut Rng, case: Case) -> Case {
    match rng.below(4) {
        0 => case,
        1 => case.defaults(),
        2 => case.on(rng.pick(&[0.0, 1e-8, 0.5, 1.0]), rng.pick(&[1e-4, 1.0, 3.0])),
        _ => {
            let (eps, delta) = (rng.special(), rng.special());
            case.on(eps, delta)
        }
    }
}

/// A few edits, each over a few indices, which may repeat.
pub fn edits(rng: &mut Rng, m: usize, values: Values) -> Vec<Edit> {
    (0..1 + rng.below(3)).map(|_| edit(rng, m, values)).collect()
}

fn edit(rng: &mut Rng, m: usize, values: Values) -> Edit {
    let indices: Vec<u32> = (0..rng.below(5)).map(|_| rng.below(m) as u32).collect();
    let count = indices.len();
    match rng.below(3) {
        0 => Edit::Update { indices, values: (0..count).map(|_| values.one(rng, true)).collect() },
        1 => Edit::Scale { indices, scale: values.one(rng, false) },
        _ => {
            let offset = values.one(rng, false);
            let signs = (0..count).map(|_| rng.bits() as i8).collect();
            Edit::Offset { indices, offset, signs }
        }
    }
}

/// Any case of order n: signs, settings, a logical or numeric first factor, edits and a refactor, or none of these.
pub fn case(rng: &mut Rng, n: usize) -> Case {
    let sparse = 1 + rng.below(5);
    let values = rng.pick(&[Values::Heavy, Values::Halves, Values::Edges]);
    let mut case = matrix(rng, n, sparse, values);
    if rng.once_in(2) {
        case.Dsigns = signs(rng, n);
    }
    case = settings(rng, case);
    case.logical = rng.once_in(2);
    if rng.once_in(2) {
        case.edits = edits(rng, case.rowval.len(), values);
    }
    case.refactor = rng.once_in(2);
    case
}

/// Order n with m entries: the diagonals, and as many more in each column, at rows near it or anywhere above.
pub fn spread(rng: &mut Rng, n: usize, m: usize, near: bool) -> Case {
    let mut rows: Vec<Vec<u32>> = (0..n as u32).map(|c| vec![c]).collect();
    let (mut left, mut c) = (m - n, 0);
    while left > 0 {
        c = if c == 0 { n - 1 } else { c - 1 };
        let above: Vec<u32> = (0..c as u32).filter(|r| !rows[c].contains(r)).collect();
        if !above.is_empty() {
            rows[c].push(if near { above[above.len() - 1] } else { rng.pick(&above) });
            left -= 1;
        }
    }
    let mut colptr = vec![0];
    for column in &mut rows {
        column.sort_unstable();
        colptr.push(colptr[colptr.len() - 1] + column.len() as u32);
    }
    let rowval = rows.concat();
    let nzval: Vec<f64> = rowval.iter().map(|_| rng.real()).collect();
    Case::new(&colptr, &rowval, &nzval)
}
