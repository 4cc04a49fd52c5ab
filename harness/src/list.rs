//! The fixed list of cases behind vectors.txt.
use crate::case::{Answer, Case, Edit};
use crate::random::{edits, matrix, settings, signs, Values};
use crate::rng::{Rng, SPECIAL};
use crate::text;

const HEAD: &str = "\
# Cases and the answers of qdldl.rs (clarabel 0.11.1); made by `cargo run --release --offline -- vectors` in harness/,
# the random ones by a generator of its own with a fixed seed.
# A line is a keyword, a count, and that many numbers: whole ones in decimal, f64 as the 16 hex digits of its bits, any NaN
# as 7ff8000000000000. First the number of vectors. A vector is always the lines below, in this order.
#   n colptr rowval nzval perm   the upper triangle and the ordering
#   Dsigns                       none, or n
#   settings                     none for off, or eps and delta
#   logical                      1 where the first factor is logical
#   edits                        how many; for each of them four lines: kind (1 update, 2 scale, 3 offset), indices,
#                                values (one an index, the scale, or the offset), signs (of an offset)
#   refactor                     1 where a refactor follows the edits
#   b                            the right side
#   Ap Ai Ax AtoPAPt etree Lnz permuted_Dsigns   the analysis, Ax with the edits; 4294967295 is no parent
#   number row                   0, or 14 and its row, of the last factor
#   Lp Li Lx D Dinv positive_inertia regularize_count   what it left; x the solution, none after 14 or a logical factor
# Where the number is 14 the first factor was another one (logical, or before the edits), since the crate's `new` then
# hands nothing back: what is kept in Lx and Dinv is that factor's. positive_inertia is then 0 as document 01 has it; the
# crate shows the old one.
";

/// The whole text of vectors.txt, by whoever answers.
pub fn vectors(answer: impl Fn(&Case) -> Answer) -> String {
    let cases = cases();
    let text: Vec<String> = cases.iter().map(|case| text::of_case(case) + &text::of_answer(&answer(case))).collect();
    format!("{HEAD}vectors 1 {}\n{}", cases.len(), text.concat())
}

pub fn cases() -> Vec<Case> {
    let rng = &mut Rng(20_110);
    [figures(), orders(), pivots(), edges(rng), edited(rng), zeros(), sizes(rng)].concat()
}

fn arrow() -> Case {
    Case::new(&[0, 1, 3, 5], &[0, 0, 1, 0, 2], &[4.0, 1.0, 3.0, 2.0, 5.0])
}

fn two(a: f64, b: f64, c: f64) -> Case {
    Case::new(&[0, 1, 3], &[0, 0, 1], &[a, b, c])
}

fn one(a: f64) -> Case {
    Case::new(&[0, 1], &[0], &[a])
}

fn full() -> Case {
    Case::new(&[0, 1, 3, 6], &[0, 0, 1, 0, 1, 2], &[4.0, 1.0, -3.0, 0.5, 2.0, 6.0])
}

/// Document 01's figures.
fn figures() -> Vec<Case> {
    vec![
        arrow(),
        arrow().perm(&[2, 1, 0]),
        arrow().perm(&[2, 0, 1]),
        one(3.0),
        two(4.0, 2.0, 3.0).b(&[6.0, 5.0]),
        two(1.0, 1.0, -1.0).signs(&[1, -1]).defaults(),
        two(1.0, 1.0, -1.0).defaults(),
        two(1.0, 1.0, 1.0).seen(),
        one(1e-12).defaults(),
        one(1e-12f64.next_down()).defaults(),
        one(-0.0).seen(),
        one(5.0).signs(&[0]).defaults().seen(),
        arrow().logical(),
    ]
}

/// Every ordering of some matrices of order 2 and 3, and every pattern of order 3 in some ordering.
fn orders() -> Vec<Case> {
    let two_orders: [&[u32]; 2] = [&[0, 1], &[1, 0]];
    let three_orders: [&[u32]; 6] = [&[0, 1, 2], &[0, 2, 1], &[1, 0, 2], &[1, 2, 0], &[2, 0, 1], &[2, 1, 0]];
    let mut cases = vec![];
    for perm in two_orders {
        cases.push(two(4.0, 1.0, 3.0).perm(perm).signs(&[-1, 1]).on(1.0, 2.0));
        cases.push(Case::new(&[0, 1, 2], &[0, 0], &[4.0, 2.0]).perm(perm).seen());
        cases.push(Case::new(&[0, 1, 2], &[0, 1], &[4.0, -2.0]).perm(perm));
    }
    for perm in three_orders {
        cases.push(arrow().perm(perm).signs(&[1, 0, -1]).on(-10.0, 1.0));
        cases.push(full().perm(perm).b(&[0.1, 0.2, 0.3]));
    }
    let patterns = (1..4).flat_map(|second| (1..8).map(move |third| (second, third)));
    for ((second, third), perm) in patterns.zip(three_orders.iter().cycle()) {
        let second: Vec<u32> = (0..2).filter(|r| second >> r & 1 == 1).collect();
        let third: Vec<u32> = (0..3).filter(|r| third >> r & 1 == 1).collect();
        let rowval = [vec![0], second.clone(), third].concat();
        let colptr = [0, 1, 1 + second.len() as u32, rowval.len() as u32];
        let nzval: Vec<f64> = (0..rowval.len()).map(|p| 2.0 + p as f64).collect();
        cases.push(Case::new(&colptr, &rowval, &nzval).perm(perm).seen());
    }
    cases
}

/// Signs and settings on both sides of every comparison.
fn pivots() -> Vec<Case> {
    let inf = f64::INFINITY;
    let settings = [
        (0.0, 1.0),
        (-0.0, 1.0),
        (1.0, 0.0),
        (1.0, -0.0),
        (1.0, -2.0),
        (-1.0, 1.0),
        (inf, 1.0),
        (inf, inf),
        (-inf, 1.0),
        (inf, -inf),
        (f64::NAN, 1.0),
        (1.0, f64::NAN),
        (inf, f64::NAN),
        (5e-324, 5e-324),
        (f64::MAX, f64::MIN_POSITIVE),
    ];
    let mut cases = vec![];
    for (eps, delta) in settings {
        cases.push(two(0.5, 0.25, -0.5).signs(&[1, -1]).on(eps, delta).seen());
        cases.push(full().signs(&[-1, 0, 1]).perm(&[2, 0, 1]).on(eps, delta).seen());
    }
    for value in [inf, -inf, f64::NAN] {
        cases.push(one(value).signs(&[0]).defaults());
    }
    cases
}

/// Each edge of binary64 as a diagonal, beside it, and in the right side.
fn edges(rng: &mut Rng) -> Vec<Case> {
    let mut cases = vec![];
    for x in SPECIAL {
        cases.push(two(x, 1.0, 2.0).b(&[1.0, rng.special()]).seen());
        let edit = Edit::Update { indices: vec![3], values: vec![x] };
        cases.push(full().perm(&rng.ordering(3)).edits([edit]).refactor());
    }
    cases
}

/// Edits with repeated indices and every kind of sign, with and without the refactor.
fn edited(rng: &mut Rng) -> Vec<Case> {
    let update = Edit::Update { indices: vec![4, 1, 4], values: vec![9.0, 0.5, 7.0] };
    let scale = Edit::Scale { indices: vec![2, 0, 2], scale: -1.5 };
    let signs = vec![1, -1, 127, -128, 0, 2, -2];
    let offset = Edit::Offset { indices: vec![0, 1, 2, 3, 4, 2, 2], offset: 0.1, signs };
    let nothing = Edit::Scale { indices: vec![], scale: 2.0 };
    let mut cases = vec![
        arrow().edits([update.clone()]).refactor(),
        arrow().edits([update.clone()]),
        arrow().edits([scale.clone()]).refactor(),
        arrow().edits([offset.clone()]).refactor(),
        arrow().edits([offset.clone()]).logical(),
        arrow().edits([nothing]).refactor(),
        arrow().perm(&[2, 1, 0]).edits([update.clone(), scale.clone(), offset.clone()]).refactor(),
        arrow().perm(&[1, 2, 0]).edits([offset, update, scale]).seen(),
    ];
    for n in 4..12 {
        let case = matrix(rng, n, 3, Values::Heavy);
        let edits = edits(rng, case.rowval.len(), Values::Heavy);
        cases.push(case.edits(edits).refactor());
    }
    cases
}

/// Zero pivots of either sign at each row, after a logical factor and after a numeric one.
fn zeros() -> Vec<Case> {
    let zero = |index, value| Edit::Update { indices: vec![index], values: vec![value] };
    let mut cases = vec![one(0.0).seen(), one(0.0).on(1.0, -0.0).seen(), one(0.0).logical()];
    for value in [0.0, -0.0] {
        for index in [0, 2, 4] {
            let diagonal = Case::new(&[0, 1, 3, 5], &[0, 0, 1, 0, 2], &[2.0, 0.0, 3.0, 0.0, 5.0]);
            cases.push(diagonal.edits([zero(index, value)]).refactor());
        }
    }
    let square = |nzval| Case::new(&[0, 1, 3, 6], &[0, 0, 1, 0, 1, 2], nzval);
    cases.push(square(&[4.0, 2.0, 1.0, 1.0, 3.0, 9.0]).seen()); // 1 - 2*2/4 at row 1
    cases.push(square(&[4.0, 2.0, 5.0, 2.0, 3.0, 2.0]).seen()); // 2 - 2*2/4 - 2*2/4 at row 2
    cases.push(square(&[4.0, 2.0, 5.0, 2.0, 3.0, 3.0]).edits([zero(5, 2.0)]).refactor());
    cases.push(square(&[1.0; 6]).on(0.0, 0.5).seen()); // zeros are not below an eps of 0
    cases
}

/// Orders up to 12, sparse and full.
fn sizes(rng: &mut Rng) -> Vec<Case> {
    let mut cases = vec![];
    for n in 1..=12 {
        cases.push(matrix(rng, n, 2, Values::Heavy));
        for (sparse, values) in [(3, Values::Halves), (4, Values::Edges)] {
            let case = matrix(rng, n, sparse, values).seen();
            cases.push(settings(rng, case));
        }
        let case = matrix(rng, n, 4, Values::Halves).seen();
        let signs = signs(rng, n);
        cases.push(settings(rng, case.signs(&signs)));
    }
    for n in [5, 8] {
        cases.push(matrix(rng, n, 1, Values::Heavy));
    }
    cases
}
