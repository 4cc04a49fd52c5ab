//! The archives against the parts of the original that answer to them, both in one run, best of several, in turns.
use crate::{
    by_face, by_kernels, by_oracle, by_plain, by_plain::factor_tables, case::Case, faults::ToAnalysis, random, rng::Rng,
};
use kernels::{Columns, Scratch};
use oracle::qdldl::{self, QDLDLFactorisation};
use plain::{Analysis, Factors, MAX_M};
use std::{
    hint::black_box,
    time::{Duration, Instant},
};

const RUNS: usize = 40;
const LONG: Duration = Duration::from_secs(4); // where a turn takes long, fewer runs do

const ANALYSIS: &str = "\
analysis: coinravel_analyse with all its tests, in lent tables, against check_structure, _invperm, permute_symmetric and
_etree, which allocate the inverse, the reordered triangle and the map themselves
shape      n      m    L's   ours us theirs us ours/theirs";

const REFACTOR: &str = "
refactor: the pointers and the numeric factor, without and with the test of the tables, against the original's refactor
shape      n      m    L's   ours us  with us theirs us ours/theirs  with/theirs";

const SOLVE: &str = "
solve: lsolve and dltsolve, without and with the test of L, against _solve on the same factor
shape      n      m    L's   ours us  with us theirs us ours/theirs  with/theirs";

/// Prints a line for each shape and order.
pub fn run() {
    let cases = cases();
    println!("{ANALYSIS}");
    for (shape, case) in &cases {
        let (nnzL, [ours, theirs]) = analysis(case);
        println!("{}{ours:10.1}{theirs:10.1}{:10.2}", head(shape, case, nnzL), ours / theirs);
    }
    for (title, call) in [(REFACTOR, refactor as fn(&Case) -> (usize, [f64; 3])), (SOLVE, solve)] {
        println!("{title}");
        for (shape, case) in &cases {
            let (nnzL, [ours, with, theirs]) = call(case);
            let ratios = format!("{:10.2}{:10.2}", ours / theirs, with / theirs);
            println!("{}{ours:10.1}{with:10.1}{theirs:10.1}{ratios}", head(shape, case, nnzL));
        }
    }
}

fn head(shape: &str, case: &Case, nnzL: usize) -> String {
    format!("{shape:8}{:5}{:7}{nnzL:8}", case.n(), case.rowval.len())
}

/// Heavy diagonals, so that each factor goes through.
fn cases() -> Vec<(&'static str, Case)> {
    let (mut rng, mut cases) = (Rng(1), vec![]);
    for n in [500, 1_000, 2_000] {
        for (shape, m, near) in [("banded", 6 * n, true), ("sparse", 4 * n, false), ("fullest", MAX_M, false)] {
            let mut case = random::spread(&mut rng, n, m, near);
            for c in 0..n {
                case.nzval[case.colptr[c + 1] as usize - 1] = n as f64;
            }
            case.Dsigns = random::signs(&mut rng, n);
            if !near {
                case.perm = rng.ordering(n);
            }
            cases.push((shape, case));
        }
    }
    cases
}

/// The best time in microseconds of each of several, which take turns.
fn best<const K: usize>(mut turn: impl FnMut(usize) -> Duration) -> [f64; K] {
    let (mut best, start) = ([Duration::MAX; K], Instant::now());
    for run in 0..RUNS {
        for (side, best) in best.iter_mut().enumerate() {
            *best = turn(side).min(*best);
        }
        if run >= RUNS / 8 && start.elapsed() > LONG {
            break;
        }
    }
    best.map(|time| time.as_secs_f64() * 1e6)
}

fn timed<T>(work: impl FnOnce() -> T) -> (Duration, T) {
    let start = Instant::now();
    let made = black_box(work());
    (start.elapsed(), made)
}

fn analysis(case: &Case) -> (usize, [f64; 2]) {
    let n = case.n();
    let mut lent = ToAnalysis::of(case, 0);
    let mut scratch = by_face::scratch(&lent);
    let (mut words, mut value) = ([0; coinravel::STATUS_WORDS], 0);
    let (A, _) = by_oracle::lent(case);
    let perm = by_oracle::wide(&case.perm);
    let (mut work, mut Lnz, mut etree) = (vec![0; 3 * n], vec![0; n], vec![0; n]);
    let times = best(|side| {
        if side == 0 {
            let (time, number) = timed(|| by_face::call(black_box(&mut lent), &mut words, &mut value, &mut scratch));
            assert_eq!(number, 0);
            time
        } else {
            let (time, made) = timed(|| qdldl::analysis(black_box(&A), &perm, &mut work, &mut Lnz, &mut etree));
            assert!(made.is_ok());
            time
        }
    });
    (words[3] as usize, times)
}

fn refactor(case: &Case) -> (usize, [f64; 3]) {
    let n = case.n();
    let (_, Analysis { A, .. }) = by_plain::analysed(case).unwrap();
    let mut theirs = by_oracle::new(case).unwrap();
    let nnzL = theirs.nnzL();
    let (mut F, mut scratch) = (factor_tables(n, nnzL, 0), Scratch::of(n));
    assert!(by_kernels::factored(&A, case.settings, false, &mut F).done);
    let times = best(|side| {
        // Sound by the test above, of the same tables.
        let ours = |F: &mut Factors, scratch: &mut Scratch| unsafe {
            let (A, L) = (by_kernels::triangle(&A), by_kernels::tables(F));
            kernels::numeric(A, by_kernels::settings(case.settings), L, scratch)
        };
        let (time, done) = match side {
            0 => timed(|| ours(black_box(&mut F), &mut scratch).done),
            1 => timed(|| {
                assert!(!kernels::spoiled_factor(by_kernels::triangle(black_box(&A)), &mut scratch));
                ours(&mut F, &mut scratch).done
            }),
            _ => timed(|| black_box(&mut theirs).refactor().is_ok()),
        };
        assert!(done);
        time
    });
    (nnzL, times)
}

fn solve(case: &Case) -> (usize, [f64; 3]) {
    let n = case.n();
    let (A, opts) = by_oracle::lent(case);
    let F = QDLDLFactorisation::new(&A, Some(opts)).unwrap();
    let (Lp, Li) = (by_oracle::narrow(&F.L.colptr), by_oracle::narrow(&F.L.rowval));
    let L = Columns { Lp: &Lp, Li: &Li, Lx: &F.L.nzval };
    assert!(L.Lp.len() == n + 1 && !kernels::spoiled(n, L) && F.Dinv.len() == n);
    let mut x = vec![0.0; n];
    let times = best(|side| {
        x.copy_from_slice(&case.b);
        let x = black_box(&mut x[..]);
        // Sound by the test above.
        let ours = |x: &mut [f64]| unsafe {
            kernels::lsolve(L, x);
            kernels::dltsolve(L, &F.Dinv, x);
        };
        match side {
            0 => timed(|| ours(x)).0,
            1 => {
                timed(|| {
                    assert!(!kernels::spoiled(n, L));
                    ours(x);
                })
                .0
            }
            _ => timed(|| qdldl::triangular_solves(&F.L, &F.Dinv, x)).0,
        }
    });
    (F.nnzL(), times)
}
