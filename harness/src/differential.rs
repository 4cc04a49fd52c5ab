//! The archives against the original where it accepts, and against document 01's reading where something is damaged.
use crate::{
    by_face::{analyse, Reply},
    by_kernels, by_oracle,
    by_plain::{factor_tables, FLOAT, SIGN, WORD},
    case::{Answer, Case},
    faults::{to_analysis, ToAnalysis, ANALYSIS},
    random,
    rng::Rng,
    text::same,
};
use coinravel::STATUS_WORDS;
use kernels::{Columns, Scratch};
use plain::{
    refusal::{is_spoiled, L_is_spoiled},
    Factors, Permuted, MAX_M, MAX_N,
};

const LARGE: usize = 4;
const ORDER: usize = 40;

/// How many differ, how many analyses gave each number, how many factors were made, of which stopped at a zero pivot, how many damaged
/// tables of a factor were spoiled, how many values were edited, solves run and damaged L spoiled.
#[derive(Default)]
pub struct Count {
    pub differ: usize,
    pub numbers: [usize; 11],
    pub factored: usize,
    pub stopped: usize,
    pub tables_spoiled: usize,
    pub edited: usize,
    pub solved: usize,
    pub spoiled: usize,
}

/// Analyses with two faults at once, then a few of the greatest size, then random ones and the kernels.
pub fn run(seed: u64, cases: usize) -> Count {
    let (mut rng, mut count) = (Rng(seed), Count::default());
    let pairs = ANALYSIS.len() * ANALYSIS.len();
    for i in 0..cases {
        if i < pairs {
            two_faults(&mut rng, &mut count, i);
        } else if i < pairs + LARGE {
            let case = random::spread(&mut rng, MAX_N, MAX_M, i % 2 == 0);
            accepted(&mut rng, &mut count, &case);
        } else {
            let n = 1 + rng.below(ORDER);
            let case = random::case(&mut rng, n);
            match rng.below(3) {
                0 => accepted(&mut rng, &mut count, &case),
                1 => damaged(&mut rng, &mut count, &case),
                _ => by_parts(&mut rng, &mut count, case),
            }
        }
    }
    count
}

/// The words of some status, and maybe more.
fn words(rng: &mut Rng) -> Vec<u64> {
    let mut words: Vec<u64> = (0..STATUS_WORDS + rng.below(3)).map(|_| rng.bits()).collect();
    words[0] = rng.below(7) as u64;
    words
}

fn judge(count: &mut Count, lent: &ToAnalysis, words: &[u64], wanted: &Reply) {
    let got = analyse(lent, words);
    count.numbers[wanted.number as usize] += 1;
    if !got.same(wanted) {
        count.differ += 1;
        eprintln!("differs: {lent:?} {words:?}\nwanted {wanted:?}\ngot {got:?}");
    }
}

/// The words after an analysis that was not refused.
fn after(words: &[u64], n: usize, m: usize, nnzL: usize) -> Vec<u64> {
    [&[1, n as u64, m as u64, nnzL as u64, 0, 0], &words[STATUS_WORDS..]].concat()
}

fn longer<T: Copy>(table: Vec<T>, past: usize, sentinel: T) -> Vec<T> {
    [table, vec![sentinel; past]].concat()
}

/// The seven tables of the original, with what lies past them kept.
fn accepted(rng: &mut Rng, count: &mut Count, case: &Case) {
    let (past, words) = (rng.below(3), words(rng));
    let lent = ToAnalysis::of(case, past);
    let mut analysed = case.clone().logical();
    (analysed.edits, analysed.refactor) = (vec![], false);
    let theirs = by_oracle::answer(&analysed).unwrap();

    let nnzL = theirs.Lnz.iter().sum::<u32>() as usize;
    let mut out = lent.out.clone();
    out.A.Ap = longer(theirs.Ap, past, WORD);
    out.A.Ai = longer(theirs.Ai, past, WORD);
    out.A.Ax = longer(theirs.Ax, past, FLOAT);
    out.A.etree = longer(theirs.etree, past, WORD);
    out.A.Lnz = longer(theirs.Lnz, past, WORD);
    out.A.Dsigns = longer(theirs.Dsigns, past, SIGN);
    out.AtoPAPt = longer(theirs.AtoPAPt, past, WORD);
    let words_after = after(&words, case.n(), case.rowval.len(), nnzL);
    judge(count, &lent, &words, &Reply { number: 0, value: 0, words: words_after, out });
}

/// Whatever document 01 reads: a number with nothing changed, or the tables.
fn read(count: &mut Count, lent: &ToAnalysis, words: &[u64]) {
    let mut plain = lent.clone();
    let reply = if words.len() < STATUS_WORDS { Err(plain::Refusal::BadLength) } else { plain.call() };
    let (number, words_after) = match reply {
        Ok(s) => (0, after(words, s.n, s.m, s.nnzL)),
        Err(refused) => (refused.number(), words.to_vec()),
    };
    judge(count, lent, words, &Reply { number, value: 0, words: words_after, out: plain.out });
}

/// The pair of faults of the number i; the higher goes first, since the lower may cut off what it changes.
fn two_faults(rng: &mut Rng, count: &mut Count, i: usize) {
    let mut pair = [ANALYSIS[i / ANALYSIS.len()], ANALYSIS[i % ANALYSIS.len()]];
    pair.sort_by_key(|fault| std::cmp::Reverse(fault.0));
    let mut lent = to_analysis();
    pair.iter().for_each(|fault| fault.1(&mut lent));
    read(count, &lent, &words(rng));
}

/// One to three changes anywhere in what is lent.
fn damaged(rng: &mut Rng, count: &mut Count, case: &Case) {
    let mut lent = ToAnalysis::of(case, rng.below(2));
    let mut words = words(rng);
    for _ in 0..1 + rng.below(3) {
        if rng.once_in(12) {
            words.truncate(rng.below(STATUS_WORDS));
        } else {
            damage(rng, &mut lent);
        }
    }
    read(count, &lent, &words);
}

fn damage(rng: &mut Rng, lent: &mut ToAnalysis) {
    let (n, m) = (lent.A.columns, lent.A.rowval.len());
    let (A, out) = (&mut lent.A, &mut lent.out);
    match rng.below(22) {
        0 => A.rows = one_off(rng, n),
        1 => (A.rows, A.columns) = (one_off(rng, n), one_off(rng, n)),
        2 => stretch(rng, &mut A.colptr),
        3 => stretch(rng, &mut A.rowval),
        4 => stretch(rng, &mut A.nzval),
        5 => stretch(rng, &mut lent.perm),
        6 => stretch(rng, &mut lent.Dsigns),
        7 => stretch(rng, &mut out.A.Ap),
        8 => stretch(rng, &mut out.A.Ai),
        9 => stretch(rng, &mut out.A.Ax),
        10 => stretch(rng, &mut out.A.etree),
        11 => stretch(rng, &mut out.A.Lnz),
        12 => stretch(rng, &mut out.A.Dsigns),
        13 => stretch(rng, &mut out.AtoPAPt),
        14 => {
            let part = rng.below(3);
            lent.scratch.words[part] = one_off(rng, n);
        }
        15 | 16 => change(rng, &mut A.colptr, |rng| rng.below(m + 2) as u32),
        17 | 18 => change(rng, &mut A.rowval, |rng| rng.below(n + 1) as u32),
        19 => change(rng, &mut lent.perm, |rng| rng.below(n + 1) as u32),
        20 => change(rng, &mut lent.Dsigns, |rng| rng.bits() as i8),
        _ if m > 0 => A.rowval.swap(rng.below(m), rng.below(m)),
        _ => lent.Dsigns.clear(),
    }
}

fn one_off(rng: &mut Rng, n: usize) -> usize {
    rng.pick(&[n.saturating_sub(1), n, n + 1])
}

/// One shorter or one longer.
fn stretch<T: Copy + Default>(rng: &mut Rng, table: &mut Vec<T>) {
    let len = one_off(rng, table.len());
    table.resize(len, T::default());
}

fn change<T>(rng: &mut Rng, table: &mut [T], to: impl Fn(&mut Rng) -> T) {
    if !table.is_empty() {
        let place = rng.below(table.len());
        table[place] = to(rng);
    }
}

/// The factor, the edits, the refactor and the solve, each on what the original had before it, the first factor logical where the
/// numeric one stops at a zero pivot; then L damaged.
fn by_parts(rng: &mut Rng, count: &mut Count, mut case: Case) {
    let theirs = by_oracle::answer(&case).unwrap_or_else(|_| {
        case.logical = true;
        by_oracle::answer(&case).unwrap()
    });
    count.edited += case.edits.iter().map(|edit| edit.indices().len()).sum::<usize>();
    let mut agree = same(&by_kernels::edited(&case, &theirs.AtoPAPt), &theirs.Ax);

    // draws of its own: a seed gives the other parts the same cases with and without the factor
    agree &= factors(&mut Rng(rng.0), count, &case, &theirs);

    let L = Columns { Lp: &theirs.Lp, Li: &theirs.Li, Lx: &theirs.Lx };
    if !theirs.x.is_empty() {
        count.solved += 1;
        agree &= same(&by_kernels::solved(&case.perm, L, &theirs.Dinv, &case.b), &theirs.x);
    }

    let mut F = Factors { Lp: theirs.Lp, Li: theirs.Li, Lx: theirs.Lx, D: theirs.D, Dinv: theirs.Dinv };
    damage_L(rng, &mut F);
    let L = Columns { Lp: &F.Lp, Li: &F.Li, Lx: &F.Lx };
    let spoiled = L_is_spoiled(&F, case.n());
    count.spoiled += usize::from(spoiled);
    agree &= kernels::spoiled(case.n(), L) == spoiled;
    if agree && !spoiled {
        let mut x = case.b.clone();
        plain::solve::solve(&case.perm, &F.Lp, &F.Li, &F.Lx, &F.Dinv, &mut x);
        agree &= same(&by_kernels::solved(&case.perm, L, &F.Dinv, &case.b), &x);
    }
    if !agree {
        count.differ += 1;
        eprintln!("differs: {case:?} {F:?}");
    }
}

/// The factor, and the refactor after the edits, in tables with something past their needed part; then the test of what a factor
/// reads, damaged.
fn factors(rng: &mut Rng, count: &mut Count, case: &Case, theirs: &Answer) -> bool {
    let (n, nnzL, past) = (case.n(), theirs.Li.len(), rng.below(3));
    let mut F = factor_tables(n, nnzL, past);
    let mut A = permuted(theirs);
    for (&place, &value) in theirs.AtoPAPt.iter().zip(&case.nzval) {
        A.Ax[place as usize] = value;
    }
    let mut step = by_kernels::factored(&A, case.settings, case.logical, &mut F);
    if case.refactor {
        A.Ax.clone_from(&theirs.Ax);
        step = by_kernels::factored(&A, case.settings, false, &mut F);
    }
    count.factored += 1;
    count.stopped += usize::from(!step.done);
    let row = theirs.zero.map_or(n, |row| row as usize);
    let counted = (step.done, step.row, step.inertia as u32, step.shifts as u32);
    let agree = counted == (theirs.zero.is_none(), row, theirs.inertia, theirs.shifts)
        && (F.Lp, F.Li) == (longer(theirs.Lp.clone(), past, WORD), longer(theirs.Li.clone(), past, WORD))
        && same(&F.Lx, &longer(theirs.Lx.clone(), past, FLOAT))
        && same(&F.D, &longer(theirs.D.clone(), past, FLOAT))
        && same(&F.Dinv, &longer(theirs.Dinv.clone(), past, FLOAT));

    damage_A(rng, &mut A);
    let spoiled = is_spoiled(&A, A.Ai.len());
    count.tables_spoiled += usize::from(spoiled);
    agree && kernels::spoiled_factor(by_kernels::triangle(&A), &mut Scratch::of(n)) == spoiled
}

fn permuted(theirs: &Answer) -> Permuted {
    Permuted {
        Ap: theirs.Ap.clone(),
        Ai: theirs.Ai.clone(),
        Ax: theirs.Ax.clone(),
        etree: theirs.etree.clone(),
        Lnz: theirs.Lnz.clone(),
        Dsigns: theirs.Dsigns.clone(),
    }
}

fn damage_A(rng: &mut Rng, A: &mut Permuted) {
    let (n, m) = (A.etree.len(), A.Ai.len());
    match rng.below(6) {
        0 => change(rng, &mut A.Ap, |rng| rng.below(m + 2) as u32),
        1 => change(rng, &mut A.Ai, |rng| rng.below(n + 1) as u32),
        2 => change(rng, &mut A.etree, |rng| rng.below(n + 1) as u32),
        3 => change(rng, &mut A.Lnz, |rng| rng.below(n + 1) as u32),
        4 => A.Ai.swap(rng.below(m), rng.below(m)),
        _ => {}
    }
}

fn damage_L(rng: &mut Rng, F: &mut Factors) {
    let (n, nnzL) = (F.Lp.len() - 1, F.Li.len());
    match rng.below(5) {
        0 => stretch(rng, &mut F.Li),
        1 => stretch(rng, &mut F.Lx),
        2 => change(rng, &mut F.Lp, |rng| rng.below(nnzL + 2) as u32),
        _ => change(rng, &mut F.Li, |rng| rng.below(n + 1) as u32),
    }
}
