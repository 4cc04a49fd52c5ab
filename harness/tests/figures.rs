//! The figures of document 01, typed from it, on both readings.
#![allow(non_snake_case)]

use harness::by_plain;
use harness::case::{Answer, Case};
use plain::{analysis, order, refactor, Kind, Matrix, Scratch, Settings, MAX_M, MAX_N, NONE};

/// The plain reading's answer, after the original has given the same.
fn both(case: &Case) -> Answer {
    let ours = by_plain::answer(case).unwrap();
    #[cfg(qdldl)]
    {
        use harness::{by_oracle, text::of_answer};
        assert_eq!(of_answer(&by_oracle::answer(case).unwrap()), of_answer(&ours));
    }
    ours
}

#[cfg(not(qdldl))]
#[test]
fn skipped() {
    let figures = include_str!("figures.rs").lines().filter(|line| line.starts_with("    let a = both(")).count();
    harness::skip(figures, "figures on the original");
}

fn arrow() -> Case {
    Case::new(&[0, 1, 3, 5], &[0, 0, 1, 0, 2], &[4.0, 1.0, 3.0, 2.0, 5.0])
}

fn two(a: f64, b: f64, c: f64) -> Case {
    Case::new(&[0, 1, 3], &[0, 0, 1], &[a, b, c])
}

fn one(a: f64) -> Case {
    Case::new(&[0, 1], &[0], &[a])
}

fn refused(case: &Case) -> u32 {
    by_plain::analysed(case).err().map_or(0, |refused| refused.number())
}

#[test]
fn arrow_in_its_own_order() {
    let a = both(&arrow());
    assert_eq!(a.etree, [1, 2, NONE]);
    assert_eq!(a.Lnz, [2, 1, 0]);
    assert_eq!((a.Lp, a.Li), (vec![0, 2, 3, 3], vec![1, 2, 2]));
}

#[test]
fn arrow_turned_round() {
    let a = both(&arrow().perm(&[2, 1, 0]));
    assert_eq!(a.Ap, [0, 1, 2, 5]);
    assert_eq!(a.Ai, [0, 1, 2, 1, 0]);
    assert_eq!(a.AtoPAPt, [2, 3, 1, 4, 0]);
    assert_eq!(a.etree, [2, 2, NONE]);
    assert_eq!(a.Lnz, [1, 1, 0]);
}

#[test]
fn orderings() {
    assert_eq!(refused(&two(4.0, 2.0, 3.0).perm(&[1, 1])), 9);
    assert_eq!(refused(&two(4.0, 2.0, 3.0).perm(&[0, 0])), 9);
    assert_eq!(order::invperm(&[2, 0, 1]), [1, 2, 0]);
}

#[test]
fn order_1_and_order_0() {
    let a = both(&one(3.0));
    assert_eq!((a.etree, a.Lnz), (vec![NONE], vec![0]));
    assert_eq!(refused(&Case::new(&[0], &[], &[])), 3);
}

#[test]
fn two_by_three_with_a_bad_ordering() {
    let A = Matrix { rows: 2, columns: 3, colptr: vec![0, 1, 2, 3], rowval: vec![0, 1, 1], nzval: vec![1.0; 3] };
    let mut out = by_plain::analysis_tables(3, 3, 0);
    assert_eq!(analysis(&A, &[1, 1], &[], &mut out, &Scratch::of(3)).unwrap_err().number(), 2);
}

#[test]
fn four_two_three() {
    let a = both(&two(4.0, 2.0, 3.0).b(&[6.0, 5.0]));
    assert_eq!((a.Lx, a.D), (vec![0.5], vec![4.0, 2.0]));
    assert_eq!((a.x, a.inertia), (vec![1.0, 1.0], 2));
}

#[test]
fn one_one_minus_one() {
    let a = both(&two(1.0, 1.0, -1.0).signs(&[1, -1]).defaults());
    assert_eq!((a.D, a.inertia, a.shifts), (vec![1.0, -2.0], 1, 0));
    let a = both(&two(1.0, 1.0, -1.0).defaults());
    assert_eq!((a.D, a.inertia, a.shifts), (vec![1.0, 1e-7], 2, 1));
}

#[test]
fn one_one_one_is_refused_at_row_1() {
    let a = both(&two(1.0, 1.0, 1.0).seen());
    assert_eq!((a.zero, a.Li, a.Lx), (Some(1), vec![1], vec![1.0]));
    assert_eq!((a.D, a.Dinv, a.inertia), (vec![1.0, 0.0], vec![1.0, 1.0], 0));
}

/// The same straight after the analysis: what is kept is what the tables held before.
#[test]
fn a_zero_pivot_cell_by_cell() {
    // [2 2 2; . 2 2; . . 2]: row 1 cancels, row 2 is never reached.
    let case = Case::new(&[0, 1, 3, 6], &[0, 0, 1, 0, 1, 2], &[2.0; 6]);
    let (status, tables) = by_plain::analysed(&case).unwrap();
    let mut F = by_plain::factor_tables(3, 3, 1);
    let (status, reply) = refactor(status, &tables.A, Settings::Off, &mut F, &Scratch::of(3));
    let (word, float) = (by_plain::WORD, by_plain::FLOAT);
    assert_eq!(reply.unwrap_err().value(), Some(1));
    assert_eq!((status.kind, status.nnzL, status.inertia, status.shifts), (Kind::Failed, 3, 0, 0));
    assert_eq!(F.Lp, [0, 2, 3, 3, word]);
    assert_eq!(F.Li, [1, word, word, word]);
    assert_eq!(F.Lx, [1.0, float, float, float]);
    assert_eq!(F.D, [2.0, 0.0, 0.0, float]);
    assert_eq!(F.Dinv, [0.5, float, float, float]);
    let (_, reply) = refactor(status, &tables.A, Settings::On { eps: 1.0, delta: 1.0 }, &mut F, &Scratch::of(3));
    assert_eq!(reply, Ok(()));
}

#[test]
fn eps_is_strict() {
    let a = both(&one(1e-12).defaults());
    assert_eq!((a.D, a.shifts), (vec![1e-12], 0));
    let a = both(&one(1e-12f64.next_down()).defaults());
    assert_eq!((a.D, a.shifts), (vec![1e-7], 1));
    let a = both(&one(-0.0).seen());
    assert_eq!((a.zero, a.D[0].to_bits()), (Some(0), 1 << 63));
}

#[test]
fn sign_0_is_not_harmless() {
    let a = both(&one(4.0).signs(&[0]).defaults().seen());
    assert_eq!((a.zero, a.shifts), (Some(0), 1));
    let a = both(&one(f64::INFINITY).signs(&[0]).defaults().seen());
    assert_eq!((a.zero, a.shifts), (None, 0));
}

#[test]
fn logical_is_not_D_all_ones() {
    let a = both(&two(4.0, 2.0, 3.0).logical());
    assert_eq!((a.D, a.Dinv, a.Lx), (vec![0.0, 3.0], vec![1.0, 1.0], vec![1.0]));
    assert_eq!((a.inertia, a.shifts, a.x), (0, 0, vec![]));
}

/// Entries 1, 0, 2 of column 3 make three paths, run as 2, 0, 1; a star in its own order runs as 2, 1, 0.
#[test]
fn a_row_is_not_visited_in_rising_order() {
    assert_eq!(plain::factor::columns_of_row(3, &[1, 0, 2], &[3, 3, 3, NONE]), [2, 0, 1]);
    assert_eq!(plain::factor::columns_of_row(3, &[1, 0, 2], &[1, 2, 3, NONE]), [0, 1, 2]);
    let star = Case::new(&[0, 1, 2, 3, 7], &[0, 1, 2, 0, 1, 2, 3], &[1.0, 1.0, 1.0, 1e8, 1.0, 1.0, 1e16]);
    let a = both(&star.seen());
    let rising = 1e16 - 1e8 * 1e8 - 1.0 - 1.0;
    let latest_first = 1e16 - 1.0 - 1.0 - 1e8 * 1e8;
    assert_eq!(a.D[3], latest_first);
    assert_ne!(rising, latest_first);
}

/// A band of at most 41 entries a column, filled from the left until m entries stand.
fn wide(n: usize, m: usize) -> Case {
    let mut left = m - n;
    let (mut colptr, mut rowval) = (vec![0], vec![]);
    for c in 0..n {
        let above = c.min(left).min(40);
        left -= above;
        rowval.extend((c - above..=c).map(|r| r as u32));
        colptr.push(rowval.len() as u32);
    }
    assert_eq!(left, 0);
    Case::new(&colptr, &rowval, &vec![1.0; m])
}

#[test]
fn the_limits() {
    assert_eq!((MAX_N, MAX_M), (2_048, 65_536));
    assert_eq!(refused(&wide(2_048, 65_536)), 0);
    assert_eq!(refused(&wide(2_049, 65_536)), 3);
    assert_eq!(refused(&wide(2_048, 65_537)), 3);
}
