//! The original against document 01's reading, on random matrices by fixed seeds.
#![allow(non_snake_case)]

const SMALL: usize = 6_000;
const LARGER: usize = 300;
const UNSORTED: usize = 6_000;

#[cfg(not(qdldl))]
#[test]
fn skipped() {
    harness::skip(SMALL + LARGER + UNSORTED, "random matrices");
}

#[cfg(qdldl)]
mod compared {
    use super::*;
    use harness::{by_oracle, by_plain, case::Case, random, rng::Rng, text};
    use oracle::qdldl::QDLDLError;

    /// Every table, count and solution, or the same zero pivot.
    fn compare(rng: &mut Rng, cases: usize, order: fn(&mut Rng) -> usize) {
        let (mut zeros, mut unseen, mut solved) = (0, 0, 0);
        for i in 0..cases {
            let n = order(rng);
            let mut case = random::case(rng, n);
            let mut theirs = by_oracle::answer(&case);
            if let Err(QDLDLError::ZeroPivot) = theirs {
                unseen += 1;
                (case.edits, case.refactor) = (vec![], false);
                assert!(by_plain::answer(&case).unwrap().zero.is_some(), "case {i}: {case:?}");
                case = case.seen();
                theirs = by_oracle::answer(&case);
            }
            let (theirs, ours) = (theirs.unwrap(), by_plain::answer(&case).unwrap());
            assert_eq!(text::of_answer(&theirs), text::of_answer(&ours), "case {i}: {case:?}");
            zeros += usize::from(ours.zero.is_some());
            solved += usize::from(!ours.x.is_empty());
        }
        assert!(zeros > cases / 20 && unseen > cases / 50 && solved > cases / 3, "{zeros} {unseen} {solved}");
    }

    #[test]
    fn small_cases_agree() {
        compare(&mut Rng(1), SMALL, |rng| 1 + rng.below(12));
    }

    #[test]
    fn larger_cases_agree() {
        compare(&mut Rng(3), LARGER, |rng| 13 + rng.below(60));
    }

    /// Columns unsorted and with repeats, which the crate takes and 01 refuses 8, are still the same to the factor.
    #[test]
    fn unsorted_and_repeated_rows_agree() {
        let mut rng = Rng(2);
        let mut refused = 0;
        for i in 0..UNSORTED {
            let n = 1 + rng.below(8);
            let (mut colptr, mut rowval, mut nzval) = (vec![0], vec![], vec![]);
            for c in 0..n {
                for _ in 0..1 + rng.below(c + 2) {
                    rowval.push(rng.below(c + 1) as u32);
                    nzval.push(rng.half());
                }
                colptr.push(rowval.len() as u32);
            }
            let perm = rng.ordering(n);
            let case = random::settings(&mut rng, Case::new(&colptr, &rowval, &nzval).perm(&perm).seen());
            let theirs = by_oracle::answer(&case).unwrap();

            refused += usize::from(by_plain::analysed(&case).is_err());
            let iperm = plain::order::invperm(&perm);
            let new = plain::order::permute_symmetric(&colptr, &rowval, &nzval, &iperm);
            let struck = plain::strike::strike(&new.Ap, &new.Ai);
            let (m, nnzL) = (rowval.len(), struck.rows.concat().len());
            let status = plain::Status { kind: plain::Kind::Analysed, n, m, nnzL, inertia: 0, shifts: 0 };
            let A = plain::Permuted {
                Ap: new.Ap,
                Ai: new.Ai,
                Ax: new.Ax,
                etree: struck.etree,
                Lnz: struck.Lnz,
                Dsigns: vec![1; n],
            };
            let ours = by_plain::answer_from(&case, status, plain::Analysis { A, AtoPAPt: new.AtoPAPt });
            assert_eq!(text::of_answer(&theirs), text::of_answer(&ours), "case {i}: {case:?}");
        }
        assert!(refused > UNSORTED / 2, "{refused}");
    }
}
