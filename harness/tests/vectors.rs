//! vectors.txt, made anew by the original and answered by document 01's reading.
use harness::{by_plain, list, text};

const VECTORS: &str = include_str!("../vectors.txt");

fn same(made: &str) {
    for (i, (made, kept)) in made.lines().zip(VECTORS.lines()).enumerate() {
        assert_eq!(made, kept, "line {}", i + 1);
    }
    assert_eq!(made.len(), VECTORS.len());
}

#[cfg(qdldl)]
#[test]
fn the_original_reproduces_the_file() {
    same(&list::vectors(|case| harness::by_oracle::answer(case).unwrap()));
}

#[cfg(not(qdldl))]
#[test]
fn the_original_reproduces_the_file() {
    harness::skip(list::cases().len(), "vectors to make anew");
}

#[test]
fn the_second_reading_reproduces_the_file() {
    same(&list::vectors(|case| by_plain::answer(case).unwrap()));
}

#[test]
fn the_second_reading_answers_what_is_read_from_the_file() {
    for (i, (case, answer)) in text::read(VECTORS).iter().enumerate() {
        let ours = by_plain::answer(case).unwrap();
        assert_eq!(text::of_answer(&ours), *answer, "vector {i}: {case:?}");
    }
}

#[test]
fn the_vectors_cover_what_they_are_for() {
    let cases = text::read(VECTORS);
    assert!(cases.len() >= 150);
    let lines = |start: &str| cases.iter().filter(|(_, answer)| answer.lines().any(|l| l.starts_with(start))).count();
    assert!((1..=12).all(|n| cases.iter().any(|(case, _)| case.n() == n)));
    assert!(lines("number 1 14") >= 30);
    assert!((0..3).all(|row| lines(&format!("row 1 {row}")) >= 1));
    assert!(lines("regularize_count 1 0") < cases.len() - 30);
    assert!(lines("x 0") < cases.len() / 2);
    assert!(VECTORS.len() < 250_000);
}
