//! The archives against both readings, a fixed part of `differential`.
const CASES: usize = 6_000;

#[cfg(not(all(archive, qdldl)))]
#[test]
fn the_archives_agree() {
    harness::skip_either(CASES, "calls of the archives");
}

#[cfg(all(archive, qdldl))]
#[test]
fn the_archives_agree() {
    let count = harness::differential::run(1, CASES);
    assert_eq!(count.differ, 0);
    assert!((0..11).all(|number| number == 1 || count.numbers[number] >= 10), "{:?}", count.numbers);
    let some = [count.factored, count.tables_spoiled, count.edited, count.solved, count.spoiled];
    assert!(some.iter().all(|&some| some >= 500) && count.stopped >= 50, "{some:?}, stopped: {}", count.stopped);
}
