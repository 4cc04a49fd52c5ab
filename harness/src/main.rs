//! `vectors` prints the fixed list of cases with the original's answers, `differential` runs the archives against both readings,
//! and `benchmark` times them against the original.
use harness::list;

fn main() {
    let words: Vec<String> = std::env::args().skip(1).collect();
    let words: Vec<&str> = words.iter().map(String::as_str).collect();
    match words[..] {
        ["vectors"] => vectors(),
        ["differential", "--seed", seed, "--cases", cases] => match (seed.parse(), cases.parse()) {
            (Ok(seed), Ok(cases)) => differential(seed, cases),
            _ => usage(),
        },
        ["benchmark"] => benchmark(),
        _ => usage(),
    }
}

fn usage() {
    eprintln!("usage: cargo run --release --offline -- vectors | differential --seed S --cases N | benchmark");
    std::process::exit(2);
}

#[cfg(qdldl)]
fn vectors() {
    print!("{}", list::vectors(|case| harness::by_oracle::answer(case).unwrap()));
}

#[cfg(not(qdldl))]
fn vectors() {
    harness::skip(list::cases().len(), "vectors");
    std::process::exit(1);
}

#[cfg(all(archive, qdldl))]
fn differential(seed: u64, cases: usize) {
    let count = harness::differential::run(seed, cases);
    println!("analyses by their numbers 0 to 10: {:?}", count.numbers);
    println!("factors: {}, stopped: {}, spoiled tables: {}", count.factored, count.stopped, count.tables_spoiled);
    println!("values edited: {}, solves: {}, spoiled L: {}", count.edited, count.solved, count.spoiled);
    println!("{cases} compared, {} differ", count.differ);
    std::process::exit(i32::from(count.differ > 0));
}

#[cfg(not(all(archive, qdldl)))]
fn differential(_seed: u64, cases: usize) {
    harness::skip_either(cases, "cases");
    std::process::exit(1);
}

#[cfg(all(archive, qdldl))]
fn benchmark() {
    harness::benchmark::run();
}

#[cfg(not(all(archive, qdldl)))]
fn benchmark() {
    harness::skip_either(9, "timings");
    std::process::exit(1);
}
