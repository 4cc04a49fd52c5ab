//! The text of the vectors: every line is a keyword, a count, and that many numbers.
use crate::case::{Answer, Case, Edit, Settings};
use std::fmt::Display;

/// One line of whole numbers.
fn whole<T: Display>(keyword: &str, numbers: &[T]) -> String {
    let mut line = format!("{keyword} {}", numbers.len());
    for number in numbers {
        line += &format!(" {number}");
    }
    line + "\n"
}

/// The bits, with one NaN for all.
pub fn canonical(x: f64) -> u64 {
    if x.is_nan() {
        0x7ff8_0000_0000_0000
    } else {
        x.to_bits()
    }
}

/// Bit for bit, with any NaN for a NaN.
pub fn same(a: &[f64], b: &[f64]) -> bool {
    a.len() == b.len() && a.iter().zip(b).all(|(&a, &b)| canonical(a) == canonical(b))
}

/// One line of f64 by their bits, any NaN as the same one.
fn bits(keyword: &str, numbers: &[f64]) -> String {
    let hex = |x: &f64| format!("{:016x}", canonical(*x));
    whole(keyword, &numbers.iter().map(hex).collect::<Vec<_>>())
}

pub fn of_case(case: &Case) -> String {
    let settings = match case.settings {
        Settings::Off => vec![],
        Settings::On { eps, delta } => vec![eps, delta],
    };
    let before = [
        whole("n", &[case.n()]),
        whole("colptr", &case.colptr),
        whole("rowval", &case.rowval),
        bits("nzval", &case.nzval),
        whole("perm", &case.perm),
        whole("Dsigns", &case.Dsigns),
        bits("settings", &settings),
        whole("logical", &[u8::from(case.logical)]),
        whole("edits", &[case.edits.len()]),
    ];
    let edits: Vec<String> = case.edits.iter().map(of_edit).collect();
    let after = [whole("refactor", &[u8::from(case.refactor)]), bits("b", &case.b)];
    before.concat() + &edits.concat() + &after.concat()
}

fn of_edit(edit: &Edit) -> String {
    let (kind, indices, values, signs): (_, _, &[f64], &[i8]) = match edit {
        Edit::Update { indices, values } => (1, indices, values, &[]),
        Edit::Scale { indices, scale } => (2, indices, &[*scale], &[]),
        Edit::Offset { indices, offset, signs } => (3, indices, &[*offset], signs),
    };
    [whole("kind", &[kind]), whole("indices", indices), bits("values", values), whole("signs", signs)].concat()
}

pub fn of_answer(answer: &Answer) -> String {
    [
        whole("Ap", &answer.Ap),
        whole("Ai", &answer.Ai),
        bits("Ax", &answer.Ax),
        whole("AtoPAPt", &answer.AtoPAPt),
        whole("etree", &answer.etree),
        whole("Lnz", &answer.Lnz),
        whole("permuted_Dsigns", &answer.Dsigns),
        whole("number", &[if answer.zero.is_some() { 14 } else { 0 }]),
        whole("row", answer.zero.as_slice()),
        whole("Lp", &answer.Lp),
        whole("Li", &answer.Li),
        bits("Lx", &answer.Lx),
        bits("D", &answer.D),
        bits("Dinv", &answer.Dinv),
        whole("positive_inertia", &[answer.inertia]),
        whole("regularize_count", &[answer.shifts]),
        bits("x", &answer.x),
    ]
    .concat()
}

/// Reads the cases back out of the vectors, and leaves each with the text of its answer.
pub fn read(vectors: &str) -> Vec<(Case, String)> {
    let mut lines = vectors.lines().filter(|line| !line.starts_with('#'));
    let count = take::<usize>(&mut lines, "vectors")[0];
    let cases = (0..count).map(|_| (read_case(&mut lines), read_answer(&mut lines))).collect();
    assert_eq!(lines.next(), None, "more lines than vectors");
    cases
}

/// A number of the text, whole or by its bits.
trait Number {
    fn read(word: &str) -> Self;
}
macro_rules! whole_number {
    ($($t:ty)*) => { $(impl Number for $t { fn read(word: &str) -> $t { word.parse().unwrap() } })* };
}
whole_number!(usize u32 i8);
impl Number for f64 {
    fn read(word: &str) -> f64 {
        f64::from_bits(u64::from_str_radix(word, 16).unwrap())
    }
}

/// The numbers of the next line, which must have this keyword and as many numbers as it says.
fn take<'a, T: Number>(lines: &mut impl Iterator<Item = &'a str>, keyword: &str) -> Vec<T> {
    let line = lines.next().unwrap();
    let words: Vec<&str> = line.split(' ').collect();
    assert_eq!(words[0], keyword, "{line}");
    assert_eq!(words[1].parse(), Ok(words.len() - 2), "{line}");
    words[2..].iter().map(|word| T::read(word)).collect()
}

fn read_case<'a>(lines: &mut impl Iterator<Item = &'a str>) -> Case {
    let n = take::<usize>(lines, "n")[0];
    let case = Case {
        colptr: take(lines, "colptr"),
        rowval: take(lines, "rowval"),
        nzval: take(lines, "nzval"),
        perm: take(lines, "perm"),
        Dsigns: take(lines, "Dsigns"),
        settings: match take(lines, "settings")[..] {
            [eps, delta] => Settings::On { eps, delta },
            _ => Settings::Off,
        },
        logical: take::<u32>(lines, "logical")[0] == 1,
        edits: (0..take::<usize>(lines, "edits")[0]).map(|_| read_edit(lines)).collect(),
        refactor: take::<u32>(lines, "refactor")[0] == 1,
        b: take(lines, "b"),
    };
    assert_eq!(case.n(), n);
    case
}

fn read_edit<'a>(lines: &mut impl Iterator<Item = &'a str>) -> Edit {
    let kind = take::<u32>(lines, "kind")[0];
    let indices = take(lines, "indices");
    let values: Vec<f64> = take(lines, "values");
    let signs = take(lines, "signs");
    match kind {
        1 => Edit::Update { indices, values },
        2 => Edit::Scale { indices, scale: values[0] },
        _ => Edit::Offset { indices, offset: values[0], signs },
    }
}

fn read_answer<'a>(lines: &mut impl Iterator<Item = &'a str>) -> String {
    let mut text = String::new();
    for line in lines {
        text += line;
        text += "\n";
        if line.starts_with("x ") {
            break;
        }
    }
    text
}
