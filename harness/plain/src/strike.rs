//! Striking out the unknowns one by one on a table of who is joined to whom; no elimination tree is used.
use crate::desk::{column, NONE};

/// What striking out shows: parents, counts, and the rows of each column of L.
pub struct Struck {
    pub etree: Vec<u32>,
    pub Lnz: Vec<u32>,
    pub rows: Vec<Vec<u32>>,
}

/// "The parent of i is the least later unknown joined to i when i goes"; those joined then become joined to each other.
pub fn strike(Ap: &[u32], Ai: &[u32]) -> Struck {
    let n = Ap.len() - 1;
    let mut joined = vec![vec![false; n]; n];
    for c in 0..n {
        for p in column(Ap, c) {
            let r = Ai[p] as usize;
            joined[r][c] = true;
            joined[c][r] = true;
        }
    }

    let mut rows = vec![];
    for i in 0..n {
        let later: Vec<usize> = (i + 1..n).filter(|&j| joined[i][j]).collect();
        for &a in &later {
            for &b in &later {
                joined[a][b] = true;
            }
        }
        rows.push(later.iter().map(|&j| j as u32).collect::<Vec<u32>>());
    }
    Struck {
        etree: rows.iter().map(|later| later.first().copied().unwrap_or(NONE)).collect(),
        Lnz: rows.iter().map(|later| later.len() as u32).collect(),
        rows,
    }
}
