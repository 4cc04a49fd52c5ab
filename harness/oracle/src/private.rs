//! The tables that the crate keeps private, read off its derived Debug text, which is exact for f64.
use crate::qdldl::QDLDLFactorisation;
use std::{fmt::Debug, str::FromStr};

#[derive(Debug, Clone, PartialEq)]
pub struct Private {
    pub iperm: Vec<usize>,
    pub etree: Vec<usize>,
    pub Lnz: Vec<usize>,
    pub colptr: Vec<usize>,
    pub rowval: Vec<usize>,
    pub nzval: Vec<f64>,
    pub AtoPAPt: Vec<usize>,
    pub Dsigns: Vec<i8>,
}

impl Private {
    pub fn of(factors: &QDLDLFactorisation<f64>) -> Private {
        let text = format!("{factors:?}");
        let workspace = after(&text, "workspace: ");
        let triuA = after(workspace, "triuA: "); // L has fields of the same names
        Private {
            iperm: list(&text, "iperm"),
            etree: list(workspace, "etree"),
            Lnz: list(workspace, "Lnz"),
            colptr: list(triuA, "colptr"),
            rowval: list(triuA, "rowval"),
            nzval: list(triuA, "nzval"),
            AtoPAPt: list(workspace, "AtoPAPt"),
            Dsigns: list(workspace, "Dsigns"),
        }
    }
}

fn after<'a>(text: &'a str, key: &str) -> &'a str {
    text.split_once(key).unwrap().1
}

fn list<T: FromStr<Err: Debug>>(text: &str, name: &str) -> Vec<T> {
    let items = after(text, &format!(" {name}: [")).split_once(']').unwrap().0;
    items.split(", ").filter(|x| !x.is_empty()).map(|x| x.parse().unwrap()).collect()
}
