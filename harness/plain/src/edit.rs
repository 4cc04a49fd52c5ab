//! The three edits: "through the map, in list order, so a repeated index counts each time".

/// One edit with its lists.
#[derive(Clone, Debug)]
pub enum Edit {
    Update { indices: Vec<u32>, values: Vec<f64> },
    Scale { indices: Vec<u32>, scale: f64 },
    Offset { indices: Vec<u32>, offset: f64, signs: Vec<i8> },
}

impl Edit {
    pub fn indices(&self) -> &[u32] {
        match self {
            Edit::Update { indices, .. } | Edit::Scale { indices, .. } | Edit::Offset { indices, .. } => indices,
        }
    }

    /// "an edit's lists unequal".
    pub fn is_uneven(&self) -> bool {
        match self {
            Edit::Update { indices, values } => indices.len() != values.len(),
            Edit::Scale { .. } => false,
            Edit::Offset { indices, signs, .. } => indices.len() != signs.len(),
        }
    }

    /// "An offset sign 1 to 127 adds, -128 to -1 subtracts, 0 does nothing."
    pub fn apply(&self, AtoPAPt: &[u32], nzval: &mut [f64]) {
        for (i, &index) in self.indices().iter().enumerate() {
            let place = AtoPAPt[index as usize] as usize;
            let old = nzval[place];
            nzval[place] = match self {
                Edit::Update { values, .. } => values[i],
                Edit::Scale { scale, .. } => old * scale,
                Edit::Offset { offset, signs, .. } => match signs[i] {
                    1..=127 => old + offset,
                    -128..=-1 => old - offset,
                    0 => old,
                },
            };
        }
    }
}
