//! The same work as someone would write it first: a weight is a struct, a matrix a vector of rows, j outside and k inside, no
//! checks on entries.

#[derive(Clone, Copy, PartialEq, Eq, Debug)]
pub enum Kind {
    Dist,
    Width(u32),
    Class(u32),
}

#[derive(Clone, Copy, PartialEq, Eq, Debug)]
pub struct Weight {
    pub route: bool,
    pub values: [u32; 4],
}

pub const NONE: Weight = Weight {
    route: false,
    values: [0; 4],
};

pub type Matrix = Vec<Vec<Weight>>;

/// A table's entry: a weight and t.
pub type Entry = (Weight, u32);

pub struct Language {
    pub kinds: Vec<Kind>,
}

impl Language {
    fn unit(&self) -> Weight {
        let mut values = [0; 4];
        for (value, kind) in values.iter_mut().zip(&self.kinds) {
            if let Kind::Width(limit) = kind {
                *value = *limit;
            }
        }
        Weight {
            route: true,
            values,
        }
    }

    fn join(&self, x: &Weight, y: &Weight) -> Weight {
        if !x.route || !y.route {
            return NONE;
        }
        let mut values = [0; 4];
        for (index, kind) in self.kinds.iter().enumerate() {
            let (x, y) = (x.values[index], y.values[index]);
            values[index] = match kind {
                Kind::Dist => x + y,
                Kind::Width(_) => x.min(y),
                Kind::Class(_) => x.max(y),
            };
        }
        Weight {
            route: true,
            values,
        }
    }

    fn better(&self, x: &Weight, y: &Weight) -> bool {
        if !x.route || !y.route {
            return x.route && !y.route;
        }
        for (index, kind) in self.kinds.iter().enumerate() {
            let (x, y) = (x.values[index], y.values[index]);
            if x != y {
                return match kind {
                    Kind::Width(_) => x > y,
                    _ => x < y,
                };
            }
        }
        false
    }

    fn fresh(&self, i: usize, j: usize) -> Weight {
        if i == j {
            self.unit()
        } else {
            NONE
        }
    }

    fn best_of(&self, first: Weight, second: Weight) -> Weight {
        if self.better(&second, &first) {
            second
        } else {
            first
        }
    }

    pub fn sweep(&self, a: &Matrix, r: &mut Matrix) {
        let n = a.len();
        for i in 0..n {
            for j in 0..n {
                let mut best = self.fresh(i, j);
                for k in 0..n {
                    best = self.best_of(best, self.join(&a[i][k], &r[k][j]));
                }
                r[i][j] = best;
            }
        }
    }

    pub fn settle(&self, a: &Matrix, r: &mut Matrix, j: usize) {
        let n = a.len();
        let mut column: Vec<Weight> = (0..n).map(|i| self.fresh(i, j)).collect();
        for _ in 1..n {
            for i in 0..n {
                let mut best = self.fresh(i, j);
                for k in 0..n {
                    best = self.best_of(best, self.join(&a[i][k], &column[k]));
                }
                column[i] = best;
            }
        }
        for i in 0..n {
            r[i][j] = column[i];
        }
    }

    fn solves(&self, a: &Matrix, r: &Matrix) -> bool {
        let n = a.len();
        (0..n).all(|i| {
            (0..n).all(|j| {
                let each = (0..n).map(|k| self.join(&a[i][k], &r[k][j]));
                each.fold(self.fresh(i, j), |best, next| self.best_of(best, next)) == r[i][j]
            })
        })
    }

    /// Cold: the smaller t, then the better weight.
    pub fn forward(
        &self,
        a: &Matrix,
        r: &Matrix,
        mapping: &[Vec<Entry>],
    ) -> Option<Vec<Vec<Entry>>> {
        if !self.solves(a, r) {
            return None;
        }
        let n = a.len();
        let destinations = mapping[0].len();
        let entry = |i: usize, d: usize| {
            let mut best = (NONE, 0);
            for k in 0..n {
                let (weight, t) = mapping[k][d];
                let next = (self.join(&r[i][k], &weight), t);
                let sooner = !best.0.route || next.1 < best.1;
                let better = next.1 == best.1 && self.better(&next.0, &best.0);
                if next.0.route && (sooner || better) {
                    best = next;
                }
            }
            best
        };
        Some(
            (0..n)
                .map(|i| (0..destinations).map(|d| entry(i, d)).collect())
                .collect(),
        )
    }

    pub fn every_best(&self, a: &Matrix, r: &Matrix) -> bool {
        let mut best = r.clone();
        (0..a.len()).all(|j| {
            self.settle(a, &mut best, j);
            (0..a.len()).all(|i| best[i][j] == r[i][j])
        })
    }
}

/// A problem file as a list of records, without refusals by place.
pub fn read(file: &[u8]) -> Option<(Vec<u8>, Vec<Vec<u16>>)> {
    let (count, body) = file.split_at_checked(4)?;
    if u32::from_be_bytes(count.try_into().ok()?) as usize != body.len() {
        return None;
    }
    let mode = *body.get(3)?;
    let mut at = 4;
    let mut kinds = Vec::new();
    let mut open = 1;
    while open > 0 {
        let tag = *body.get(at)?;
        at += 1;
        match tag {
            5 => open += 1,
            2 | 3 => {
                at += 2;
                open -= 1;
                kinds.push(tag);
            }
            1 | 4 => {
                open -= 1;
                kinds.push(tag);
            }
            _ => return None,
        }
    }
    let mut records = Vec::new();
    for extra in [0, usize::from(mode >= 2)] {
        let count = two(body, at)?;
        at += 2;
        for _ in 0..count {
            let mut record = vec![u16::from(*body.get(at)?), u16::from(*body.get(at + 1)?)];
            at += 2;
            for _ in 0..kinds.len() + extra {
                record.push(two(body, at)?);
                at += 2;
            }
            records.push(record);
        }
    }
    (at == body.len()).then_some((kinds, records))
}

fn two(body: &[u8], at: usize) -> Option<u16> {
    let bytes = body.get(at..at + 2)?;
    Some(u16::from_be_bytes([bytes[0], bytes[1]]))
}
