//! Matrices of weights and the calls that work on them: fresh, row steps and settle steps in
//! a list, and the yes or no whether a matrix satisfies the routing equation.

use crate::laws::check_laws;
use crate::paths::best_column;
use crate::refusals::{
    check_language, check_length, check_nodes, check_weights, refusal_of, Checked, Refusal,
    BUFFER_A, BUFFER_R,
};
use crate::weights::{
    better_of, join, unit, weight_from_words, weight_to_words, Component, Language, Weight,
    ARC_LIMIT, MATRIX_LIMIT, WEIGHT_WORDS,
};

/// The longest step list.
pub const MOST_STEPS: usize = 4_096;
/// A settle step is this number plus its column.
pub const SETTLE_FROM: u32 = 256;

/// n x n weights by rows.
#[derive(Clone, Debug, PartialEq, Eq)]
pub struct Matrix {
    pub nodes: usize,
    weights: Vec<Weight>,
}

impl Matrix {
    pub fn without_routes(nodes: usize) -> Matrix {
        Matrix {
            nodes,
            weights: vec![None; nodes * nodes],
        }
    }

    /// Units on the diagonal and no route elsewhere.
    pub fn fresh(language: &Language, nodes: usize) -> Matrix {
        let mut matrix = Matrix::without_routes(nodes);
        for node in 0..nodes {
            matrix.set(node, node, unit(language));
        }
        matrix
    }

    /// The matrix in a buffer, or `None` when its length or an entry is wrong.
    pub fn from_words(
        language: &Language,
        nodes: usize,
        words: &[u32],
        sum_limit: u64,
    ) -> Option<Matrix> {
        if words.len() != matrix_words(nodes) {
            return None;
        }
        let entries = words.chunks(WEIGHT_WORDS);
        let weights = entries.map(|entry| weight_from_words(language, entry, sum_limit));
        let weights = weights.collect::<Option<Vec<Weight>>>()?;
        Some(Matrix { nodes, weights })
    }

    pub fn to_words(&self) -> Vec<u32> {
        self.weights.iter().flat_map(weight_to_words).collect()
    }

    pub fn at(&self, from: usize, to: usize) -> &Weight {
        &self.weights[from * self.nodes + to]
    }

    pub fn set(&mut self, from: usize, to: usize, weight: Weight) {
        self.weights[from * self.nodes + to] = weight;
    }

    pub fn set_row(&mut self, from: usize, row: Vec<Weight>) {
        for (to, weight) in row.into_iter().enumerate() {
            self.set(from, to, weight);
        }
    }

    pub fn set_column(&mut self, to: usize, column: Vec<Weight>) {
        for (from, weight) in column.into_iter().enumerate() {
            self.set(from, to, weight);
        }
    }
}

/// The words a matrix of this many nodes takes; no real buffer has the largest length.
pub fn matrix_words(nodes: usize) -> usize {
    nodes.saturating_mul(nodes).saturating_mul(WEIGHT_WORDS)
}

/// The right side of the routing equation at one place.
fn equation_entry(language: &Language, a: &Matrix, r: &Matrix, i: usize, j: usize) -> Weight {
    let start = if i == j { unit(language) } else { None };
    (0..a.nodes).fold(start, |best, k| {
        better_of(language, best, join(language, a.at(i, k), r.at(k, j)))
    })
}

/// The row that row step i would store.
pub fn row_step(language: &Language, a: &Matrix, r: &Matrix, i: usize) -> Vec<Weight> {
    (0..a.nodes)
        .map(|j| equation_entry(language, a, r, i, j))
        .collect()
}

/// Whether R = (A join R) best fresh.
pub fn satisfies_equation(language: &Language, a: &Matrix, r: &Matrix) -> bool {
    let nodes = 0..a.nodes;
    let mut pairs = nodes
        .clone()
        .flat_map(|i| nodes.clone().map(move |j| (i, j)));
    pairs.all(|(i, j)| *r.at(i, j) == equation_entry(language, a, r, i, j))
}

/// Whether a row holds a sum above what a matrix may hold.
fn overflows(language: &Language, row: &[Weight]) -> bool {
    let is_over = |(c, value): (&Component, &u64)| !c.has_within(*value, MATRIX_LIMIT);
    row.iter()
        .flatten()
        .any(|values| language.components().iter().zip(values).any(is_over))
}

/// Writes a fresh matrix.
pub fn fresh(language: &Language, n: u32, r: &mut [u32]) -> Refusal {
    let checked = check_fresh(language, n, r);
    if let Ok(nodes) = checked {
        r.copy_from_slice(&Matrix::fresh(language, nodes).to_words());
    }
    refusal_of(&checked)
}

fn check_fresh(language: &Language, n: u32, r: &[u32]) -> Checked<usize> {
    let nodes = check_nodes(n)?;
    check_language(language)?;
    check_length(BUFFER_R, r.len(), matrix_words(nodes))?;
    check_laws(language, false)?;
    Ok(nodes)
}

/// 3, 5, 4, 9, 10, then 6 on A and R: what every call over a network and a matrix checks.
pub fn check_routing(
    language: &Language,
    n: u32,
    a: &[u32],
    r: &[u32],
) -> Checked<(Matrix, Matrix)> {
    let nodes = check_nodes(n)?;
    check_language(language)?;
    check_length(BUFFER_A, a.len(), matrix_words(nodes))?;
    check_length(BUFFER_R, r.len(), matrix_words(nodes))?;
    check_laws(language, false)?;
    matrices_from_words(language, nodes, a, r)
}

/// 6 on A and R, and then the two matrices.
pub fn matrices_from_words(
    language: &Language,
    nodes: usize,
    a: &[u32],
    r: &[u32],
) -> Checked<(Matrix, Matrix)> {
    check_weights(language, BUFFER_A, a, ARC_LIMIT)?;
    check_weights(language, BUFFER_R, r, MATRIX_LIMIT)?;
    let arcs = Matrix::from_words(language, nodes, a, ARC_LIMIT);
    let routes = Matrix::from_words(language, nodes, r, MATRIX_LIMIT);
    match (arcs, routes) {
        (Some(arcs), Some(routes)) => Ok((arcs, routes)),
        // Lengths and entries have been checked, so only a wrong call order comes here.
        _ => Err(Refusal::new(9, BUFFER_A, 0)),
    }
}

/// Whether R satisfies the routing equation; the flag is false on a refusal.
pub fn equation(language: &Language, n: u32, a: &[u32], r: &[u32]) -> (Refusal, bool) {
    match check_routing(language, n, a, r) {
        Ok((a, r)) => (Refusal::DONE, satisfies_equation(language, &a, &r)),
        Err(refusal) => (refusal, false),
    }
}

/// Runs the list on R; the second answer is the number of steps done.
pub fn steps(
    language: &Language,
    n: u32,
    a: &[u32],
    r: &mut [u32],
    list: &[u32],
) -> (Refusal, u32) {
    let checked = check_routing(language, n, a, r).and_then(|matrices| {
        check_steps(n, list)?;
        Ok(matrices)
    });
    let (arcs, mut routes) = match checked {
        Ok(matrices) => matrices,
        Err(refusal) => return (refusal, 0),
    };
    let mut refusal = Refusal::DONE;
    let mut done = 0;
    for step in list {
        if !run_step(language, &arcs, &mut routes, *step) {
            refusal = Refusal::new(11, 0, done);
            break;
        }
        done += 1;
    }
    r.copy_from_slice(&routes.to_words());
    (refusal, done)
}

/// 13, then 7 at the first number that is no step.
fn check_steps(n: u32, list: &[u32]) -> Checked<()> {
    if list.len() > MOST_STEPS {
        return Err(Refusal::new(13, 0, 0));
    }
    let is_step = |step: &u32| *step < n || (SETTLE_FROM..SETTLE_FROM + n).contains(step);
    match list.iter().position(|step| !is_step(step)) {
        Some(index) => Err(Refusal::new(7, 0, index as u32)),
        None => Ok(()),
    }
}

/// Runs one step; false when its row would hold too large a sum, the row then untouched.
fn run_step(language: &Language, a: &Matrix, r: &mut Matrix, step: u32) -> bool {
    if step >= SETTLE_FROM {
        let to = (step - SETTLE_FROM) as usize;
        r.set_column(to, best_column(language, a, to));
        return true;
    }
    let row = row_step(language, a, r, step as usize);
    if overflows(language, &row) {
        return false;
    }
    r.set_row(step as usize, row);
    true
}
