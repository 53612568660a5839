//! Best weights over paths that visit no node twice: by listing every such path, and, for
//! networks too large for that, by rounds over all arcs.

use crate::matrices::Matrix;
use crate::weights::{better_of, join, unit, Language, Weight};

/// Up to this many nodes every simple path is listed.
pub const LISTED_NODES: usize = 6;

/// The best weight over all simple paths, each one walked.
pub fn best_by_listing(language: &Language, a: &Matrix, from: usize, to: usize) -> Weight {
    let mut visited = vec![false; a.nodes];
    let mut best = None;
    walk(
        language,
        a,
        from,
        to,
        unit(language),
        &mut visited,
        &mut best,
    );
    best
}

/// Walks on from `here`, reached with `so_far`; a simple path ends when it meets its end.
fn walk(
    language: &Language,
    a: &Matrix,
    here: usize,
    to: usize,
    so_far: Weight,
    visited: &mut [bool],
    best: &mut Weight,
) {
    if here == to {
        *best = better_of(language, best.take(), so_far);
        return;
    }
    visited[here] = true;
    for next in 0..a.nodes {
        if !visited[next] && a.at(here, next).is_some() {
            let longer = join(language, &so_far, a.at(here, next));
            walk(language, a, next, to, longer, visited, best);
        }
    }
    visited[here] = false;
}

/// The best column by n-1 rounds from the fresh column; right where laws D and U hold, as a
/// best walk of at most n-1 arcs is then never better than the best simple path.
pub fn best_column_by_rounds(language: &Language, a: &Matrix, to: usize) -> Vec<Weight> {
    let mut column = vec![None; a.nodes];
    column[to] = unit(language);
    for _ in 1..a.nodes {
        let before = column.clone();
        for (from, weight) in column.iter_mut().enumerate() {
            for (via, onward) in before.iter().enumerate() {
                let candidate = join(language, a.at(from, via), onward);
                *weight = better_of(language, weight.take(), candidate);
            }
        }
    }
    column
}

/// The best weights from every node to `to`.
pub fn best_column(language: &Language, a: &Matrix, to: usize) -> Vec<Weight> {
    if a.nodes > LISTED_NODES {
        return best_column_by_rounds(language, a, to);
    }
    (0..a.nodes)
        .map(|from| best_by_listing(language, a, from, to))
        .collect()
}

/// The matrix whose every entry is the best weight.
pub fn best_matrix(language: &Language, a: &Matrix) -> Matrix {
    let mut best = Matrix::without_routes(a.nodes);
    for to in 0..a.nodes {
        best.set_column(to, best_column(language, a, to));
    }
    best
}
