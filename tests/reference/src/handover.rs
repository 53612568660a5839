//! The row lent at a handover: the new matrix's where that matrix holds every best weight,
//! else the standing one's, with the call that tells why none was lent.

use std::ops::Range;

use crate::laws::check_laws;
use crate::matrices::{matrix_words, Matrix};
use crate::paths::best_matrix;
use crate::refusals::{
    check_argument, check_language, check_length, check_nodes, check_weights, refusal_of, Checked,
    Refusal, BUFFER_A, BUFFER_R, BUFFER_STANDING,
};
use crate::weights::{Language, ARC_LIMIT, MATRIX_LIMIT, WEIGHT_WORDS};

/// Whose row is lent, as a range of words of that matrix.
#[derive(Clone, Debug, PartialEq, Eq)]
pub enum Lent {
    Empty,
    Newer(Range<usize>),
    Standing(Range<usize>),
}

/// 3, 5, 4, 9, 10, 6 on A and 7 for i; the entries of neither matrix are looked at.
fn check_handover(
    language: &Language,
    n: u32,
    a: &[u32],
    newer: &[u32],
    standing: &[u32],
    i: u32,
) -> Checked<Range<usize>> {
    let nodes = check_nodes(n)?;
    check_language(language)?;
    check_length(BUFFER_A, a.len(), matrix_words(nodes))?;
    check_length(BUFFER_R, newer.len(), matrix_words(nodes))?;
    check_length(BUFFER_STANDING, standing.len(), matrix_words(nodes))?;
    check_laws(language, false)?;
    check_weights(language, BUFFER_A, a, ARC_LIMIT)?;
    let row = check_argument(n, i, 0)?;
    let words = nodes * WEIGHT_WORDS;
    Ok(row * words..(row + 1) * words)
}

/// Whether every entry of the matrix is the best weight; a malformed entry is none.
pub fn holds_every_best(language: &Language, n: u32, a: &[u32], matrix: &[u32]) -> bool {
    let nodes = n as usize;
    let Some(arcs) = Matrix::from_words(language, nodes, a, ARC_LIMIT) else {
        return false;
    };
    let found = Matrix::from_words(language, nodes, matrix, MATRIX_LIMIT);
    found.is_some_and(|found| found == best_matrix(language, &arcs))
}

/// Row i of the new matrix or of the standing one.
pub fn lent_row(
    language: &Language,
    n: u32,
    a: &[u32],
    newer: &[u32],
    standing: &[u32],
    i: u32,
) -> Lent {
    match check_handover(language, n, a, newer, standing, i) {
        Err(_) => Lent::Empty,
        Ok(row) if holds_every_best(language, n, a, newer) => Lent::Newer(row),
        Ok(row) => Lent::Standing(row),
    }
}

/// Which refusal made the lent part empty; done where a row was lent.
pub fn which_refusal(
    language: &Language,
    n: u32,
    a: &[u32],
    newer: &[u32],
    standing: &[u32],
    i: u32,
) -> Refusal {
    refusal_of(&check_handover(language, n, a, newer, standing, i))
}
