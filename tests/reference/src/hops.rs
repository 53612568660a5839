//! The next hop: the lowest node whose arc gives the route its weight.

use crate::matrices::{check_routing, Matrix};
use crate::refusals::{check_argument, Refusal};
use crate::weights::{join, Language};

/// The lowest k other than i whose arc gives the route from i to j its weight: whether there
/// is one, and its number, 0 where there is none.
pub fn next_hop(
    language: &Language,
    n: u32,
    a: &[u32],
    r: &[u32],
    i: u32,
    j: u32,
) -> (Refusal, bool, u32) {
    let hop = check_routing(language, n, a, r).and_then(|(a, r)| {
        let i = check_argument(n, i, 0)?;
        let j = check_argument(n, j, 1)?;
        Ok(find_hop(language, &a, &r, i, j))
    });
    match hop {
        Ok(Some(node)) => (Refusal::DONE, true, node as u32),
        Ok(None) => (Refusal::DONE, false, 0),
        Err(refusal) => (refusal, false, 0),
    }
}

fn find_hop(language: &Language, a: &Matrix, r: &Matrix, i: usize, j: usize) -> Option<usize> {
    if i == j || r.at(i, j).is_none() {
        return None;
    }
    (0..a.nodes).find(|&k| k != i && join(language, a.at(i, k), r.at(k, j)) == *r.at(i, j))
}
