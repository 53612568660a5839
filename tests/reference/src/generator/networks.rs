//! Random networks, matrices of every standing (reached, best, stale, ghostly, any, damaged),
//! mapping tables and step lists. Languages given here must be sound.

use super::Dice;
use crate::forwarding::{entry_to_words, ENTRY_WORDS, PLAIN};
use crate::matrices::{steps, Matrix, SETTLE_FROM};
use crate::paths::{best_column, best_matrix};
use crate::weights::{
    unit, Component, Language, Weight, ARC_LIMIT, MATRIX_LIMIT, ONES, WEIGHT_WORDS,
};

/// Small values tie often; large ones sit at the limits; mixed ones go anywhere.
#[derive(Clone, Copy, Debug, PartialEq, Eq)]
pub enum Spread {
    Small,
    Large,
    Mixed,
}

/// A network and a matrix over it.
#[derive(Clone, Debug, PartialEq, Eq)]
pub struct RoutingCase {
    pub arcs: Vec<u32>,
    pub matrix: Vec<u32>,
}

/// How a matrix stands to its network.
#[derive(Clone, Copy, Debug, PartialEq, Eq)]
pub enum Standing {
    Fresh,
    Reached,
    Best,
    /// Best over another network, swept over this one.
    Stale,
    /// Satisfies the equation but isn't best; for one node it is best after all.
    Ghost,
    /// Passes the checks, no more.
    WellFormed,
    /// Best but for one entry, whose words are spoilt.
    Damaged,
}

impl Standing {
    pub const ALL: [Standing; 7] = [
        Standing::Fresh,
        Standing::Reached,
        Standing::Best,
        Standing::Stale,
        Standing::Ghost,
        Standing::WellFormed,
        Standing::Damaged,
    ];
}

/// A network and a matrix of this standing, for a language with laws D and U.
pub fn routing_case(
    dice: &mut Dice,
    language: &Language,
    n: u32,
    standing: Standing,
    spread: Spread,
) -> RoutingCase {
    if standing == Standing::Ghost && n > 1 {
        return ghost(dice, language, n, spread);
    }
    let density = dice.between(0, 100);
    let arcs = network(dice, language, n, density, spread);
    let matrix = match standing {
        Standing::Fresh => fresh_words(language, n),
        Standing::Reached => reached_matrix(dice, language, n, &arcs),
        Standing::Best | Standing::Ghost => best_words(language, n, &arcs),
        Standing::Stale => stale_matrix(dice, language, n, &arcs, spread),
        Standing::WellFormed => random_matrix(dice, language, n, density, spread),
        Standing::Damaged => {
            let mut words = best_words(language, n, &arcs);
            damage_entry(dice, &mut words, WEIGHT_WORDS);
            words
        }
    };
    RoutingCase { arcs, matrix }
}

/// The values of a component that a buffer with this sum limit may hold.
fn value_range(component: Component, sum_limit: u64) -> (u64, u64) {
    match component {
        Component::Dist | Component::Gain => (0, sum_limit),
        Component::Width(limit) => (1, u64::from(limit)),
        Component::Class(limit) => (0, u64::from(limit)),
    }
}

fn value(dice: &mut Dice, component: Component, spread: Spread, sum_limit: u64) -> u64 {
    let (low, high) = value_range(component, sum_limit);
    match spread {
        Spread::Small => dice.between(low, high.min(low + 3)),
        Spread::Large => dice.between(high.saturating_sub(3).max(low), high),
        Spread::Mixed => {
            let any = dice.between(low, high);
            let near = dice.between(low, high.min(low + 3));
            dice.pick(&[any, any, near, low, high])
        }
    }
}

fn route(dice: &mut Dice, language: &Language, spread: Spread, sum_limit: u64) -> Vec<u64> {
    let components = language.components().iter();
    components
        .map(|c| value(dice, *c, spread, sum_limit))
        .collect()
}

fn weight(
    dice: &mut Dice,
    language: &Language,
    density: u64,
    spread: Spread,
    sum_limit: u64,
) -> Weight {
    dice.percent(density)
        .then(|| route(dice, language, spread, sum_limit))
}

fn weights(
    dice: &mut Dice,
    language: &Language,
    n: u32,
    density: u64,
    spread: Spread,
    sum_limit: u64,
) -> Matrix {
    let nodes = n as usize;
    let mut matrix = Matrix::without_routes(nodes);
    for from in 0..nodes {
        for to in 0..nodes {
            matrix.set(from, to, weight(dice, language, density, spread, sum_limit));
        }
    }
    matrix
}

/// The words of A: each arc, self-arcs too, is there with the given chance in a hundred.
pub fn network(
    dice: &mut Dice,
    language: &Language,
    n: u32,
    density: u64,
    spread: Spread,
) -> Vec<u32> {
    weights(dice, language, n, density, spread, ARC_LIMIT).to_words()
}

/// Any matrix that passes the checks; large spreads bring sums near the limit.
pub fn random_matrix(
    dice: &mut Dice,
    language: &Language,
    n: u32,
    density: u64,
    spread: Spread,
) -> Vec<u32> {
    weights(dice, language, n, density, spread, MATRIX_LIMIT).to_words()
}

fn arcs_of(language: &Language, n: u32, a: &[u32]) -> Matrix {
    Matrix::from_words(language, n as usize, a, ARC_LIMIT)
        .unwrap_or_else(|| Matrix::without_routes(n as usize))
}

pub fn fresh_words(language: &Language, n: u32) -> Vec<u32> {
    Matrix::fresh(language, n as usize).to_words()
}

/// The words of the matrix whose every entry is the best over A.
pub fn best_words(language: &Language, n: u32, a: &[u32]) -> Vec<u32> {
    best_matrix(language, &arcs_of(language, n, a)).to_words()
}

/// A matrix reached from fresh by some steps, perhaps none.
pub fn reached_matrix(dice: &mut Dice, language: &Language, n: u32, a: &[u32]) -> Vec<u32> {
    let mut words = fresh_words(language, n);
    let length = dice.index(3 * n as usize + 1);
    let list = step_list(dice, n, length);
    steps(language, n, a, &mut words, &list);
    words
}

/// The best matrix of another network, swept a few times over A.
pub fn stale_matrix(
    dice: &mut Dice,
    language: &Language,
    n: u32,
    a: &[u32],
    spread: Spread,
) -> Vec<u32> {
    let density = dice.between(10, 90);
    let older = weights(dice, language, n, density, spread, ARC_LIMIT);
    let mut words = best_matrix(language, &older).to_words();
    let sweeps = dice.below(u64::from(n) + 2);
    let list: Vec<u32> = (0..sweeps).flat_map(|_| 0..n).collect();
    steps(language, n, a, &mut words, &list);
    words
}

/// Two nodes that reach nothing but each other, at no cost, confirm a route neither has; the
/// rest of the column follows them. With one node the equation has no such solution.
fn ghost(dice: &mut Dice, language: &Language, n: u32, spread: Spread) -> RoutingCase {
    let nodes = n as usize;
    let density = dice.between(10, 90);
    let mut arcs = weights(dice, language, n, density, spread, ARC_LIMIT);
    let to = dice.index(nodes);
    let one = (to + 1 + dice.index(nodes - 1)) % nodes;
    let other = (to + 1 + dice.index(nodes - 1)) % nodes;
    for node in [one, other] {
        arcs.set_row(node, vec![None; nodes]);
    }
    arcs.set(one, other, unit(language));
    arcs.set(other, one, unit(language));
    let mut believed = arcs.clone();
    believed.set(one, to, Some(route(dice, language, spread, ARC_LIMIT)));
    let mut matrix = best_matrix(language, &arcs);
    matrix.set_column(to, best_column(language, &believed, to));
    RoutingCase {
        arcs: arcs.to_words(),
        matrix: matrix.to_words(),
    }
}

/// Spoils one word, or the ones of one entry; `entry_words` is 4 in a matrix, 5 in a table.
/// The new words may happen to be sound.
pub fn damage_entry(dice: &mut Dice, words: &mut [u32], entry_words: usize) {
    if words.is_empty() || entry_words == 0 {
        return;
    }
    let at = dice.index(words.len());
    let entry = at / entry_words * entry_words;
    let end = (entry + entry_words).min(words.len());
    match dice.below(6) {
        0 => words[entry..end].fill(ONES),
        1 => words[entry..end].fill(0),
        2 => words[at] ^= 1 << dice.below(32),
        3 => words[at] = words[at].wrapping_add(1),
        4 => {
            words[entry..end].fill(ONES);
            words[at] = dice.pick(&[0, 1, ONES - 1]);
        }
        _ => {
            let edges = [0, 1, 65_535, 65_536, 983_025, 983_026, 1_048_560, ONES];
            words[at] = dice.pick(&edges);
        }
    }
}

/// The words of M in this mode; t is 0 in plain mode.
pub fn mapping_table(
    dice: &mut Dice,
    language: &Language,
    (n, m): (u32, u32),
    mode: u32,
    density: u64,
    spread: Spread,
) -> Vec<u32> {
    let mut words = Vec::with_capacity((n * m) as usize * ENTRY_WORDS);
    for _ in 0..n * m {
        let entry = weight(dice, language, density, spread, ARC_LIMIT)
            .map(|route| (route, outside_number(dice, mode, spread)));
        words.extend(entry_to_words(&entry));
    }
    words
}

fn outside_number(dice: &mut Dice, mode: u32, spread: Spread) -> u32 {
    let outside = value(dice, Component::Dist, spread, ARC_LIMIT);
    if mode == PLAIN {
        0
    } else {
        outside as u32
    }
}

/// A list of this many steps, row steps three times in four.
pub fn step_list(dice: &mut Dice, n: u32, length: usize) -> Vec<u32> {
    let mut list = Vec::with_capacity(length);
    for _ in 0..length {
        let start = if dice.percent(75) { 0 } else { SETTLE_FROM };
        list.push(start + dice.index(n as usize) as u32);
    }
    list
}

/// Stretches one after another, each updating every row, in any order and with repeats.
pub fn stretches(dice: &mut Dice, n: u32, count: u32) -> Vec<u32> {
    let mut list = Vec::new();
    for _ in 0..count {
        let mut stretch: Vec<u32> = (0..n).collect();
        stretch.extend((0..dice.below(3)).map(|extra| (extra as u32) % n));
        for place in (1..stretch.len()).rev() {
            stretch.swap(place, dice.index(place + 1));
        }
        list.extend(stretch);
    }
    list
}

/// A list with a number that is no step, or one longer than is allowed.
pub fn damaged_step_list(dice: &mut Dice, n: u32) -> Vec<u32> {
    let too_long = dice.percent(25);
    let length = if too_long { 4_097 } else { dice.index(12) + 1 };
    let mut list = step_list(dice, n, length);
    if !too_long || dice.percent(50) {
        let at = dice.index(length);
        list[at] = dice.pick(&[n, 255, SETTLE_FROM + n, 65_536, ONES]);
    }
    list
}
