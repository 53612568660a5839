//! Networks with a matrix of every standing, sums at the edges of what an arc and a matrix may
//! hold, chains of the most expensive arcs, and step lists up to the longest.

use reference::generator::{
    self, best_words, fresh_words, network, random_matrix, reached_matrix, routing_case, stretches,
    Dice, RoutingCase, Spread, Standing,
};
use reference::matrices::{MOST_STEPS, SETTLE_FROM};
use reference::weights::{ONES, WEIGHT_WORDS};
use reference::{Component, Language};

const SPREADS: [Spread; 3] = [Spread::Small, Spread::Large, Spread::Mixed];

/// Small numbers of nodes more often.
pub fn nodes(dice: &mut Dice) -> u32 {
    let any = dice.between(1, 16) as u32;
    dice.pick(&[1, 2, 2, 3, 3, 4, 4, 5, 6, any])
}

/// A network and a matrix that pass the checks, but for the damaged standing.
pub fn routing(dice: &mut Dice, language: &Language) -> (u32, RoutingCase) {
    match dice.below(10) {
        0 | 1 => edge_sums(dice, language),
        2 => chain(dice, language),
        _ => {
            let n = nodes(dice);
            let standing = dice.pick(&Standing::ALL);
            let spread = dice.pick(&SPREADS);
            (n, routing_case(dice, language, n, standing, spread))
        }
    }
}

/// Arcs and routes whose joins lie around the largest sum of a matrix.
fn edge_sums(dice: &mut Dice, language: &Language) -> (u32, RoutingCase) {
    let n = nodes(dice);
    let density = dice.between(10, 100);
    let large_arcs = dice.percent(50);
    let arc_spread = if large_arcs {
        Spread::Large
    } else {
        Spread::Small
    };
    let arcs = network(dice, language, n, density, arc_spread);
    let mut matrix = random_matrix(dice, language, n, density, Spread::Large);
    if large_arcs {
        lower_sums(language, &mut matrix, 65_533);
    }
    (n, RoutingCase { arcs, matrix })
}

fn lower_sums(language: &Language, matrix: &mut [u32], by: u32) {
    for entry in matrix.chunks_mut(WEIGHT_WORDS) {
        let is_route = entry.iter().any(|word| *word != ONES);
        for (word, component) in entry.iter_mut().zip(language.components()) {
            if is_route && *component == Component::Dist {
                *word = word.saturating_sub(by);
            }
        }
    }
}

/// Each node has an arc of about the largest cost to the next, and few others have one: best
/// routes over fifteen arcs reach the largest sum.
fn chain(dice: &mut Dice, language: &Language) -> (u32, RoutingCase) {
    let n = dice.pick(&[2, 3, 8, 15, 16, 16, 16]);
    let others = dice.pick(&[0, 0, 3]);
    let order = shuffled(dice, (0..n).collect());
    let mut arcs = network(dice, language, n, 100, Spread::Large);
    for (index, entry) in arcs.chunks_mut(WEIGHT_WORDS).enumerate() {
        let pair = [index as u32 / n, index as u32 % n];
        let on_chain = order.windows(2).any(|step| step == pair);
        if on_chain {
            dearest(language, entry);
        } else if !dice.percent(others) {
            entry.fill(ONES);
        }
    }
    let matrix = match dice.below(4) {
        0 => best_words(language, n, &arcs),
        1 => reached_matrix(dice, language, n, &arcs),
        2 => random_matrix(dice, language, n, 50, Spread::Large),
        _ => fresh_words(language, n),
    };
    (n, RoutingCase { arcs, matrix })
}

fn dearest(language: &Language, entry: &mut [u32]) {
    for (word, component) in entry.iter_mut().zip(language.components()) {
        if *component == Component::Dist {
            *word = 65_535;
        }
    }
}

fn shuffled(dice: &mut Dice, mut list: Vec<u32>) -> Vec<u32> {
    for place in (1..list.len()).rev() {
        list.swap(place, dice.index(place + 1));
    }
    list
}

/// Row steps and settles, from none up to the most there may be.
pub fn step_list(dice: &mut Dice, n: u32) -> Vec<u32> {
    let length = match dice.below(100) {
        0..=29 => dice.index(5),
        30..=59 => dice.index(3 * n as usize + 1),
        60..=79 => {
            let count = dice.between(1, n.into()) as u32;
            return stretches(dice, n, count);
        }
        80..=89 => return every_settle(dice, n),
        90..=97 => 100 + dice.index(300),
        _ => longest(dice, n),
    };
    generator::step_list(dice, n, length)
}

/// Each column settled once, and some rows between.
fn every_settle(dice: &mut Dice, n: u32) -> Vec<u32> {
    let rows = dice.below(u64::from(n) + 1) as u32;
    shuffled(
        dice,
        (SETTLE_FROM..SETTLE_FROM + n).chain(0..rows).collect(),
    )
}

/// The longest lists are for small networks, but for a few.
fn longest(dice: &mut Dice, n: u32) -> usize {
    if n <= 4 || dice.percent(5) {
        MOST_STEPS - dice.index(2)
    } else {
        400 + dice.index(100)
    }
}

#[cfg(test)]
mod tests {
    use super::*;
    use reference::generator::lawful_language;
    use reference::{equation, steps};

    #[test]
    fn routing_passes_the_checks() {
        let mut dice = Dice::new(50);
        for _ in 0..500 {
            let language = lawful_language(&mut dice);
            for make in [edge_sums, chain] {
                let (n, case) = make(&mut dice, &language);
                assert!(equation(&language, n, &case.arcs, &case.matrix).0.is_done());
            }
        }
    }

    #[test]
    fn a_chain_reaches_the_largest_sum() {
        let mut dice = Dice::new(51);
        let language = Language::of(&[Component::Dist]);
        let mut largest = 0;
        for _ in 0..40 {
            let (n, case) = chain(&mut dice, &language);
            let mut r = fresh_words(&language, n);
            let list: Vec<u32> = (SETTLE_FROM..SETTLE_FROM + n).collect();
            assert!(steps(&language, n, &case.arcs, &mut r, &list).0.is_done());
            let sums = r.chunks(4).filter(|entry| *entry != [ONES; 4]);
            largest = largest.max(sums.map(|entry| entry[0]).max().unwrap_or(0));
        }
        assert_eq!(largest, 983_025);
    }

    #[test]
    fn lists_reach_the_longest() {
        let mut dice = Dice::new(52);
        let longest = (0..2_000).map(|_| step_list(&mut dice, 3).len()).max();
        assert_eq!(longest, Some(MOST_STEPS));
    }
}
