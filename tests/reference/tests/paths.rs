//! Best weights: listing every simple path, rounds over all arcs, and growing the set of
//! reached nodes best first agree with one another.

mod common;

use reference::generator::{lawful_language, network, Dice, Spread};
use reference::matrices::Matrix;
use reference::paths::{best_by_listing, best_column_by_rounds};
use reference::weights::{better_of, is_better, join, unit, ARC_LIMIT};
use reference::{Language, Weight};

fn any_network(dice: &mut Dice, language: &Language, n: u32) -> Matrix {
    let density = dice.between(0, 100);
    let spread = dice.pick(&[Spread::Small, Spread::Large, Spread::Mixed]);
    let words = network(dice, language, n, density, spread);
    Matrix::from_words(language, n as usize, &words, ARC_LIMIT).unwrap()
}

/// Takes the best node not yet taken and offers its weight to the others.
fn best_first(language: &Language, a: &Matrix, to: usize) -> Vec<Weight> {
    let mut offers: Vec<Weight> = vec![None; a.nodes];
    offers[to] = unit(language);
    let mut left: Vec<usize> = (0..a.nodes).collect();
    while !left.is_empty() {
        let best = (1..left.len()).fold(0, |best, next| {
            let ahead = is_better(language, &offers[left[next]], &offers[left[best]]);
            if ahead {
                next
            } else {
                best
            }
        });
        let taken = left.swap_remove(best);
        for from in &left {
            let offer = join(language, a.at(*from, taken), &offers[taken]);
            offers[*from] = better_of(language, offers[*from].take(), offer);
        }
    }
    offers
}

#[test]
fn listing_and_rounds_agree_on_small_networks() {
    let mut dice = Dice::new(1);
    for _ in 0..4_000 {
        let language = lawful_language(&mut dice);
        let n = dice.between(1, 6) as u32;
        let a = any_network(&mut dice, &language, n);
        for to in 0..a.nodes {
            let listed: Vec<Weight> = (0..a.nodes)
                .map(|from| best_by_listing(&language, &a, from, to))
                .collect();
            assert_eq!(listed, best_column_by_rounds(&language, &a, to));
        }
    }
}

#[test]
fn rounds_and_best_first_agree_on_large_networks() {
    let mut dice = Dice::new(2);
    for _ in 0..600 {
        let language = lawful_language(&mut dice);
        let n = dice.between(1, 16) as u32;
        let a = any_network(&mut dice, &language, n);
        for to in 0..a.nodes {
            let rounds = best_column_by_rounds(&language, &a, to);
            assert_eq!(rounds, best_first(&language, &a, to));
        }
    }
}

#[test]
fn the_longest_path_reaches_the_matrix_limit() {
    let language = common::dist();
    let mut a = Matrix::without_routes(16);
    for node in 0..15 {
        a.set(node, node + 1, Some(vec![65_535]));
    }
    let column = best_column_by_rounds(&language, &a, 15);
    assert_eq!(column[0], Some(vec![983_025]));
    assert_eq!(best_by_listing(&language, &a, 0, 15), Some(vec![983_025]));
}
