//! The lent row: whose row, which refusal, and P8's ghost left standing.

mod common;

use common::{dist, printed_arcs, printed_best, refusal, single};
use reference::generator::{best_words, lawful_language, routing_case, Dice, Spread, Standing};
use reference::{equation, lent_row, which_refusal, Component, Language, Lent, Refusal};

use Component::{Gain, Width};

#[test]
fn the_best_matrix_is_lent_and_others_are_not() {
    let (a, best) = (printed_arcs(), printed_best());
    let anything = vec![12_345; 36];
    let lent = |newer: &[u32], i| lent_row(&dist(), 3, &a, newer, &anything, i);
    assert_eq!(lent(&best, 0), Lent::Newer(0..12));
    assert_eq!(lent(&best, 2), Lent::Newer(24..36));
    assert_eq!(lent(&anything, 1), Lent::Standing(12..24));
    for word in 0..36 {
        let mut other = best.clone();
        other[word] ^= 1;
        assert_eq!(lent(&other, 1), Lent::Standing(12..24));
    }
    assert_eq!(
        which_refusal(&dist(), 3, &a, &anything, &anything, 1),
        Refusal::DONE
    );
}

#[test]
fn lent_row_refusals() {
    let (a, r) = (printed_arcs(), printed_best());
    let mut bad = a.clone();
    bad[7] = 1;
    let gain = Language::of(&[Gain]);
    let none: &[u32] = &[];
    type Call<'a> = (Language, u32, &'a [u32], &'a [u32], &'a [u32], u32);
    let cases: [(Call, Refusal); 9] = [
        ((Language::NONE, 0, none, none, none, 9), refusal(3, 1, 0)),
        ((Language::NONE, 3, none, none, none, 9), refusal(5, 0, 0)),
        (
            (Language::of(&[Width(0)]), 3, none, none, none, 9),
            refusal(4, 0, 0),
        ),
        ((gain, 3, none, none, none, 9), refusal(9, 1, 0)),
        ((gain, 3, &bad, none, none, 9), refusal(9, 2, 0)),
        ((gain, 3, &bad, &r, none, 9), refusal(9, 5, 0)),
        ((gain, 3, &bad, &r, &r, 9), refusal(10, 2, 0)),
        ((dist(), 3, &bad, &r, &r, 9), refusal(6, 1, 4)),
        ((dist(), 3, &a, &bad, &bad, 3), refusal(7, 0, 0)),
    ];
    for ((language, n, a, newer, standing, i), expected) in cases {
        assert_eq!(lent_row(&language, n, a, newer, standing, i), Lent::Empty);
        assert_eq!(which_refusal(&language, n, a, newer, standing, i), expected);
    }
}

#[test]
fn p8_leaves_the_standing_row() {
    let (n, s) = (None, Some(10));
    let language = Language::of(&[Width(10)]);
    let a = single(&[n, s, n, s, n, n, n, n, n]);
    let r = single(&[s, s, s, s, s, s, n, n, s]);
    let standing = vec![0; 36];
    assert_eq!(equation(&language, 3, &a, &r), (Refusal::DONE, true));
    assert_eq!(
        lent_row(&language, 3, &a, &r, &standing, 0),
        Lent::Standing(0..12)
    );
    let best = best_words(&language, 3, &a);
    assert_eq!(
        lent_row(&language, 3, &a, &best, &standing, 0),
        Lent::Newer(0..12)
    );
}

#[test]
fn ghosts_satisfy_the_equation_and_are_never_lent() {
    let mut dice = Dice::new(7);
    for _ in 0..800 {
        let language = lawful_language(&mut dice);
        let n = dice.between(2, 9) as u32;
        let spread = dice.pick(&[Spread::Small, Spread::Large, Spread::Mixed]);
        let ghost = routing_case(&mut dice, &language, n, Standing::Ghost, spread);
        let found = equation(&language, n, &ghost.arcs, &ghost.matrix);
        assert_eq!(found, (Refusal::DONE, true));
        let lent = lent_row(&language, n, &ghost.arcs, &ghost.matrix, &ghost.matrix, 0);
        assert_eq!(lent, Lent::Standing(0..n as usize * 4));
    }
}

#[test]
fn the_new_row_is_lent_exactly_when_every_word_is_best() {
    let mut dice = Dice::new(8);
    let mut lent_from_newer = 0;
    for round in 0..2_100 {
        let language = lawful_language(&mut dice);
        let n = dice.between(1, 6) as u32;
        let spread = dice.pick(&[Spread::Small, Spread::Large, Spread::Mixed]);
        let standing = Standing::ALL[round % 7];
        let case = routing_case(&mut dice, &language, n, standing, spread);
        let best = best_words(&language, n, &case.arcs);
        let lent = lent_row(&language, n, &case.arcs, &case.matrix, &best, n - 1);
        let row = (n as usize - 1) * n as usize * 4..best.len();
        if case.matrix == best {
            lent_from_newer += 1;
            assert_eq!(lent, Lent::Newer(row));
        } else {
            assert_eq!(lent, Lent::Standing(row));
        }
    }
    assert!((300..1_800).contains(&lent_from_newer), "{lent_from_newer}");
}
