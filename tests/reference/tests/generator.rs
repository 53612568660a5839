//! The generator: the same for the same seed, each kind what it says it is, and every call
//! living through whatever it makes.

mod common;

use std::collections::BTreeSet;

use reference::generator::*;
use reference::matrices::Matrix;
use reference::weights::{ARC_LIMIT, MATRIX_LIMIT};
use reference::{
    equation, fresh, laws, lent_row, next_hop, print, read, steps, which_refusal, Language, Lent,
};

const SPREADS: [Spread; 3] = [Spread::Small, Spread::Large, Spread::Mixed];

#[test]
fn the_same_seed_makes_the_same() {
    let make = |seed| {
        let mut dice = Dice::new(seed);
        let language = any_language(&mut dice);
        (
            language,
            sound_file(&mut dice),
            damaged_file(&mut dice),
            dice.roll(),
        )
    };
    assert_eq!(make(11), make(11));
    assert_ne!(make(11), make(12));
    assert_ne!(Dice::new(0).roll(), Dice::new(1).roll());
}

#[test]
fn languages_are_what_they_say() {
    let mut dice = Dice::new(20);
    for _ in 0..2_000 {
        assert!(laws(&any_language(&mut dice)).refusal.is_done());
        assert_eq!(laws(&lawful_language(&mut dice)).held[..2], [true; 2]);
        assert_eq!(laws(&cancelling_language(&mut dice)).held, [true; 3]);
        assert!([4, 5].contains(&laws(&damaged_language(&mut dice)).refusal.number));
    }
}

#[test]
fn matrices_are_what_they_say() {
    let mut dice = Dice::new(21);
    for round in 0..1_400 {
        let language = lawful_language(&mut dice);
        let n = dice.between(2, 7) as u32;
        let spread = dice.pick(&SPREADS);
        let standing = Standing::ALL[round % 7];
        let case = routing_case(&mut dice, &language, n, standing, spread);
        let well_formed = |words: &[u32], limit| {
            Matrix::from_words(&language, n as usize, words, limit).is_some()
        };
        assert!(well_formed(&case.arcs, ARC_LIMIT));
        assert!(standing == Standing::Damaged || well_formed(&case.matrix, MATRIX_LIMIT));
        let solves = equation(&language, n, &case.arcs, &case.matrix).1;
        let is_best = case.matrix == best_words(&language, n, &case.arcs);
        match standing {
            Standing::Best => assert!(solves && is_best),
            Standing::Ghost => assert!(solves && !is_best),
            _ => assert!(solves || !is_best),
        }
    }
}

#[test]
fn sound_files_are_read_back() {
    let mut dice = Dice::new(22);
    let mut longest = 0;
    for _ in 0..2_000 {
        let bytes = sound_file(&mut dice);
        longest = longest.max(bytes.len());
        let (mut arcs, mut mapping) = (vec![0; 1_024], vec![0; 2_560]);
        let answer = read(&bytes, &mut arcs, &mut mapping);
        assert!(answer.refusal.is_done(), "{:?}", answer.refusal);
        let nodes = answer.n as usize;
        let words = &arcs[..nodes * nodes * 4];
        assert!(Matrix::from_words(&answer.language, nodes, words, ARC_LIMIT).is_some());
        assert!(print(&bytes).starts_with("LAWS "));
    }
    assert!(longest > 4_000, "{longest}");
}

#[test]
fn damaged_files_meet_every_refusal_of_the_reader() {
    let mut dice = Dice::new(23);
    let mut met = BTreeSet::new();
    for _ in 0..6_000 {
        let bytes = damaged_file(&mut dice);
        let (mut arcs, mut mapping) = (vec![7; 1_024], vec![7; 2_560]);
        let answer = read(&bytes, &mut arcs, &mut mapping);
        met.insert(answer.refusal.number);
        if answer.refusal.is_done() {
            continue;
        }
        assert!(arcs.iter().chain(&mapping).all(|word| *word == 7));
        assert!(answer.refusal.place as usize <= bytes.len());
        let refusal = answer.refusal;
        let expected = format!(
            "REFUSED {} {} {}\n",
            refusal.number, refusal.which, refusal.place
        );
        assert_eq!(print(&bytes), expected);
    }
    assert_eq!(met, (0..=8).collect());
}

/// Words of any length and content.
fn any_words(dice: &mut Dice) -> Vec<u32> {
    let length = dice.pick(&[0, 1, 4, 16, 36, 64, 1_024]);
    (0..length).map(|_| dice.roll() as u32).collect()
}

#[test]
fn calls_take_anything() {
    let mut dice = Dice::new(24);
    let any_n = [0, 1, 2, 3, 4, 16, 17, 65_536, u32::MAX];
    for _ in 0..3_000 {
        let damaged: Language = damaged_language(&mut dice);
        let any = any_language(&mut dice);
        let lawful = lawful_language(&mut dice);
        let language = dice.pick(&[damaged, any, lawful]);
        let (n, m) = (dice.pick(&any_n), dice.pick(&any_n));
        let (a, r) = (any_words(&mut dice), any_words(&mut dice));
        let (i, j) = (dice.pick(&any_n), dice.pick(&any_n));
        let mut lent = r.clone();
        assert!(fresh(&language, n, &mut lent).is_done() || lent == r);
        let mut lent = r.clone();
        let (refusal, _) = steps(&language, n, &a, &mut lent, &[i, j]);
        assert!(refusal.number != 0 && lent == r);
        assert!(!equation(&language, n, &a, &r).1);
        assert!(!next_hop(&language, n, &a, &r, i, j).1);
        assert_eq!(lent_row(&language, n, &a, &r, &r, i), Lent::Empty);
        assert!(!which_refusal(&language, n, &a, &r, &r, i).is_done());
        let mut f = any_words(&mut dice);
        let before = f.clone();
        let refusal = reference::forward(&language, n, m, i, &a, &r, &a, &mut f);
        assert!(!refusal.is_done() && f == before);
    }
}

#[test]
fn damaged_lists_and_entries_are_refused_or_sound() {
    let mut dice = Dice::new(25);
    let mut met = BTreeSet::new();
    for _ in 0..3_000 {
        let language = lawful_language(&mut dice);
        let n = dice.between(1, 4) as u32;
        let mut a = network(&mut dice, &language, n, 60, Spread::Mixed);
        let mut r = random_matrix(&mut dice, &language, n, 60, Spread::Mixed);
        let damage = dice.below(3);
        let list = if damage == 0 {
            damaged_step_list(&mut dice, n)
        } else {
            step_list(&mut dice, n, 5)
        };
        match damage {
            1 => damage_entry(&mut dice, &mut a, 4),
            2 => damage_entry(&mut dice, &mut r, 4),
            _ => {}
        }
        let (refusal, _) = steps(&language, n, &a, &mut r, &list);
        assert!(damage != 0 || [7, 13].contains(&refusal.number));
        met.insert((refusal.number, refusal.which));
    }
    let expected = [(0, 0), (6, 1), (6, 2), (7, 0), (11, 0), (13, 0)];
    assert_eq!(met, BTreeSet::from(expected));
}
