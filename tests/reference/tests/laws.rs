//! The laws against every small weight, the weights shown against the laws' definitions, and
//! the paper's examples P1 to P4.

mod common;

use common::refusal;
use reference::enumeration::{component, languages};
use reference::laws::{breaks_c, breaks_d, breaks_u};
use reference::weights::belongs;
use reference::{laws, Component, Language, Weight};

use Component::{Class, Dist, Gain, Width};

/// Every weight of the language with sums up to `highest`, and no route.
fn small_weights(language: &Language, highest: u64) -> Vec<Weight> {
    let mut routes: Vec<Vec<u64>> = vec![Vec::new()];
    for part in language.components() {
        let top = part.worst().map_or(highest, |worst| worst.max(part.unit()));
        let values: Vec<u64> = (0..=top).filter(|value| part.has(*value)).collect();
        routes = routes
            .iter()
            .flat_map(|route| values.iter().map(|v| [route.as_slice(), &[*v]].concat()))
            .collect();
    }
    let mut weights: Vec<Weight> = routes.into_iter().map(Some).collect();
    weights.push(None);
    weights
}

fn some_triple(weights: &[Weight], breaks: impl Fn(&Weight, &Weight, &Weight) -> bool) -> bool {
    let broken_from = |s: &Weight, x: &Weight| weights.iter().any(|y| breaks(s, x, y));
    weights
        .iter()
        .any(|s| weights.iter().any(|x| broken_from(s, x)))
}

/// The weights that a report shows for a law.
fn shown(language: &Language, words: &[u32; 12]) -> [Weight; 3] {
    let count = language.components().len();
    [0, 4, 8].map(|at| {
        assert!(words[at + count..at + 4].iter().all(|word| *word == 0));
        let values = words[at..at + count].iter().map(|word| u64::from(*word));
        Some(values.collect())
    })
}

/// A held law shows zeros; a broken one shows weights of the language that break it.
fn check_shown(language: &Language) {
    let report = laws(language);
    assert!(report.refusal.is_done());
    for (law, words) in report.words.iter().enumerate() {
        if report.held[law] {
            assert_eq!(*words, [0; 12]);
            continue;
        }
        let [s, x, y] = shown(language, words);
        assert!(belongs(language, &x));
        assert!(law == 1 || (belongs(language, &s) && belongs(language, &y)));
        let breaks = match law {
            0 => breaks_d(language, &s, &x, &y),
            1 => breaks_u(language, &x) && words[..4] == [0; 4] && words[8..] == [0; 4],
            _ => breaks_c(language, &s, &x, &y),
        };
        assert!(breaks, "{language:?} law {law} {words:?}");
    }
}

fn check_against_all(language: &Language, highest: u64) {
    let weights = small_weights(language, highest);
    let d = some_triple(&weights, |s, x, y| breaks_d(language, s, x, y));
    let u = weights.iter().any(|x| breaks_u(language, x));
    let c = some_triple(&weights, |s, x, y| breaks_c(language, s, x, y));
    assert_eq!(laws(language).held, [!d, !u, !c], "{language:?}");
    check_shown(language);
}

/// Calls the check for every language of `count` components out of the choices.
fn for_all(choices: &[Component], count: usize, check: impl Fn(&Language)) {
    for number in 0..choices.len().pow(count as u32) {
        let digit = |place: usize| number / choices.len().pow(place as u32) % choices.len();
        let parts: Vec<Component> = (0..count).map(|place| choices[digit(place)]).collect();
        check(&Language::of(&parts));
    }
}

#[test]
fn laws_agree_with_every_small_weight_up_to_three_components() {
    let choices = [
        Dist,
        Gain,
        Width(1),
        Width(2),
        Width(3),
        Class(0),
        Class(1),
        Class(2),
    ];
    for count in 1..=3 {
        for_all(&choices, count, |language| check_against_all(language, 3));
    }
}

#[test]
fn laws_agree_with_every_small_weight_of_four_components() {
    let choices = [Dist, Gain, Width(1), Width(2), Class(0), Class(1)];
    for_all(&choices, 4, |language| check_against_all(language, 1));
}

#[test]
fn shown_weights_break_the_law_with_large_limits_too() {
    for numbered in languages() {
        let language = numbered.language();
        if laws(&language).refusal.is_done() {
            check_shown(&language);
        }
    }
}

#[test]
fn unused_places_change_nothing() {
    for first in (0..12).map(component) {
        let plain = laws(&Language::of(&[first]));
        let places = [first, Width(0), Gain, Width(9)];
        assert_eq!(laws(&Language { count: 1, places }), plain);
    }
}

#[test]
fn refused_reports_are_zero() {
    let cases = [
        (0, [Dist; 4], refusal(5, 0, 0)),
        (5, [Width(0); 4], refusal(5, 0, 0)),
        (u32::MAX, [Dist; 4], refusal(5, 0, 0)),
        (4, [Dist, Class(0), Gain, Width(0)], refusal(4, 0, 3)),
        (4, [Dist, Width(0), Gain, Width(0)], refusal(4, 0, 1)),
    ];
    for (count, places, expected) in cases {
        let report = laws(&Language { count, places });
        assert_eq!(report.refusal, expected);
        assert_eq!((report.held, report.words), ([false; 3], [[0; 12]; 3]));
    }
}

#[test]
fn p1_dist_before_width() {
    assert_eq!(
        laws(&Language::of(&[Dist, Width(9)])).held,
        [true, true, false]
    );
}

#[test]
fn p2_width_before_dist() {
    let report = laws(&Language::of(&[Width(9), Dist]));
    assert!(!report.held[0]);
    assert_eq!(report.words[0], [1, 0, 0, 0, 9, 1, 0, 0, 1, 0, 0, 0]);
}

#[test]
fn p3_trivial_width_before_dist() {
    assert_eq!(laws(&Language::of(&[Width(1), Dist])).held, [true; 3]);
}

#[test]
fn p4_gain() {
    let report = laws(&Language::of(&[Gain]));
    assert_eq!(report.held, [true, false, true]);
    assert_eq!(report.words[1], [0, 0, 0, 0, 1, 0, 0, 0, 0, 0, 0, 0]);
}

#[test]
fn shown_weights_word_for_word() {
    let report = laws(&Language::of(&[Dist, Class(7), Width(1), Gain]));
    assert_eq!(report.held, [false; 3]);
    assert_eq!(report.words[0], [0, 7, 1, 0, 0, 0, 1, 0, 0, 7, 1, 1]);
    assert_eq!(report.words[1], [0, 0, 0, 0, 0, 0, 1, 1, 0, 0, 0, 0]);
    assert_eq!(report.words[2], [0, 7, 1, 0, 0, 0, 1, 0, 0, 7, 1, 0]);
    let report = laws(&Language::of(&[Width(4), Class(3)]));
    assert_eq!(report.words[0], [1, 0, 0, 0, 4, 3, 0, 0, 1, 0, 0, 0]);
    let report = laws(&Language::of(&[Class(3), Class(0), Width(4)]));
    assert_eq!(report.words[0], [3, 0, 4, 0, 0, 0, 1, 0, 3, 0, 4, 0]);
}

#[test]
fn the_fixed_list_has_its_shape() {
    let list = languages();
    assert_eq!(list.len(), 4 + 12 + 144 + 1728 + 1296 + 500);
    assert_eq!((list[15].count, list[15].places), (1, [11, 0, 1, 2]));
    assert_eq!(
        (list[16 + 13].count, list[16 + 13].places),
        (2, [1, 1, 2, 1])
    );
    assert_eq!(list[160 + 1727].places, [11, 11, 11, 9]);
    assert_eq!(list[1888 + 1].places, [0, 0, 0, 1]);
    assert_eq!(list[1888 + 1295].places, [10; 4]);
    assert_eq!(list[3184].places, [0, 0, 0, 7]);
    assert_eq!(list[3683].places, [11, 10, 1, 6]);
    assert!(list.iter().all(|language| language.report().lines().count()
        == if language.report().starts_with("REFUSED") {
            1
        } else {
            3
        }));
}
