//! Fresh, steps and the equation: P5, P7, P8, P9, every refusal and its order, and demand 3
//! on random networks.

mod common;

use common::{dist, printed_arcs, printed_best, refusal, single};
use reference::generator::{
    best_words, lawful_language, network, random_matrix, step_list, stretches, Dice, Spread,
};
use reference::matrices::Matrix;
use reference::weights::{is_better, ARC_LIMIT, MATRIX_LIMIT};
use reference::{equation, fresh, steps, Component, Language, Refusal};

use Component::{Class, Dist, Gain, Width};

/// A step call with its arguments, so that faults can be put in.
#[derive(Clone)]
struct StepCall {
    language: Language,
    n: u32,
    a: Vec<u32>,
    r: Vec<u32>,
    list: Vec<u32>,
}

impl StepCall {
    fn sound() -> StepCall {
        let list = vec![0, 1, 2, 256, 258];
        let (a, r) = (printed_arcs(), printed_best());
        StepCall {
            language: dist(),
            n: 3,
            a,
            r,
            list,
        }
    }

    fn run(&mut self) -> (Refusal, u32) {
        steps(&self.language, self.n, &self.a, &mut self.r, &self.list)
    }
}

type Fault<T> = (fn(&mut T), Refusal);

/// Each fault with the refusal it brings, in the order in which refusals are given. Each one
/// keeps clear of what the others change.
fn step_faults() -> Vec<Fault<StepCall>> {
    vec![
        (|call| call.n = 17, refusal(3, 1, 0)),
        (|call| call.language.count = 0, refusal(5, 0, 0)),
        (|call| call.language.places[0] = Width(0), refusal(4, 0, 0)),
        (|call| call.a.truncate(35), refusal(9, 1, 0)),
        (|call| call.r.push(0), refusal(9, 2, 0)),
        (|call| call.language.places[0] = Gain, refusal(10, 2, 0)),
        (|call| call.a[8] = 65_536, refusal(6, 1, 8)),
        (|call| call.a[17] = 1, refusal(6, 1, 16)),
        (|call| call.r[0] = 983_026, refusal(6, 2, 0)),
        (|call| call.r[15] = 1, refusal(6, 2, 12)),
        (|call| call.list.resize(4_097, 0), refusal(13, 0, 0)),
        (|call| call.list[3] = 3, refusal(7, 0, 3)),
        (|call| call.list[4] = 259, refusal(7, 0, 4)),
    ]
}

#[test]
fn step_refusals_come_in_order_and_touch_nothing() {
    let faults = step_faults();
    for (first, (put_first, expected)) in faults.iter().enumerate() {
        for (put_second, _) in &faults[first..] {
            let mut call = StepCall::sound();
            // The earlier fault goes in last where both change one field.
            put_second(&mut call);
            put_first(&mut call);
            let before = call.r.clone();
            assert_eq!(call.run(), (*expected, 0));
            assert_eq!(call.r, before);
        }
    }
    assert_eq!(StepCall::sound().run(), (Refusal::DONE, 5));
}

#[test]
fn fresh_matrices() {
    let mut r = vec![7; 16];
    let language = Language::of(&[Dist, Class(0), Width(9)]);
    assert_eq!(fresh(&language, 2, &mut r), Refusal::DONE);
    let ones = u32::MAX;
    let unit = [0, 0, 9, 0];
    assert_eq!(r, [unit, [ones; 4], [ones; 4], unit].concat());
}

#[test]
fn fresh_refusals() {
    let unlawful = Language::of(&[Width(9), Dist]);
    let bad_width = Language::of(&[Dist, Width(0)]);
    let cases = [
        (dist(), 0, 0, refusal(3, 1, 0)),
        (dist(), u32::MAX, 4, refusal(3, 1, 0)),
        (Language::NONE, 17, 4, refusal(3, 1, 0)),
        (Language::NONE, 1, 3, refusal(5, 0, 0)),
        (bad_width, 1, 3, refusal(4, 0, 1)),
        (unlawful, 1, 3, refusal(9, 2, 0)),
        (unlawful, 1, 4, refusal(10, 1, 0)),
        (Language::of(&[Gain]), 1, 4, refusal(10, 2, 0)),
        (Language::of(&[Width(2), Gain]), 1, 4, refusal(10, 1, 0)),
        (dist(), 16, 1_024, Refusal::DONE),
    ];
    for (language, n, length, expected) in cases {
        let mut r = vec![7; length];
        assert_eq!(fresh(&language, n, &mut r), expected);
        assert!(expected.is_done() || r.iter().all(|word| *word == 7));
    }
}

#[test]
fn p5_the_printed_matrix() {
    let mut r = vec![0; 36];
    assert!(fresh(&dist(), 3, &mut r).is_done());
    let (answer, done) = steps(&dist(), 3, &printed_arcs(), &mut r, &[0, 1, 2, 0, 1, 2]);
    assert_eq!((answer, done), (Refusal::DONE, 6));
    assert_eq!(r, printed_best());
    assert_eq!(
        equation(&dist(), 3, &printed_arcs(), &r),
        (Refusal::DONE, true)
    );
}

#[test]
fn p7_one_node_with_a_self_arc() {
    let a = single(&[Some(5)]);
    let mut r = vec![0; 4];
    assert!(fresh(&dist(), 1, &mut r).is_done());
    assert_eq!(r, best_words(&dist(), 1, &a));
    assert_eq!(
        steps(&dist(), 1, &a, &mut r, &[0, 256, 0]),
        (Refusal::DONE, 3)
    );
    assert_eq!(r, [0; 4]);
}

#[test]
fn p8_a_solution_that_is_not_best() {
    let (n, s) = (None, Some(10));
    let language = Language::of(&[Width(10)]);
    let a = single(&[n, s, n, s, n, n, n, n, n]);
    let r = single(&[s, s, s, s, s, s, n, n, s]);
    assert_eq!(equation(&language, 3, &a, &r), (Refusal::DONE, true));
    let best = best_words(&language, 3, &a);
    assert_eq!(best[8..12], common::NONE);
    // Sweeping does not heal it, settling does.
    let mut swept = r.clone();
    steps(&language, 3, &a, &mut swept, &[0, 1, 2, 0, 1, 2]);
    assert_eq!(swept, r);
    steps(&language, 3, &a, &mut swept, &[258]);
    assert_eq!(swept, best);
}

#[test]
fn p9_step_fifteen_runs_and_sixteen_is_refused() {
    let a = vec![u32::MAX; 1_024];
    let mut r = vec![0; 1_024];
    assert!(fresh(&dist(), 16, &mut r).is_done());
    assert_eq!(steps(&dist(), 16, &a, &mut r, &[15]), (Refusal::DONE, 1));
    assert_eq!(
        steps(&dist(), 16, &a, &mut r, &[15, 16]),
        (refusal(7, 0, 1), 0)
    );
    assert_eq!(steps(&dist(), 16, &a, &mut r, &[271]), (Refusal::DONE, 1));
    assert_eq!(
        steps(&dist(), 16, &a, &mut r, &[272]),
        (refusal(7, 0, 0), 0)
    );
}

#[test]
fn a_sum_too_large_stops_the_list_there() {
    let (n, s) = (None, Some);
    let a = single(&[n, s(1), s(7), n]);
    let start = single(&[s(0), n, n, s(983_025)]);
    let mut r = start.clone();
    // Row 0 would store 983,026; once column 1 is settled it stores 1.
    assert_eq!(steps(&dist(), 2, &a, &mut r, &[0]), (refusal(11, 0, 0), 0));
    assert_eq!(r, start);
    assert_eq!(
        steps(&dist(), 2, &a, &mut r, &[257, 0, 1]),
        (Refusal::DONE, 3)
    );
    let mut r = single(&[s(0), s(983_025), n, s(5)]);
    let a = single(&[n, n, s(1), s(0)]);
    assert_eq!(
        steps(&dist(), 2, &a, &mut r, &[0, 0, 1]),
        (Refusal::DONE, 3)
    );
    let mut r = single(&[s(0), s(983_025), n, s(5)]);
    let a = single(&[s(1), n, s(1), s(0)]);
    assert_eq!(
        steps(&dist(), 2, &a, &mut r, &[1, 0, 1]),
        (refusal(11, 0, 1), 1)
    );
    assert_eq!(r, single(&[s(0), s(983_025), s(1), s(0)]));
}

#[test]
fn only_a_stored_sum_counts() {
    let (n, s) = (None, Some);
    let mut a = vec![n; 9];
    (a[1], a[2]) = (s(65_535), s(3));
    let mut r = vec![n; 9];
    (r[0], r[4], r[5], r[8]) = (s(0), s(0), s(983_025), s(0));
    let mut words = single(&r);
    let answer = steps(&dist(), 3, &single(&a), &mut words, &[0]);
    assert_eq!(answer, (Refusal::DONE, 1));
    assert_eq!(words[8..12], [3, 0, 0, 0]);
}

#[test]
fn the_longest_list_runs() {
    let mut call = StepCall::sound();
    call.list = vec![2; 4_096];
    assert_eq!(call.run(), (Refusal::DONE, 4_096));
    call.list = Vec::new();
    assert_eq!(call.run(), (Refusal::DONE, 0));
}

#[test]
fn equation_refusals() {
    let (a, r) = (printed_arcs(), printed_best());
    let bad = |words: &[u32]| [&words[..8], &[u32::MAX - 1], &words[9..]].concat();
    let cases = [
        (equation(&dist(), 0, &a, &r), refusal(3, 1, 0)),
        (equation(&dist(), 2, &a, &r), refusal(9, 1, 0)),
        (equation(&dist(), 3, &a, &[]), refusal(9, 2, 0)),
        (
            equation(&Language::of(&[Gain]), 3, &a, &bad(&r)),
            refusal(10, 2, 0),
        ),
        (equation(&dist(), 3, &bad(&a), &bad(&r)), refusal(6, 1, 8)),
        (equation(&dist(), 3, &a, &bad(&r)), refusal(6, 2, 8)),
    ];
    for (found, expected) in cases {
        assert_eq!(found, (expected, false));
    }
    let mut other = r.clone();
    other[8] = 6;
    assert_eq!(equation(&dist(), 3, &a, &other), (Refusal::DONE, false));
}

fn matrix(language: &Language, n: u32, words: &[u32]) -> Matrix {
    Matrix::from_words(language, n as usize, words, MATRIX_LIMIT).unwrap()
}

/// Whether no entry of `first` is better than the same entry of `second`.
fn nowhere_better(language: &Language, n: u32, first: &[u32], second: &[u32]) -> bool {
    let (first, second) = (matrix(language, n, first), matrix(language, n, second));
    let nodes = n as usize;
    (0..nodes * nodes).all(|place| {
        let (i, j) = (place / nodes, place % nodes);
        !is_better(language, first.at(i, j), second.at(i, j))
    })
}

/// The words of one column.
fn column(n: u32, words: &[u32], j: u32) -> Vec<&[u32]> {
    (0..n)
        .map(|i| &words[((i * n + j) * 4) as usize..][..4])
        .collect()
}

#[test]
fn demand_three_holds_on_random_networks() {
    let mut dice = Dice::new(3);
    for _ in 0..300 {
        let language = lawful_language(&mut dice);
        let n = dice.between(1, 7) as u32;
        let density = dice.between(10, 90);
        let spread = dice.pick(&[Spread::Small, Spread::Large, Spread::Mixed]);
        let a = network(&mut dice, &language, n, density, spread);
        let best = best_words(&language, n, &a);
        let mut r = vec![0; best.len()];
        assert!(fresh(&language, n, &mut r).is_done());
        let mut settled = vec![false; n as usize];
        for step in step_list(&mut dice, n, 20) {
            let before = r.clone();
            assert_eq!(steps(&language, n, &a, &mut r, &[step]), (Refusal::DONE, 1));
            assert!(nowhere_better(&language, n, &r, &best));
            assert!(nowhere_better(&language, n, &before, &r));
            if step >= 256 {
                settled[step as usize - 256] = true;
            }
            for j in (0..n).filter(|j| settled[*j as usize]) {
                assert_eq!(column(n, &r, j), column(n, &best, j));
            }
        }
    }
}

#[test]
fn stretches_reach_the_best() {
    let mut dice = Dice::new(4);
    for _ in 0..300 {
        let language = lawful_language(&mut dice);
        let n = dice.between(1, 16) as u32;
        let density = dice.between(5, 60);
        let a = network(&mut dice, &language, n, density, Spread::Mixed);
        let mut r = vec![0; (n * n * 4) as usize];
        assert!(fresh(&language, n, &mut r).is_done());
        let list = stretches(&mut dice, n, n - 1);
        let (answer, done) = steps(&language, n, &a, &mut r, &list);
        assert_eq!((answer, done), (Refusal::DONE, list.len() as u32));
        assert_eq!(r, best_words(&language, n, &a));
        assert_eq!(equation(&language, n, &a, &r), (Refusal::DONE, true));
    }
}

#[test]
fn a_refused_row_and_its_followers_leave_no_trace() {
    let mut dice = Dice::new(5);
    let mut refused = 0;
    for _ in 0..2_000 {
        let language = lawful_language(&mut dice);
        let n = dice.between(1, 5) as u32;
        let a = network(&mut dice, &language, n, 60, Spread::Mixed);
        let start = random_matrix(&mut dice, &language, n, 60, Spread::Large);
        let list = step_list(&mut dice, n, 6);
        let mut r = start.clone();
        let (answer, done) = steps(&language, n, &a, &mut r, &list);
        if answer.number == 11 {
            refused += 1;
            assert_eq!(answer, refusal(11, 0, done));
            let mut again = start.clone();
            let earlier = &list[..done as usize];
            let (answer, _) = steps(&language, n, &a, &mut again, earlier);
            assert!(answer.is_done());
            assert_eq!(again, r);
        } else {
            assert_eq!((answer, done), (Refusal::DONE, 6));
        }
        assert!(Matrix::from_words(&language, n as usize, &r, MATRIX_LIMIT).is_some());
        assert!(Matrix::from_words(&language, n as usize, &a, ARC_LIMIT).is_some());
    }
    assert!(refused > 50, "{refused}");
}
