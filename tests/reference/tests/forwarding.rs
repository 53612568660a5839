//! Forwarding: P6, the three rules, every refusal and its order, and the forwarding equation
//! on random networks.

mod common;

use common::{dist, entries, printed_arcs, printed_best, refusal, single, EMPTY};
use reference::forwarding::{satisfies_forwarding_equation, Table, COLD, HOT, PLAIN};
use reference::generator::{
    best_words, cancelling_language, lawful_language, mapping_table, routing_case, Dice,
    RoutingCase, Spread, Standing,
};
use reference::matrices::Matrix;
use reference::weights::ARC_LIMIT;
use reference::{forward, Component, Language, Refusal};

use Component::{Dist, Gain, Width};

const FORWARDING_LIMIT: u64 = 1_048_560;

#[derive(Clone)]
struct Call {
    language: Language,
    n: u32,
    m: u32,
    mode: u32,
    a: Vec<u32>,
    r: Vec<u32>,
    mapping: Vec<u32>,
    f: Vec<u32>,
}

impl Call {
    fn sound(mode: u32) -> Call {
        let t = |value: u32| if mode == PLAIN { 0 } else { value };
        Call {
            language: dist(),
            n: 3,
            m: 1,
            mode,
            a: printed_arcs(),
            r: printed_best(),
            mapping: entries(&[None, Some((0, t(7))), Some((0, t(4)))]),
            f: vec![9; 15],
        }
    }

    fn run(&mut self) -> Refusal {
        let Call {
            language,
            n,
            m,
            mode,
            a,
            r,
            mapping,
            f,
        } = self;
        forward(language, *n, *m, *mode, a, r, mapping, f)
    }
}

#[test]
fn cold_is_the_printed_case() {
    let mut call = Call::sound(COLD);
    assert_eq!(call.run(), Refusal::DONE);
    assert_eq!(call.f, entries(&[Some((5, 4)), Some((3, 4)), Some((0, 4))]));
}

#[test]
fn p6_hot_takes_the_lighter_route() {
    let mut call = Call::sound(HOT);
    assert_eq!(call.run(), Refusal::DONE);
    assert_eq!(call.f, entries(&[Some((2, 7)), Some((0, 7)), Some((0, 4))]));
}

#[test]
fn plain_has_no_outside_number() {
    let mut call = Call::sound(PLAIN);
    assert_eq!(call.run(), Refusal::DONE);
    assert_eq!(call.f, entries(&[Some((2, 0)), Some((0, 0)), Some((0, 0))]));
}

#[test]
fn ties_go_by_the_other_number() {
    let (n, s) = (None, Some);
    let mut call = Call::sound(HOT);
    // Nodes 1 and 2 lie at weights 2 and 5 from node 0; both attachments then weigh 6.
    call.mapping = entries(&[n, s((4, 9)), s((1, 8))]);
    assert_eq!(call.run(), Refusal::DONE);
    assert_eq!(call.f[..5], [6, 0, 0, 0, 8]);
    call.mode = COLD;
    call.mapping = entries(&[n, s((4, 9)), s((0, 9))]);
    assert_eq!(call.run(), Refusal::DONE);
    assert_eq!(call.f[..5], [5, 0, 0, 0, 9]);
}

#[test]
fn nothing_attached_is_empty() {
    let mut call = Call::sound(COLD);
    call.mapping = entries(&[Some((1, 1)), None, None]);
    assert_eq!(call.run(), Refusal::DONE);
    assert_eq!(call.f[..5], [1, 0, 0, 0, 1]);
    assert_eq!(call.f[5..], [EMPTY, EMPTY].concat());
}

#[test]
fn the_largest_sum_is_written() {
    let mut arcs = vec![None; 256];
    for node in 0..15 {
        arcs[node * 16 + node + 1] = Some(65_535);
    }
    let a = single(&arcs);
    let mut mapping = entries(&[None; 15]);
    mapping.extend([65_535, 0, 0, 0, 0]);
    let mut f = vec![0; 80];
    let r = best_words(&dist(), 16, &a);
    assert!(forward(&dist(), 16, 1, PLAIN, &a, &r, &mapping, &mut f).is_done());
    assert_eq!(f[..5], [1_048_560, 0, 0, 0, 0]);
}

type Fault = (fn(&mut Call), Refusal);

/// Faults in the order of their refusals, over a sound hot call.
fn faults() -> Vec<Fault> {
    vec![
        (|call| call.n = 0, refusal(3, 1, 0)),
        (|call| call.m = 33, refusal(3, 2, 0)),
        (|call| call.m = 0, refusal(3, 3, 0)),
        (|call| call.mode = 0, refusal(3, 3, 0)),
        (|call| call.mode = 4, refusal(3, 3, 0)),
        (|call| call.language.count = 5, refusal(5, 0, 0)),
        (|call| call.language.places[0] = Width(0), refusal(4, 0, 0)),
        (|call| call.a.clear(), refusal(9, 1, 0)),
        (|call| call.r.push(0), refusal(9, 2, 0)),
        (|call| call.mapping.truncate(14), refusal(9, 3, 0)),
        (|call| call.f.truncate(14), refusal(9, 4, 0)),
        (
            |call| call.language = Language::of(&[Width(9), Dist]),
            refusal(10, 1, 0),
        ),
        (|call| call.language.places[0] = Gain, refusal(10, 2, 0)),
        (|call| call.language.places[0] = Width(9), refusal(10, 3, 0)),
        (|call| call.a[5] = 3, refusal(6, 1, 4)),
        (|call| call.r[32] = 983_026, refusal(6, 2, 32)),
        (|call| call.mapping[9] = 65_536, refusal(6, 3, 5)),
        (|call| call.r[8] = 6, refusal(12, 2, 0)),
    ]
}

#[test]
fn refusals_come_in_order_and_touch_nothing() {
    let faults = faults();
    for (first, (put_first, expected)) in faults.iter().enumerate() {
        for (put_second, _) in &faults[first..] {
            let mut call = Call::sound(HOT);
            // The earlier fault goes in last where both change one field.
            put_second(&mut call);
            put_first(&mut call);
            assert_eq!(call.run(), *expected);
            assert!(call.f.iter().all(|word| *word == 9));
        }
    }
    assert!(Call::sound(HOT).run().is_done());
}

#[test]
fn malformed_mapping_entries() {
    let ones = u32::MAX;
    let bad = [
        [ones, ones, ones, ones, 0],
        [ones, ones, ones, ones, 5],
        [0, 0, 0, 0, ones],
        [0, 0, 0, 0, 65_536],
        [65_536, 0, 0, 0, 0],
        [0, 1, 0, 0, 0],
    ];
    for entry in bad {
        let mut call = Call::sound(COLD);
        call.mapping[10..].copy_from_slice(&entry);
        assert_eq!(call.run(), refusal(6, 3, 10));
    }
    let mut call = Call::sound(PLAIN);
    call.mapping[9] = 1;
    assert_eq!(call.run(), refusal(6, 3, 5));
    let mut call = Call::sound(COLD);
    call.mapping[5..].copy_from_slice(&[65_535, 0, 0, 0, 65_535, 0, 0, 0, 0, 0]);
    assert!(call.run().is_done());
}

#[test]
fn cold_takes_a_language_that_does_not_cancel() {
    let language = Language::of(&[Width(9)]);
    let (a, r) = (single(&[None]), single(&[Some(9)]));
    for (mode, expected) in [
        (PLAIN, Refusal::DONE),
        (HOT, refusal(10, 3, 0)),
        (COLD, Refusal::DONE),
    ] {
        let mut f = vec![0; 5];
        assert_eq!(
            forward(
                &language,
                1,
                1,
                mode,
                &a,
                &r,
                &entries(&[Some((4, 0))]),
                &mut f
            ),
            expected
        );
    }
}

#[test]
fn forwarding_solves_its_equation() {
    let mut dice = Dice::new(6);
    for _ in 0..1_500 {
        let mode = dice.pick(&[PLAIN, HOT, COLD]);
        let language = if mode == HOT {
            cancelling_language(&mut dice)
        } else {
            lawful_language(&mut dice)
        };
        let (n, m) = (dice.between(1, 7) as u32, dice.between(1, 4) as u32);
        let standing = dice.pick(&[Standing::Best, Standing::Ghost]);
        let spread = dice.pick(&[Spread::Small, Spread::Large, Spread::Mixed]);
        let RoutingCase { arcs: a, matrix: r } =
            routing_case(&mut dice, &language, n, standing, spread);
        let mapping = mapping_table(&mut dice, &language, (n, m), mode, 50, spread);
        let mut f = vec![0; mapping.len()];
        let answer = forward(&language, n, m, mode, &a, &r, &mapping, &mut f);
        assert_eq!(answer, Refusal::DONE);
        let arcs = Matrix::from_words(&language, n as usize, &a, ARC_LIMIT).unwrap();
        let table = |words: &[u32], limit| {
            Table::from_words(&language, m as usize, mode, words, limit).unwrap()
        };
        let (f, mapping) = (table(&f, FORWARDING_LIMIT), table(&mapping, ARC_LIMIT));
        assert!(satisfies_forwarding_equation(
            &language, mode, &arcs, &f, &mapping
        ));
    }
}
