//! The next hop: the lowest node whose arc gives the weight, none, and which refusal.

mod common;

use common::{dist, printed_arcs, printed_best, refusal, single};
use reference::{next_hop, Component, Language, Refusal};

use Component::{Gain, Width};

#[test]
fn next_hops_of_the_printed_case() {
    let (a, r) = (printed_arcs(), printed_best());
    let hop = |i, j| next_hop(&dist(), 3, &a, &r, i, j);
    assert_eq!(hop(0, 1), (Refusal::DONE, true, 1));
    assert_eq!(hop(0, 2), (Refusal::DONE, true, 1));
    assert_eq!(hop(1, 2), (Refusal::DONE, true, 2));
    assert_eq!(hop(1, 0), (Refusal::DONE, false, 0));
    assert_eq!(hop(1, 1), (Refusal::DONE, false, 0));
    assert_eq!(hop(3, 3), (refusal(7, 0, 0), false, 0));
    assert_eq!(hop(2, u32::MAX), (refusal(7, 0, 1), false, 0));
}

#[test]
fn a_hop_is_never_the_node_itself() {
    let (n, s) = (None, Some);
    let a = single(&[s(0), n, n, n]);
    let r = single(&[s(0), s(4), n, s(0)]);
    assert_eq!(
        next_hop(&dist(), 2, &a, &r, 0, 1),
        (Refusal::DONE, false, 0)
    );
    // The lowest of two equal hops, and the destination itself as one.
    let a = single(&[n, s(1), s(2), n, n, s(1), n, n, n]);
    let r = single(&[s(0), s(1), s(2), n, s(0), s(1), n, n, s(0)]);
    assert_eq!(next_hop(&dist(), 3, &a, &r, 0, 2), (Refusal::DONE, true, 1));
}

#[test]
fn next_hop_refusals() {
    let (a, r) = (printed_arcs(), printed_best());
    let mut bad = r.clone();
    bad[3] = 1;
    let cases = [
        (
            next_hop(&Language::NONE, 17, &a, &r, 9, 9),
            refusal(3, 1, 0),
        ),
        (
            next_hop(&Language::NONE, 3, &a, &[], 9, 9),
            refusal(5, 0, 0),
        ),
        (
            next_hop(&Language::of(&[Width(0)]), 3, &[], &[], 9, 9),
            refusal(4, 0, 0),
        ),
        (next_hop(&dist(), 3, &[], &[], 9, 9), refusal(9, 1, 0)),
        (
            next_hop(&Language::of(&[Gain]), 3, &a, &[], 9, 9),
            refusal(9, 2, 0),
        ),
        (
            next_hop(&Language::of(&[Gain]), 3, &bad, &bad, 9, 9),
            refusal(10, 2, 0),
        ),
        (next_hop(&dist(), 3, &bad, &bad, 9, 9), refusal(6, 1, 0)),
        (next_hop(&dist(), 3, &a, &bad, 9, 9), refusal(6, 2, 0)),
    ];
    for (found, expected) in cases {
        assert_eq!(found, (expected, false, 0));
    }
}
