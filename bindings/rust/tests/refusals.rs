//! Refusals in words, and the page that lists them.

use std::error::Error;

use tronglephu::{refusals_page, Call, Refusal};

fn said(call: Call, number: u32, which: u32, place: u32) -> String {
    let refusal = Refusal {
        call,
        number,
        which,
        place,
    };
    let error: Box<dyn Error> = refusal.into();
    error.to_string()
}

#[test]
fn refusals_are_said_in_words() {
    let cases = [
        ((Call::Steps, 6, 1, 12), "A is malformed at word 12"),
        ((Call::Steps, 7, 0, 3), "step 3 of the list is no step"),
        ((Call::NextHop, 7, 0, 1), "j is no node"),
        (
            (Call::Handover, 9, 2, 0),
            "the new matrix does not have n x n x 4 words",
        ),
        ((Call::Forward, 9, 2, 0), "R does not have n x n x 4 words"),
        ((Call::Fresh, 10, 1, 0), "law D does not hold"),
        ((Call::Read, 2, 0, 4), "the version is not 1"),
        (
            (Call::Read, 6, 0, 31),
            "the value at byte 31 is out of range",
        ),
        (
            (Call::Steps, 11, 0, 0),
            "step 0 of the list would store a sum above 983,025",
        ),
        (
            (Call::Steps, 11, 0, 5),
            "step 5 of the list would store a sum above 983,025; the steps before it are done",
        ),
        ((Call::Laws, 13, 0, 0), "laws never answers 13 0 0"),
    ];
    for ((call, number, which, place), words) in cases {
        assert_eq!(said(call, number, which, place), words);
    }
}

#[test]
fn calls_are_named() {
    for call in Call::ALL {
        assert_eq!(call.name().parse(), Ok(call));
    }
    let fault = "sweep".parse::<Call>().unwrap_err();
    assert!(fault.to_string().ends_with("next_hop, handover"));
}

/// `cargo run --example explain page > ../../docs/REFUSALS.md` makes the page anew.
#[test]
fn the_page_is_up_to_date() {
    let path = concat!(env!("CARGO_MANIFEST_DIR"), "/../../docs/REFUSALS.md");
    let page = std::fs::read_to_string(path).unwrap();
    assert!(
        page == refusals_page(),
        "docs/REFUSALS.md differs from the crate's texts"
    );
}
