//! Small helpers that the tests share.
#![allow(dead_code)]

use reference::{Component, Language, Refusal};

pub const NONE: [u32; 4] = [u32::MAX; 4];
pub const EMPTY: [u32; 5] = [u32::MAX; 5];
pub const PRINTED: &str = "00000021 01030103 01 0003 00010002 00020009 01020003 \
                           0002 010000000007 020000000004";

pub fn dist() -> Language {
    Language::of(&[Component::Dist])
}

pub fn refusal(number: u32, which: u32, place: u32) -> Refusal {
    Refusal::new(number, which, place)
}

/// The bytes of a hex text with spaces.
pub fn hex(text: &str) -> Vec<u8> {
    let digits: Vec<u32> = text.chars().filter_map(|c| c.to_digit(16)).collect();
    digits
        .chunks(2)
        .map(|two| (two[0] * 16 + two[1]) as u8)
        .collect()
}

/// A body in hex after its right byte count.
pub fn counted(body: &str) -> Vec<u8> {
    let body = hex(body);
    let mut bytes = (body.len() as u32).to_be_bytes().to_vec();
    bytes.extend(body);
    bytes
}

/// Words of weights with one component; `None` is no route.
pub fn single(values: &[Option<u32>]) -> Vec<u32> {
    let words = |value: &Option<u32>| value.map_or(NONE, |v| [v, 0, 0, 0]);
    values.iter().flat_map(words).collect()
}

/// Words of mapping entries with one component and t.
pub fn entries(values: &[Option<(u32, u32)>]) -> Vec<u32> {
    let words = |value: &Option<(u32, u32)>| value.map_or(EMPTY, |(v, t)| [v, 0, 0, 0, t]);
    values.iter().flat_map(words).collect()
}

/// The printed case's network: three nodes, arcs 0 to 1, 0 to 2, 1 to 2.
pub fn printed_arcs() -> Vec<u32> {
    let (n, s) = (None, Some);
    single(&[n, s(2), s(9), n, n, s(3), n, n, n])
}

pub fn printed_best() -> Vec<u32> {
    let (n, s) = (None, Some);
    single(&[s(0), s(2), s(5), n, s(0), s(3), n, n, s(0)])
}
