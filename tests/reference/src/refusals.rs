//! The answer "number, which, place" and the checks that several calls share.
//! Each check is one refusal number, so that a call reads as the order of its refusals.

use crate::weights::{weight_from_words, Component, Language, WEIGHT_WORDS};

/// 0 0 0 is done.
#[derive(Clone, Copy, Debug, PartialEq, Eq)]
pub struct Refusal {
    pub number: u32,
    pub which: u32,
    pub place: u32,
}

pub type Checked<T> = Result<T, Refusal>;

/// Buffer numbers, as "which" names them.
pub const BUFFER_A: u32 = 1;
pub const BUFFER_R: u32 = 2;
pub const BUFFER_M: u32 = 3;
pub const BUFFER_F: u32 = 4;
pub const BUFFER_STANDING: u32 = 5;

impl Refusal {
    pub const DONE: Refusal = Refusal::new(0, 0, 0);

    pub const fn new(number: u32, which: u32, place: u32) -> Refusal {
        Refusal {
            number,
            which,
            place,
        }
    }

    pub fn is_done(&self) -> bool {
        *self == Refusal::DONE
    }
}

/// The refusal of a checked answer, done if there is none.
pub fn refusal_of<T>(checked: &Checked<T>) -> Refusal {
    match checked {
        Ok(_) => Refusal::DONE,
        Err(refusal) => *refusal,
    }
}

/// 3 on n.
pub fn check_nodes(n: u32) -> Checked<usize> {
    if (1..=16).contains(&n) {
        Ok(n as usize)
    } else {
        Err(Refusal::new(3, 1, 0))
    }
}

/// 5, then 4: a calling language has no tags, so 4 is a width without a value.
pub fn check_language(language: &Language) -> Checked<()> {
    if !(1..=4).contains(&language.count) {
        return Err(Refusal::new(5, 0, 0));
    }
    let is_bad = |c: &Component| matches!(c, Component::Width(0));
    match language.components().iter().position(is_bad) {
        Some(place) => Err(Refusal::new(4, 0, place as u32)),
        None => Ok(()),
    }
}

/// 9 on one buffer, whose length must be exact.
pub fn check_length(buffer: u32, found: usize, wanted: usize) -> Checked<()> {
    if found == wanted {
        Ok(())
    } else {
        Err(Refusal::new(9, buffer, 0))
    }
}

/// 6 on a buffer of weights: the first word of the first bad entry.
pub fn check_weights(
    language: &Language,
    buffer: u32,
    words: &[u32],
    sum_limit: u64,
) -> Checked<()> {
    for (index, entry) in words.chunks(WEIGHT_WORDS).enumerate() {
        if weight_from_words(language, entry, sum_limit).is_none() {
            return Err(Refusal::new(6, buffer, (index * WEIGHT_WORDS) as u32));
        }
    }
    Ok(())
}

/// 7 on an argument: `place` is 0 for i and 1 for j.
pub fn check_argument(n: u32, node: u32, place: u32) -> Checked<usize> {
    if node < n {
        Ok(node as usize)
    } else {
        Err(Refusal::new(7, 0, place))
    }
}
