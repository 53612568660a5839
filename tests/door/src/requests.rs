//! Calls as the exported functions take them: the language as 16-bit numbers, and a slice for the report or the problem.

use compare::calls::{Call, Kind, LanguageWords};
use compare::generate;
use reference::generator::Dice;

/// The least words of a law report and of a problem.
pub const REPORT_WORDS: usize = 36;
pub const PROBLEM_WORDS: usize = 12;
/// The numbers of a language.
const NUMBERS: usize = 9;

#[derive(Clone, Debug, PartialEq, Eq)]
pub struct Request {
    /// The call, whose language and buffers are what the independent implementation is given.
    pub call: Call,
    pub language: Vec<u16>,
    /// Where the law report or the problem goes; empty in the other calls.
    pub told: Vec<u32>,
}

/// The call of a seed, or of the next seed far on, until it is one that is exported.
fn exported_call(seed: u64) -> Call {
    let seeds = (0..).map(|turn: u64| seed.wrapping_add(turn << 40));
    let mut calls = seeds.map(generate::call);
    calls
        .find(|call| call.kind != Kind::Print)
        .expect("some call is exported")
}

impl Request {
    /// The request of a seed.
    pub fn new(seed: u64) -> Request {
        let call = exported_call(seed);
        let mut dice = Dice::new(!seed);
        let mut language = sixteen_bits(&call.language);
        if dice.percent(2) {
            language.resize(dice.pick(&[0, 1, 8, 10, 18]), 1);
        }
        let told = told(&mut dice, call.kind);
        Request::of(call, language, told)
    }

    /// The call with these numbers for its language.
    pub fn of(mut call: Call, language: Vec<u16>, told: Vec<u32>) -> Request {
        // a slice of another length is taken as no component
        call.language = match <[u16; NUMBERS]>::try_from(language.as_slice()) {
            Ok(numbers) => numbers.map(u32::from),
            Err(_) => [0; NUMBERS],
        };
        Request {
            call,
            language,
            told,
        }
    }

    /// Whether the language is a slice of another length than nine.
    pub fn has_odd_language(&self) -> bool {
        self.language.len() != NUMBERS
    }

    /// Whether the slice for the report or the problem is too short.
    pub fn is_told_too_short(&self) -> bool {
        match self.call.kind {
            Kind::Laws => self.told.len() < REPORT_WORDS,
            Kind::Read => self.told.len() < PROBLEM_WORDS,
            _ => false,
        }
    }
}

/// A slice of mostly enough words, which hold anything.
fn told(dice: &mut Dice, kind: Kind) -> Vec<u32> {
    let least = match kind {
        Kind::Laws => REPORT_WORDS,
        Kind::Read => PROBLEM_WORDS,
        _ => return Vec::new(),
    };
    let length = match dice.below(20) {
        0 => dice.index(least),
        1..=5 => least + 1 + dice.index(30),
        _ => least,
    };
    (0..length).map(|_| dice.roll() as u32).collect()
}

/// What does not fit 16 bits is given as another count that is refused, and as another kind that is.
fn sixteen_bits(words: &LanguageWords) -> Vec<u16> {
    let mut numbers = vec![u16::try_from(words[0]).unwrap_or(u16::MAX)];
    for place in words[1..].chunks(2) {
        match (u16::try_from(place[0]), u16::try_from(place[1])) {
            (Ok(kind), Ok(limit)) => numbers.extend([kind, limit]),
            _ => numbers.extend([u16::MAX, 0]),
        }
    }
    numbers
}

#[cfg(test)]
mod tests {
    use super::*;

    #[test]
    fn large_numbers_become_refused_ones() {
        let words = [65_536, 1, 65_536, 65_537, 1, 2, 9, 3, 65_535];
        let numbers = [65_535, 65_535, 0, 65_535, 0, 2, 9, 3, 65_535];
        assert_eq!(sixteen_bits(&words), numbers);
    }

    #[test]
    fn every_slice_is_sometimes_too_short() {
        let requests: Vec<Request> = (0..3_000).map(Request::new).collect();
        for kind in [Kind::Laws, Kind::Read] {
            let of_kind = || requests.iter().filter(|r| r.call.kind == kind);
            assert!(of_kind().any(Request::is_told_too_short));
            assert!(!of_kind().all(Request::is_told_too_short));
        }
        assert!(requests.iter().any(Request::has_odd_language));
    }
}
