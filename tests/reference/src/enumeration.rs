//! A fixed list of languages, by component numbers, their numbers and the text of their law reports.
//! Two implementations print the list and the outputs are compared byte for byte.

use crate::laws::laws;
use crate::weights::{Component, Language};

const KINDS: usize = 12;
const LIMITS: [u16; 5] = [0, 1, 2, 9, 65_535];
/// The component numbers that four-component languages are made of.
const CHOSEN: [usize; 6] = [0, 1, 3, 5, 7, 10];

/// A language by its count and the numbers of its four components.
#[derive(Clone, Copy, Debug, PartialEq, Eq)]
pub struct Numbered {
    pub count: u32,
    pub places: [usize; 4],
}

/// 0 dist, 1 gain, 2..6 width and 7..11 class with the five limits.
pub fn component(number: usize) -> Component {
    match number {
        0 => Component::Dist,
        1 => Component::Gain,
        2..=6 => Component::Width(LIMITS[number - 2]),
        _ => Component::Class(LIMITS[(number - 7) % LIMITS.len()]),
    }
}

impl Numbered {
    pub fn language(&self) -> Language {
        Language {
            count: self.count,
            places: self.places.map(component),
        }
    }

    /// The nine numbers of the language: count, then kind and limit for each place.
    pub fn numbers(&self) -> String {
        let mut numbers = vec![self.count];
        for place in self.places.map(component) {
            numbers.extend(kind_and_limit(place));
        }
        joined(&numbers)
    }

    /// The text of its law report.
    pub fn report(&self) -> String {
        report(&self.language())
    }
}

/// The text of a law report: three laws with their words, or the refusal.
fn report(language: &Language) -> String {
    let report = laws(language);
    let refusal = report.refusal;
    if refusal.number != 0 {
        return format!(
            "REFUSED {} {} {}\n",
            refusal.number, refusal.which, refusal.place
        );
    }
    let law = |index: usize| {
        let words = &report.words[index];
        let verdict = if report.held[index] { "held" } else { "broken" };
        let (s, x, y) = (
            joined(&words[0..4]),
            joined(&words[4..8]),
            joined(&words[8..12]),
        );
        format!("{} {verdict}: s {s} x {x} y {y}\n", ["D", "U", "C"][index])
    };
    [0, 1, 2].map(law).concat()
}

/// Lines off the list, each with its report: kinds and limits that there are none of, which are refused with 4 where they
/// count and ignored where they do not, and numbers set apart by more than a space.
pub fn odd_lines() -> Vec<(&'static str, String)> {
    let refused = |place: u32| format!("REFUSED 4 0 {place}\n");
    let dist = Numbered {
        count: 1,
        places: [0; 4],
    }
    .report();
    vec![
        ("1 0 0 1 0 1 0 1 0\n", refused(0)),
        ("2 1 0 5 7 1 0 1 0\n", refused(1)),
        ("4 1 0 1 0 1 0 2 65536\n", refused(3)),
        ("1 1 0 9 9 0 0 2 99999\n", dist.clone()),
        ("\n", String::new()),
        ("  1   1\t0", dist),
    ]
}

fn kind_and_limit(component: Component) -> [u32; 2] {
    match component {
        Component::Dist => [1, 0],
        Component::Width(limit) => [2, limit.into()],
        Component::Class(limit) => [3, limit.into()],
        Component::Gain => [4, 0],
    }
}

fn joined(numbers: &[u32]) -> String {
    let texts: Vec<String> = numbers.iter().map(u32::to_string).collect();
    texts.join(" ")
}

/// Every language of the list, in its order.
pub fn languages() -> Vec<Numbered> {
    let mut list = Vec::new();
    let mut add = |count, places| list.push(Numbered { count, places });
    for count in [0, 5] {
        add(count, [0; 4]);
        add(count, [2; 4]);
    }
    for p0 in 0..KINDS {
        add(1, [p0, 0, 1, 2]);
    }
    for pair in 0..KINDS.pow(2) {
        add(2, [pair / KINDS, pair % KINDS, 2, 1]);
    }
    for triple in 0..KINDS.pow(3) {
        let [_, p0, p1, p2] = digits(triple);
        add(3, [p0, p1, p2, (p0 + p1 + p2) % KINDS]);
    }
    for four in 0..CHOSEN.len().pow(4) {
        let digit = |scale: u32| CHOSEN[four / CHOSEN.len().pow(scale) % CHOSEN.len()];
        add(4, [digit(3), digit(2), digit(1), digit(0)]);
    }
    for k in 0..500 {
        add(4, digits((k * 41 + 7) % KINDS.pow(4)));
    }
    list
}

/// The four digits in base twelve, highest first.
fn digits(value: usize) -> [usize; 4] {
    [1728, 144, 12, 1].map(|scale| value / scale % KINDS)
}
