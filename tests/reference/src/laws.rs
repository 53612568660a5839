//! The three laws: deciding them by the paper's tests, the weights shown when one is broken,
//! and the laws' own definitions, by which shown weights can be judged.

use crate::refusals::{check_language, Checked, Refusal};
use crate::weights::{better_of, is_better, join, unit, Component, Language, Weight};

/// D, U, C in this order; twelve words are s, x, y of four words each.
#[derive(Clone, Copy, Debug, PartialEq, Eq)]
pub struct LawReport {
    pub refusal: Refusal,
    pub held: [bool; 3],
    pub words: [[u32; 12]; 3],
}

/// The values of s, x and y that break a law.
type Witness = [Vec<u64>; 3];

/// Decides the laws; refuses 5 and 4 only.
pub fn laws(language: &Language) -> LawReport {
    if let Err(refusal) = check_language(language) {
        return LawReport {
            refusal,
            held: [false; 3],
            words: [[0; 12]; 3],
        };
    }
    let parts = language.components();
    let broken = [witness_d(parts), witness_u(parts), witness_c(parts)];
    LawReport {
        refusal: Refusal::DONE,
        held: [0, 1, 2].map(|law: usize| broken[law].is_none()),
        words: [0, 1, 2].map(|law: usize| witness_words(broken[law].as_ref())),
    }
}

/// 10: D and U for every call, C for hot as well.
pub fn check_laws(language: &Language, hot: bool) -> Checked<()> {
    let held = laws(language).held;
    let needed = if hot { 3 } else { 2 };
    match held.iter().take(needed).position(|law| !law) {
        Some(law) => Err(Refusal::new(10, law as u32 + 1, 0)),
        None => Ok(()),
    }
}

/// A width or class that loses what it is joined with.
fn is_bottleneck(component: &Component) -> bool {
    component.worst().is_some() && !component.is_trivial()
}

fn units(parts: &[Component]) -> Vec<u64> {
    parts.iter().map(|c| c.unit()).collect()
}

/// The worse and the better value that x and y hold at the later component.
fn worse_and_better(component: Component) -> (u64, u64) {
    match component {
        Component::Dist => (1, 0),
        Component::Gain => (0, 1),
        Component::Width(_) => (1, component.unit()),
        Component::Class(limit) => (u64::from(limit), component.unit()),
    }
}

/// Only the last component that has two values may be a bottleneck, so the first one decides.
fn witness_d(parts: &[Component]) -> Option<Witness> {
    let i = parts.iter().position(is_bottleneck)?;
    let after = parts[i + 1..].iter().position(|c| !c.is_trivial())?;
    let j = i + 1 + after;
    let worst = parts[i].worst()?;
    let (mut s, mut x, mut y) = (units(parts), units(parts), units(parts));
    s[i] = worst;
    y[i] = worst;
    (x[j], y[j]) = worse_and_better(parts[j]);
    Some([s, x, y])
}

fn witness_u(parts: &[Component]) -> Option<Witness> {
    let i = parts.iter().position(|c| *c == Component::Gain)?;
    let mut x = units(parts);
    x[i] = 1;
    let zeros = vec![0; parts.len()];
    Some([zeros.clone(), x, zeros])
}

fn witness_c(parts: &[Component]) -> Option<Witness> {
    let i = parts.iter().position(is_bottleneck)?;
    let worst = parts[i].worst()?;
    let (mut s, x, mut y) = (units(parts), units(parts), units(parts));
    s[i] = worst;
    y[i] = worst;
    Some([s, x, y])
}

fn witness_words(witness: Option<&Witness>) -> [u32; 12] {
    let mut words = [0; 12];
    for (weight, values) in witness.into_iter().flatten().enumerate() {
        for (place, value) in values.iter().enumerate() {
            words[weight * 4 + place] = *value as u32;
        }
    }
    words
}

/// Whether these weights break law D, by its definition.
pub fn breaks_d(language: &Language, s: &Weight, x: &Weight, y: &Weight) -> bool {
    let chosen_first = join(language, s, &better_of(language, x.clone(), y.clone()));
    let joined_first = better_of(language, join(language, s, x), join(language, s, y));
    chosen_first != joined_first
}

/// Whether this weight breaks law U, by its definition.
pub fn breaks_u(language: &Language, x: &Weight) -> bool {
    is_better(language, x, &unit(language))
}

/// Whether these weights break law C, by its definition.
pub fn breaks_c(language: &Language, s: &Weight, x: &Weight, y: &Weight) -> bool {
    let joined = join(language, s, x);
    joined.is_some() && joined == join(language, s, y) && x != y
}
