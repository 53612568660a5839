//! Random languages: any sound one, lawful ones (D and U), cancelling ones (C as well), and
//! damaged ones. Unused places hold anything, as calls ignore them.

use super::Dice;
use crate::weights::{Component, Language};

/// Limits that sit at an edge, or any.
fn limit(dice: &mut Dice, lowest: u64) -> u16 {
    let any = dice.between(lowest, 65_535);
    dice.pick(&[lowest, 1, 2, 3, 9, 10, 65_534, 65_535, any]) as u16
}

fn any_component(dice: &mut Dice) -> Component {
    match dice.below(4) {
        0 => Component::Dist,
        1 => Component::Width(limit(dice, 1)),
        2 => Component::Class(limit(dice, 0)),
        _ => Component::Gain,
    }
}

/// A component that keeps every law: dist, or one with a single value.
fn harmless_component(dice: &mut Dice) -> Component {
    dice.pick(&[
        Component::Dist,
        Component::Dist,
        Component::Width(1),
        Component::Class(0),
    ])
}

fn trivial_component(dice: &mut Dice) -> Component {
    dice.pick(&[Component::Width(1), Component::Class(0)])
}

fn bottleneck(dice: &mut Dice) -> Component {
    if dice.percent(50) {
        Component::Width(limit(dice, 2).max(2))
    } else {
        Component::Class(limit(dice, 1).max(1))
    }
}

/// Fills the unused places with anything, a width without a value included.
fn with_unused_places(dice: &mut Dice, components: &[Component]) -> Language {
    let mut language = Language::of(components);
    for place in language.places.iter_mut().skip(components.len()) {
        *place = dice.pick(&[Component::Dist, Component::Gain, Component::Width(0)]);
    }
    language
}

/// A sound language, lawful or not.
pub fn any_language(dice: &mut Dice) -> Language {
    let count = dice.between(1, 4);
    let components: Vec<Component> = (0..count).map(|_| any_component(dice)).collect();
    with_unused_places(dice, &components)
}

/// Laws D and U hold: at most one bottleneck, and only single values after it.
pub fn lawful_language(dice: &mut Dice) -> Language {
    let count = dice.between(1, 4) as usize;
    let narrow = dice.index(count + 1);
    let mut components = Vec::new();
    for place in 0..count {
        components.push(if place < narrow {
            harmless_component(dice)
        } else if place == narrow {
            bottleneck(dice)
        } else {
            trivial_component(dice)
        });
    }
    with_unused_places(dice, &components)
}

/// All three laws hold.
pub fn cancelling_language(dice: &mut Dice) -> Language {
    let count = dice.between(1, 4);
    let components: Vec<Component> = (0..count).map(|_| harmless_component(dice)).collect();
    with_unused_places(dice, &components)
}

/// A count out of range, a width without a value in a used place, or both.
pub fn damaged_language(dice: &mut Dice) -> Language {
    let mut language = any_language(dice);
    let damage = dice.below(3);
    if damage != 0 {
        let place = dice.index(language.components().len());
        language.places[place] = Component::Width(0);
    }
    if damage != 1 {
        language.count = dice.pick(&[0, 5, 6, 255, 65_536, u32::MAX]);
    }
    language
}
