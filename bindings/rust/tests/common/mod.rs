//! A small source of chance, and problems drawn from it.

use tronglephu::{
    Component, Destination, Entry, Language, Matrix, Mode, Network, Node, Problem, Table, Weight,
};

/// An xorshift: the same numbers for the same seed.
pub struct Dice(u64);

impl Dice {
    pub fn new(seed: u64) -> Dice {
        let mut dice = Dice(seed.wrapping_mul(0x9E37_79B9_7F4A_7C15) | 1);
        for _ in 0..4 {
            dice.roll();
        }
        dice
    }

    fn roll(&mut self) -> u64 {
        self.0 ^= self.0 << 13;
        self.0 ^= self.0 >> 7;
        self.0 ^= self.0 << 17;
        self.0
    }

    /// A number from low to high, both possible.
    pub fn between(&mut self, low: u32, high: u32) -> u32 {
        let span = u64::from(high - low) + 1;
        low + ((self.roll() >> 20) % span) as u32
    }

    fn percent(&mut self, chance: u32) -> bool {
        self.between(0, 99) < chance
    }

    fn limit(&mut self, lowest: u32) -> u16 {
        let high = if self.percent(50) { 9 } else { 65_535 };
        self.between(lowest, high) as u16
    }
}

fn component(dice: &mut Dice) -> Component {
    match dice.between(0, 3) {
        0 => Component::Dist,
        1 => Component::Width(dice.limit(1)),
        2 => Component::Class(dice.limit(0)),
        _ => Component::Gain,
    }
}

fn value(dice: &mut Dice, component: Component) -> u32 {
    match component {
        Component::Dist | Component::Gain => dice.between(0, 65_535),
        Component::Width(limit) => dice.between(1, limit.into()),
        Component::Class(limit) => dice.between(0, limit.into()),
    }
}

fn values(dice: &mut Dice, components: &[Component]) -> [u32; 4] {
    let mut values = [0; 4];
    for (value_at, component) in values.iter_mut().zip(components) {
        *value_at = value(dice, *component);
    }
    values
}

/// A problem that a file can hold; its language need not be lawful.
pub fn problem(dice: &mut Dice) -> Problem {
    let count = dice.between(1, 4);
    let components: Vec<Component> = (0..count).map(|_| component(dice)).collect();
    let n = dice.between(1, 16) as u8;
    let m = dice.between(0, 8) as u8 * dice.between(0, 4) as u8;
    let density = dice.between(0, 100);
    let mode = match m {
        0 => None,
        _ => Mode::from_number(dice.between(1, 3)),
    };
    let mut arcs = Matrix::without_routes(n);
    for (i, j) in pairs(n, n) {
        if dice.percent(density) {
            let weight = Weight::Route(values(dice, &components));
            arcs.set(Node(i), Node(j), weight);
        }
    }
    let mut mapping = Table::empty(n, m);
    for (i, d) in pairs(n, m) {
        if dice.percent(density) {
            let values = values(dice, &components);
            let plain = mode == Some(Mode::Plain);
            let t = if plain { 0 } else { dice.between(0, 65_535) };
            mapping.set(Node(i), Destination(d), Entry::Route { values, t });
        }
    }
    let network = Network::new(Language::of(&components), arcs);
    Problem::new(network, mode, mapping)
}

fn pairs(rows: u8, columns: u8) -> Vec<(u8, u8)> {
    let row = |i: u8| (0..columns).map(move |j| (i, j));
    (0..rows).flat_map(row).collect()
}
