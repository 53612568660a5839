//! Generated networks, tables and problem files, and the same in the shapes of each implementation.

use crate::equal::weights::{Component, Language};
use crate::plain::{self, Kind, Weight};

pub const ONES: u32 = u32::MAX;

/// A small generator of numbers, the same on every run.
pub struct Dice(u64);

impl Dice {
    pub fn new(seed: u64) -> Dice {
        Dice(seed.wrapping_mul(0x9e37_79b9_7f4a_7c15) | 1)
    }

    pub fn below(&mut self, bound: u32) -> u32 {
        self.0 ^= self.0 << 13;
        self.0 ^= self.0 >> 7;
        self.0 ^= self.0 << 17;
        ((self.0 >> 16) % u64::from(bound)) as u32
    }
}

/// A language by name, its components as kind (the file's tag) and limit.
pub struct Named {
    pub name: &'static str,
    pub components: &'static [(u16, u16)],
}

pub const LANGUAGES: [Named; 4] = [
    Named {
        name: "dist",
        components: &[(1, 0)],
    },
    Named {
        name: "dist, width",
        components: &[(1, 0), (2, 100)],
    },
    Named {
        name: "class",
        components: &[(3, 9)],
    },
    Named {
        name: "four",
        components: &[(1, 0), (1, 0), (1, 0), (2, 100)],
    },
];

impl Named {
    pub fn words(&self) -> [u16; 9] {
        let mut words = [1, 1, 0, 1, 0, 1, 0, 1, 0];
        words[0] = self.components.len() as u16;
        for (index, (kind, limit)) in self.components.iter().enumerate() {
            words[1 + 2 * index] = *kind;
            words[2 + 2 * index] = *limit;
        }
        words
    }

    pub fn equal(&self) -> Language {
        let place = |index: usize| match self.components.get(index) {
            Some((2, limit)) => Component::Width(*limit),
            Some((3, limit)) => Component::Class(*limit),
            _ => Component::Dist,
        };
        Language {
            count: self.components.len() as u32,
            first: place(0),
            second: place(1),
            third: place(2),
            fourth: place(3),
        }
    }

    pub fn plain(&self) -> plain::Language {
        let kind = |(kind, limit): &(u16, u16)| match kind {
            2 => Kind::Width((*limit).into()),
            3 => Kind::Class((*limit).into()),
            _ => Kind::Dist,
        };
        plain::Language {
            kinds: self.components.iter().map(kind).collect(),
        }
    }

    fn value(&self, dice: &mut Dice, index: usize) -> u32 {
        match self.components[index] {
            (2, limit) => 1 + dice.below(limit.into()),
            (3, limit) => dice.below(u32::from(limit) + 1),
            _ => dice.below(1_000),
        }
    }
}

/// Which arcs a network has: a part of them, all, or all with a ring of good ones, where a settle makes the most passes.
#[derive(Clone, Copy, PartialEq, Eq, Debug)]
pub enum Arcs {
    Sparse,
    Dense,
    Ring,
}

impl Arcs {
    pub fn name(self) -> &'static str {
        match self {
            Arcs::Sparse => "20%",
            Arcs::Dense => "100%",
            Arcs::Ring => "ring",
        }
    }

    fn percent(self) -> u32 {
        match self {
            Arcs::Sparse => 20,
            Arcs::Dense | Arcs::Ring => 100,
        }
    }
}

/// One network with its table and file.
pub struct Network {
    pub n: usize,
    pub m: usize,
    pub arcs: Vec<u32>,
    pub mapping: Vec<u32>,
    pub file: Vec<u8>,
}

pub fn network(language: &Named, n: usize, which: Arcs, seed: u64) -> Network {
    let mut dice = Dice::new(seed);
    let m = 2 * n;
    let count = language.components.len();
    let mut entries = |columns: usize, words: usize| {
        let mut list = vec![ONES; n * columns * words];
        for entry in list.chunks_mut(words) {
            if dice.below(100) < which.percent() {
                entry.fill(0);
                for (index, word) in entry.iter_mut().take(count).enumerate() {
                    *word = language.value(&mut dice, index);
                }
                if words == 5 {
                    entry[4] = dice.below(9);
                }
            }
        }
        list
    };
    let mut arcs = entries(n, 4);
    let mapping = entries(m, 5);
    if which == Arcs::Ring {
        put_ring(&mut arcs, n);
    }
    let file = file_of(language, n, m, &arcs, &mapping);
    Network {
        n,
        m,
        arcs,
        mapping,
        file,
    }
}

/// The first value is 0 where an arc goes to the next node, and 1 or more elsewhere: the best way to every node is round.
fn put_ring(arcs: &mut [u32], n: usize) {
    for (place, entry) in arcs.chunks_mut(4).enumerate() {
        let is_next = place % n == (place / n + 1) % n;
        entry[0] = if is_next { 0 } else { entry[0].max(1) };
    }
}

fn file_of(language: &Named, n: usize, m: usize, arcs: &[u32], mapping: &[u32]) -> Vec<u8> {
    let mut body = vec![1, n as u8, m as u8, 3];
    body.extend(vec![5; language.components.len() - 1]);
    for (kind, limit) in language.components {
        body.push(*kind as u8);
        if *kind == 2 || *kind == 3 {
            body.extend(limit.to_be_bytes());
        }
    }
    let count = language.components.len();
    for (list, columns, words) in [(arcs, n, 4), (mapping, m, 5)] {
        let routes = list
            .chunks(words)
            .enumerate()
            .filter(|(_, entry)| entry[0] != ONES);
        let records: Vec<Vec<u8>> = routes
            .map(|(place, entry)| {
                let mut record = vec![(place / columns) as u8, (place % columns) as u8];
                let numbers = entry[..count].iter().chain(&entry[4..]);
                record.extend(numbers.flat_map(|number| (*number as u16).to_be_bytes()));
                record
            })
            .collect();
        body.extend((records.len() as u16).to_be_bytes());
        body.extend(records.concat());
    }
    let mut file = (body.len() as u32).to_be_bytes().to_vec();
    file.extend(body);
    file
}

pub fn plain_matrix(words: &[u32], n: usize) -> plain::Matrix {
    let weights: Vec<Weight> = words.chunks(4).map(plain_weight).collect();
    weights.chunks(n).map(<[Weight]>::to_vec).collect()
}

fn plain_weight(entry: &[u32]) -> Weight {
    if entry[0] == ONES {
        return plain::NONE;
    }
    let mut values = [0; 4];
    values.copy_from_slice(&entry[..4]);
    Weight {
        route: true,
        values,
    }
}

pub fn plain_table(words: &[u32], m: usize) -> Vec<Vec<plain::Entry>> {
    let entry = |entry: &[u32]| {
        let weight = plain_weight(entry);
        (weight, if weight.route { entry[4] } else { 0 })
    };
    let entries: Vec<plain::Entry> = words.chunks(5).map(entry).collect();
    entries.chunks(m).map(<[plain::Entry]>::to_vec).collect()
}

/// The fresh matrix of a language.
pub fn fresh(language: &Named, n: usize) -> Vec<u32> {
    let mut words = vec![ONES; n * n * 4];
    for i in 0..n {
        let unit = &mut words[(i * n + i) * 4..][..4];
        unit.fill(0);
        for (word, (kind, limit)) in unit.iter_mut().zip(language.components) {
            *word = if *kind == 2 { u32::from(*limit) } else { 0 };
        }
    }
    words
}
