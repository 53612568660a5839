//! Weights and table entries, and the words that they are in a buffer.

/// The words of a weight and of a table's entry.
pub const WEIGHT_WORDS: usize = 4;
/// The words of a table's entry: a route, then an outside number.
pub const ENTRY_WORDS: usize = 5;

/// The word that no route and empty entries are filled with.
const ONES: u32 = u32::MAX;

/// No route, or a value for each component; unused values are 0.
///
/// ```
/// use tronglephu::Weight;
///
/// assert_eq!(Weight::from(5), Weight::Route([5, 0, 0, 0]));
/// assert_eq!(Weight::from([5, 9]).words(), [5, 9, 0, 0]);
/// assert_eq!(Weight::NoRoute.words(), [u32::MAX; 4]);
/// ```
#[derive(Clone, Copy, Debug, PartialEq, Eq, Hash)]
pub enum Weight {
    /// The worst weight.
    NoRoute,
    /// A value for each component.
    Route([u32; WEIGHT_WORDS]),
}

impl Weight {
    /// The weight of four words, taken as they are: a malformed one is shown as what stands there.
    pub fn from_words(words: [u32; WEIGHT_WORDS]) -> Weight {
        if words == [ONES; WEIGHT_WORDS] {
            Weight::NoRoute
        } else {
            Weight::Route(words)
        }
    }

    /// The four words in a buffer.
    pub fn words(self) -> [u32; WEIGHT_WORDS] {
        match self {
            Weight::NoRoute => [ONES; WEIGHT_WORDS],
            Weight::Route(words) => words,
        }
    }

    /// Whether it is a route.
    pub fn is_route(self) -> bool {
        self != Weight::NoRoute
    }
}

impl From<u32> for Weight {
    fn from(value: u32) -> Weight {
        Weight::from([value])
    }
}

/// The first values, zeros after them.
fn filled<const K: usize>(values: [u32; K]) -> [u32; WEIGHT_WORDS] {
    std::array::from_fn(|place| values.get(place).copied().unwrap_or(0))
}

impl From<[u32; 1]> for Weight {
    fn from(values: [u32; 1]) -> Weight {
        Weight::from_words(filled(values))
    }
}

impl From<[u32; 2]> for Weight {
    fn from(values: [u32; 2]) -> Weight {
        Weight::from_words(filled(values))
    }
}

impl From<[u32; 3]> for Weight {
    fn from(values: [u32; 3]) -> Weight {
        Weight::from_words(filled(values))
    }
}

impl From<[u32; 4]> for Weight {
    fn from(values: [u32; 4]) -> Weight {
        Weight::from_words(values)
    }
}

/// An entry of a mapping or forwarding table: empty, or a route with an outside number t.
#[derive(Clone, Copy, Debug, PartialEq, Eq, Hash)]
pub enum Entry {
    /// The worst entry.
    Empty,
    /// A route and an outside number, which is 0 in plain mode.
    Route {
        /// A value for each component; unused values are 0.
        values: [u32; WEIGHT_WORDS],
        /// The outside number.
        t: u32,
    },
}

impl Entry {
    /// The entry of a weight and an outside number; no route gives empty.
    pub fn of(weight: impl Into<Weight>, t: u32) -> Entry {
        match weight.into() {
            Weight::NoRoute => Entry::Empty,
            Weight::Route(values) => Entry::Route { values, t },
        }
    }

    /// The entry of five words, taken as they are: a malformed one is shown as what stands there.
    pub fn from_words(words: [u32; ENTRY_WORDS]) -> Entry {
        if words == [ONES; ENTRY_WORDS] {
            return Entry::Empty;
        }
        let [first, second, third, fourth, t] = words;
        Entry::Route {
            values: [first, second, third, fourth],
            t,
        }
    }

    /// The five words in a buffer.
    pub fn words(self) -> [u32; ENTRY_WORDS] {
        match self {
            Entry::Empty => [ONES; ENTRY_WORDS],
            Entry::Route { values, t } => {
                let [first, second, third, fourth] = values;
                [first, second, third, fourth, t]
            }
        }
    }

    /// Its weight: no route where it is empty.
    pub fn weight(self) -> Weight {
        match self {
            Entry::Empty => Weight::NoRoute,
            Entry::Route { values, .. } => Weight::from_words(values),
        }
    }
}
