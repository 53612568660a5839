//! Components, languages and weights: which is better, how they join, their units,
//! and the four-word form a weight has in a buffer.

/// One of the four kinds; width and class carry their limit.
#[derive(Clone, Copy, Debug, PartialEq, Eq)]
pub enum Component {
    Dist,
    Width(u16),
    Class(u16),
    Gain,
}

/// The first `count` places are the components; the other places mean nothing.
#[derive(Clone, Copy, Debug, PartialEq, Eq)]
pub struct Language {
    pub count: u32,
    pub places: [Component; 4],
}

/// One value per component, or `None` for no route.
pub type Weight = Option<Vec<u64>>;

/// The word that no route and empty entries are filled with.
pub const ONES: u32 = u32::MAX;
/// The largest dist or gain of an arc or an attachment.
pub const ARC_LIMIT: u64 = 65_535;
/// The largest dist or gain in a matrix: fifteen arcs of the largest value.
pub const MATRIX_LIMIT: u64 = 983_025;
/// Words per weight in a matrix.
pub const WEIGHT_WORDS: usize = 4;

impl Language {
    /// The language of a refused read: no components, each place dist.
    pub const NONE: Language = Language {
        count: 0,
        places: [Component::Dist; 4],
    };

    /// The language of these components, unused places dist.
    pub fn of(components: &[Component]) -> Language {
        let mut language = Language::NONE;
        for (place, component) in language.places.iter_mut().zip(components) {
            *place = *component;
        }
        language.count = components.len() as u32;
        language
    }

    /// The components that count, in order.
    pub fn components(&self) -> &[Component] {
        &self.places[..self.count.min(4) as usize]
    }
}

impl Component {
    /// The value that changes nothing in a join.
    pub fn unit(self) -> u64 {
        match self {
            Component::Dist | Component::Gain | Component::Class(_) => 0,
            Component::Width(limit) => u64::from(limit),
        }
    }

    /// The worst value of a width or class; sums have none.
    pub fn worst(self) -> Option<u64> {
        match self {
            Component::Width(_) => Some(1),
            Component::Class(limit) => Some(u64::from(limit)),
            Component::Dist | Component::Gain => None,
        }
    }

    /// Whether the component has a single value.
    pub fn is_trivial(self) -> bool {
        matches!(self, Component::Width(1) | Component::Class(0))
    }

    /// Whether the value belongs to the component, by its whole-number definition.
    pub fn has(self, value: u64) -> bool {
        match self {
            Component::Dist | Component::Gain => true,
            Component::Width(limit) => (1..=u64::from(limit)).contains(&value),
            Component::Class(limit) => value <= u64::from(limit),
        }
    }

    /// Whether the value may stand in a buffer whose sums go up to `sum_limit`.
    pub fn has_within(self, value: u64, sum_limit: u64) -> bool {
        let is_sum = matches!(self, Component::Dist | Component::Gain);
        self.has(value) && (!is_sum || value <= sum_limit)
    }

    /// Whether `first` is strictly better than `second`.
    pub fn is_better(self, first: u64, second: u64) -> bool {
        match self {
            Component::Dist | Component::Class(_) => first < second,
            Component::Width(_) | Component::Gain => first > second,
        }
    }

    /// The join of two values; values come from 32-bit words, so a sum fits.
    pub fn join(self, first: u64, second: u64) -> u64 {
        match self {
            Component::Dist | Component::Gain => first + second,
            Component::Width(_) => first.min(second),
            Component::Class(_) => first.max(second),
        }
    }
}

/// The weight of the empty path.
pub fn unit(language: &Language) -> Weight {
    Some(language.components().iter().map(|c| c.unit()).collect())
}

/// Per component; no route joined with anything is no route.
pub fn join(language: &Language, first: &Weight, second: &Weight) -> Weight {
    let (Some(first), Some(second)) = (first, second) else {
        return None;
    };
    let pairs = first.iter().zip(second);
    let joined = language.components().iter().zip(pairs);
    Some(joined.map(|(c, (x, y))| c.join(*x, *y)).collect())
}

/// Whether `first` is strictly better: the first difference decides, no route is worst.
pub fn is_better(language: &Language, first: &Weight, second: &Weight) -> bool {
    let Some(first) = first else {
        return false;
    };
    let Some(second) = second else {
        return true;
    };
    for (component, (x, y)) in language.components().iter().zip(first.iter().zip(second)) {
        if x != y {
            return component.is_better(*x, *y);
        }
    }
    false
}

/// The better of two weights.
pub fn better_of(language: &Language, first: Weight, second: Weight) -> Weight {
    if is_better(language, &second, &first) {
        second
    } else {
        first
    }
}

/// Whether this is a weight of the language, by the whole-number definitions.
pub fn belongs(language: &Language, weight: &Weight) -> bool {
    let Some(values) = weight else {
        return true;
    };
    let components = language.components();
    values.len() == components.len() && components.iter().zip(values).all(|(c, v)| c.has(*v))
}

/// The weight that four words hold, or `None` when they are malformed or out of range.
pub fn weight_from_words(language: &Language, words: &[u32], sum_limit: u64) -> Option<Weight> {
    if words.len() != WEIGHT_WORDS {
        return None;
    }
    if words.iter().all(|word| *word == ONES) {
        return Some(None);
    }
    let components = language.components();
    let (used, unused) = words.split_at(components.len());
    let values: Vec<u64> = used.iter().map(|word| u64::from(*word)).collect();
    let in_range = components
        .iter()
        .zip(&values)
        .all(|(c, value)| c.has_within(*value, sum_limit));
    let zeros_after = unused.iter().all(|word| *word == 0);
    (in_range && zeros_after).then_some(Some(values))
}

/// The four words of a weight whose values fit a word.
pub fn weight_to_words(weight: &Weight) -> [u32; WEIGHT_WORDS] {
    let Some(values) = weight else {
        return [ONES; WEIGHT_WORDS];
    };
    let mut words = [0; WEIGHT_WORDS];
    for (word, value) in words.iter_mut().zip(values) {
        *word = u32::try_from(*value).unwrap_or(ONES);
    }
    words
}
