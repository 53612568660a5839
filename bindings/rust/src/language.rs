//! Components and languages, and the law report.

use std::fmt;

use crate::ffi;
use crate::refusals::{Call, Refusal};
use crate::weights::Weight;

/// One of the four kinds, two of which carry a limit.
#[derive(Clone, Copy, Debug, PartialEq, Eq, Hash)]
pub enum Component {
    /// Whole numbers from 0: smaller is better, join is the sum.
    Dist,
    /// 1..=limit: larger is better, join is the smaller. A limit of 0 is refused (4).
    Width(u16),
    /// 0..=limit: smaller is better, join is the larger.
    Class(u16),
    /// Whole numbers from 0: larger is better, join is the sum.
    Gain,
}

impl Component {
    /// The component of a kind and its limit; `None` for an unknown kind.
    pub fn from_numbers(kind: u16, limit: u16) -> Option<Component> {
        match kind {
            1 => Some(Component::Dist),
            2 => Some(Component::Width(limit)),
            3 => Some(Component::Class(limit)),
            4 => Some(Component::Gain),
            _ => None,
        }
    }

    /// Kind and limit; the limit of dist and gain is 0.
    pub fn numbers(self) -> [u16; 2] {
        match self {
            Component::Dist => [1, 0],
            Component::Width(limit) => [2, limit],
            Component::Class(limit) => [3, limit],
            Component::Gain => [4, 0],
        }
    }

    /// Whether an arc or an attachment may hold the value.
    pub(crate) fn holds(self, value: u32) -> bool {
        match self {
            Component::Dist | Component::Gain => value <= u16::MAX.into(),
            Component::Width(limit) => 1 <= value && value <= limit.into(),
            Component::Class(limit) => value <= limit.into(),
        }
    }
}

impl fmt::Display for Component {
    fn fmt(&self, f: &mut fmt::Formatter<'_>) -> fmt::Result {
        match self {
            Component::Dist => f.write_str("dist"),
            Component::Width(limit) => write!(f, "width {limit}"),
            Component::Class(limit) => write!(f, "class {limit}"),
            Component::Gain => f.write_str("gain"),
        }
    }
}

/// The places of a language, and its numbers: the count, then kind and limit for each place.
const PLACES: usize = 4;
const NUMBERS: usize = 9;

/// One to four components in order, as the library takes them: nine numbers, the count and then kind and limit for each
/// of four places.
///
/// Any language can be made; the calls refuse one of no or more than four components (5), an unknown kind and a width of
/// limit 0 (4), and one whose laws do not hold (10).
///
/// ```
/// use tronglephu::{Component, Language, Law};
///
/// let lawful = Language::of(&[Component::Dist, Component::Width(9)]);
/// assert_eq!(lawful.to_string(), "dist, width 9");
/// assert_eq!(lawful.numbers(), &[2, 1, 0, 2, 9, 1, 0, 1, 0]);
/// assert!(lawful.laws()?.routes());
///
/// let report = Language::of(&[Component::Width(9), Component::Dist]).laws()?;
/// let Law::Broken { s, x, y } = report.d else { panic!("D holds") };
/// assert_eq!((s, x, y), ([1, 0, 0, 0], [9, 1, 0, 0], [1, 0, 0, 0]));
/// # Ok::<(), tronglephu::Refusal>(())
/// ```
#[derive(Clone, Copy, Debug, PartialEq, Eq, Hash)]
pub struct Language {
    numbers: [u16; NUMBERS],
}

impl Language {
    /// The language of these components. Unused places are dist; of more than four only the count is kept.
    pub fn of(components: &[Component]) -> Language {
        let mut numbers = [0; NUMBERS];
        numbers[0] = u16::try_from(components.len()).unwrap_or(u16::MAX);
        for place in 0..PLACES {
            let component = components.get(place).unwrap_or(&Component::Dist);
            numbers[1 + 2 * place..3 + 2 * place].copy_from_slice(&component.numbers());
        }
        Language { numbers }
    }

    /// The language of nine numbers, taken as they are.
    pub fn from_numbers(numbers: [u16; NUMBERS]) -> Language {
        Language { numbers }
    }

    /// The nine numbers.
    pub fn numbers(&self) -> &[u16; NUMBERS] {
        &self.numbers
    }

    /// How many components it says it has.
    pub fn count(&self) -> usize {
        self.numbers[0].into()
    }

    /// The components in order; `None` where the count is not 1..=4 or a kind is unknown.
    pub fn components(&self) -> Option<Vec<Component>> {
        let count = self.count();
        if !(1..=PLACES).contains(&count) {
            return None;
        }
        let places = self.numbers[1..].chunks_exact(2).take(count);
        places
            .map(|place| Component::from_numbers(place[0], place[1]))
            .collect()
    }

    /// Decides the three laws. Refuses 5 and 4 only.
    pub fn laws(&self) -> Result<LawReport, Refusal> {
        let mut words = [0; ffi::REPORT_WORDS];
        let held = Refusal::unless_done(Call::Laws, ffi::laws(&self.numbers, &mut words))?;
        let law = |index: usize| {
            if held >> index & 1 == 1 {
                return Law::Held;
            }
            let four = |at: usize| std::array::from_fn(|word| words[12 * index + at + word]);
            Law::Broken {
                s: four(0),
                x: four(4),
                y: four(8),
            }
        };
        Ok(LawReport {
            d: law(0),
            u: law(1),
            c: law(2),
        })
    }

    /// A weight in the language's own number of values, or "-" for no route.
    pub fn show(&self, weight: Weight) -> String {
        match weight {
            Weight::NoRoute => "-".to_string(),
            Weight::Route(values) => spaced(&values[..self.count().min(PLACES)]),
        }
    }
}

/// Numbers with spaces between them.
pub(crate) fn spaced(numbers: &[u32]) -> String {
    let texts: Vec<String> = numbers.iter().map(u32::to_string).collect();
    texts.join(" ")
}

impl fmt::Display for Language {
    fn fmt(&self, f: &mut fmt::Formatter<'_>) -> fmt::Result {
        match self.components() {
            Some(components) => {
                let texts: Vec<String> = components.iter().map(Component::to_string).collect();
                f.write_str(&texts.join(", "))
            }
            None => write!(f, "no language: {:?}", self.numbers),
        }
    }
}

/// Whether a law holds, or values of three weights that break it. Law U speaks of x alone; s and y are then zeros.
#[derive(Clone, Copy, Debug, PartialEq, Eq)]
pub enum Law {
    /// It holds for all weights.
    Held,
    /// These break it.
    Broken {
        /// What is joined with the other two.
        s: [u32; 4],
        /// The first of the two.
        x: [u32; 4],
        /// The second of the two.
        y: [u32; 4],
    },
}

impl Law {
    /// Whether it holds.
    pub fn is_held(&self) -> bool {
        *self == Law::Held
    }
}

/// The three laws of a language.
#[derive(Clone, Copy, Debug, PartialEq, Eq)]
pub struct LawReport {
    /// s joined with the better of x and y is the better of (s joined x) and (s joined y).
    pub d: Law,
    /// No weight is better than the unit.
    pub u: Law,
    /// If s joined x equals s joined y and is a route, then x = y.
    pub c: Law,
}

impl LawReport {
    /// Whether routes can be worked out in the language: D and U hold.
    pub fn routes(&self) -> bool {
        self.d.is_held() && self.u.is_held()
    }

    /// Whether hot forwarding is possible too: C holds as well.
    pub fn forwards_hot(&self) -> bool {
        self.routes() && self.c.is_held()
    }
}
