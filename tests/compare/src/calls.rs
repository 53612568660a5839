//! A call with its arguments and buffers: the words of its request, and the words that the
//! independent implementation answers.

use std::fmt;

use reference::{
    equation, forward, fresh, laws, lent_row, next_hop, print, read, steps, which_refusal,
    Component, Language, Lent, Refusal,
};

/// Count, then kind and limit for each of four places.
pub type LanguageWords = [u32; 9];

#[derive(Clone, Copy, Debug, PartialEq, Eq, PartialOrd, Ord)]
pub enum Kind {
    Laws = 1,
    Fresh = 2,
    Steps = 3,
    Equation = 4,
    Forward = 5,
    NextHop = 6,
    LentRow = 7,
    WhichRefusal = 8,
    Read = 9,
    Print = 10,
}

impl Kind {
    pub const ALL: [Kind; 10] = [
        Kind::Laws,
        Kind::Fresh,
        Kind::Steps,
        Kind::Equation,
        Kind::Forward,
        Kind::NextHop,
        Kind::LentRow,
        Kind::WhichRefusal,
        Kind::Read,
        Kind::Print,
    ];

    pub fn name(self) -> &'static str {
        match self {
            Kind::Laws => "laws",
            Kind::Fresh => "fresh",
            Kind::Steps => "steps",
            Kind::Equation => "equation",
            Kind::Forward => "forward",
            Kind::NextHop => "next hop",
            Kind::LentRow => "lent row",
            Kind::WhichRefusal => "which refusal",
            Kind::Read => "read",
            Kind::Print => "print",
        }
    }

    /// The buffers that the call takes, in order.
    pub fn buffer_names(self) -> &'static [&'static str] {
        match self {
            Kind::Laws => &[],
            Kind::Fresh => &["r"],
            Kind::Steps => &["a", "r", "list"],
            Kind::Equation | Kind::NextHop => &["a", "r"],
            Kind::Forward => &["a", "r", "mapping", "f"],
            Kind::LentRow | Kind::WhichRefusal => &["a", "standing", "newer"],
            Kind::Read => &["file", "arcs", "mapping"],
            Kind::Print => &["file"],
        }
    }

    /// The refusals that the call can give, by number and which.
    pub fn refusals(self) -> &'static [(u32, u32)] {
        match self {
            Kind::Laws => &[(4, 0), (5, 0)],
            Kind::Fresh => &[(3, 1), (4, 0), (5, 0), (9, 2), (10, 1), (10, 2)],
            Kind::Steps => &[
                (3, 1),
                (4, 0),
                (5, 0),
                (6, 1),
                (6, 2),
                (7, 0),
                (9, 1),
                (9, 2),
                (10, 1),
                (10, 2),
                (11, 0),
                (13, 0),
            ],
            Kind::Equation => &[
                (3, 1),
                (4, 0),
                (5, 0),
                (6, 1),
                (6, 2),
                (9, 1),
                (9, 2),
                (10, 1),
                (10, 2),
            ],
            Kind::Forward => &[
                (3, 1),
                (3, 2),
                (3, 3),
                (4, 0),
                (5, 0),
                (6, 1),
                (6, 2),
                (6, 3),
                (9, 1),
                (9, 2),
                (9, 3),
                (9, 4),
                (10, 1),
                (10, 2),
                (10, 3),
                (12, 2),
            ],
            Kind::NextHop => &[
                (3, 1),
                (4, 0),
                (5, 0),
                (6, 1),
                (6, 2),
                (7, 0),
                (9, 1),
                (9, 2),
                (10, 1),
                (10, 2),
            ],
            // the part that is lent tells no refusal, and a text tells it in words
            Kind::LentRow | Kind::Print => &[],
            Kind::WhichRefusal => &[
                (3, 1),
                (4, 0),
                (5, 0),
                (6, 1),
                (7, 0),
                (9, 1),
                (9, 2),
                (9, 5),
                (10, 1),
                (10, 2),
            ],
            Kind::Read => &[
                (1, 0),
                (2, 0),
                (3, 0),
                (4, 0),
                (5, 0),
                (6, 0),
                (7, 0),
                (8, 0),
                (9, 1),
                (9, 3),
            ],
        }
    }
}

#[derive(Clone, Debug, PartialEq, Eq)]
pub struct Call {
    pub kind: Kind,
    pub language: LanguageWords,
    pub n: u32,
    pub m: u32,
    pub mode: u32,
    pub i: u32,
    pub j: u32,
    pub buffers: Vec<Vec<u32>>,
}

/// Number, which, place; the values of the answer; every buffer that the call may write.
pub type AnswerWords = Vec<u32>;

impl Call {
    pub fn new(kind: Kind, language: LanguageWords, n: u32, buffers: Vec<Vec<u32>>) -> Call {
        Call {
            kind,
            language,
            n,
            m: 0,
            mode: 0,
            i: 0,
            j: 0,
            buffers,
        }
    }

    /// The words of the request, without the first, which counts them.
    pub fn request(&self) -> Vec<u32> {
        let mut words = vec![self.kind as u32];
        words.extend(self.language);
        words.extend([self.n, self.m, self.mode, self.i, self.j]);
        words.extend(self.buffers.iter().map(|buffer| buffer.len() as u32));
        words.extend(self.buffers.iter().flatten());
        words
    }

    /// What the independent implementation answers.
    pub fn expected(&self) -> AnswerWords {
        let language = language_of(&self.language);
        match (self.kind, self.buffers.as_slice()) {
            (Kind::Laws, []) => expected_laws(&language),
            (Kind::Fresh, [r]) => {
                let mut r = r.clone();
                let refusal = fresh(&language, self.n, &mut r);
                answer(refusal, &[], &r)
            }
            (Kind::Steps, [a, r, list]) => {
                let mut r = r.clone();
                let (refusal, done) = steps(&language, self.n, a, &mut r, list);
                answer(refusal, &[done], &r)
            }
            (Kind::Equation, [a, r]) => {
                let (refusal, holds) = equation(&language, self.n, a, r);
                answer(refusal, &[holds.into()], &[])
            }
            (Kind::Forward, [a, r, mapping, f]) => {
                let mut f = f.clone();
                let (m, mode) = (self.m, self.mode);
                let refusal = forward(&language, self.n, m, mode, a, r, mapping, &mut f);
                answer(refusal, &[], &f)
            }
            (Kind::NextHop, [a, r]) => {
                let (refusal, found, node) = next_hop(&language, self.n, a, r, self.i, self.j);
                answer(refusal, &[found.into(), node], &[])
            }
            (Kind::LentRow, [a, standing, newer]) => {
                let part = match lent_row(&language, self.n, a, newer, standing, self.i) {
                    Lent::Empty => &[],
                    Lent::Newer(row) => &newer[row],
                    Lent::Standing(row) => &standing[row],
                };
                answer(Refusal::DONE, &[part.len() as u32], part)
            }
            (Kind::WhichRefusal, [a, standing, newer]) => {
                let refusal = which_refusal(&language, self.n, a, newer, standing, self.i);
                let lender = match lent_row(&language, self.n, a, newer, standing, self.i) {
                    Lent::Empty => 0,
                    Lent::Newer(_) => 2,
                    Lent::Standing(_) => 5,
                };
                answer(refusal, &[lender], &[])
            }
            (Kind::Read, [file, arcs, mapping]) => expected_read(file, arcs, mapping),
            (Kind::Print, [file]) => expected_text(&print(&bytes_of(file))),
            _ => panic!("{} has other buffers", self.kind.name()),
        }
    }
}

fn answer(refusal: Refusal, values: &[u32], buffer: &[u32]) -> AnswerWords {
    let told = [refusal.number, refusal.which, refusal.place];
    [&told, values, buffer].concat()
}

fn expected_laws(language: &Language) -> AnswerWords {
    let report = laws(language);
    let held = report.held.map(u32::from);
    answer(
        report.refusal,
        &[&held[..], &report.words.concat()].concat(),
        &[],
    )
}

/// A file has a byte in each word.
fn bytes_of(file: &[u32]) -> Vec<u8> {
    file.iter().map(|word| *word as u8).collect()
}

/// The length of the text, and its bytes four to a word, the lowest byte first, with zeros after them.
fn expected_text(text: &str) -> AnswerWords {
    let word = |four: &[u8]| {
        four.iter()
            .rev()
            .fold(0, |word, byte| word << 8 | u32::from(*byte))
    };
    let words: Vec<u32> = text.as_bytes().chunks(4).map(word).collect();
    answer(Refusal::DONE, &[text.len() as u32], &words)
}

/// The text that an answer of this kind holds.
pub fn text_of(answer: &[u32]) -> String {
    let bytes: Vec<u8> = answer[4..]
        .iter()
        .flat_map(|word| word.to_le_bytes())
        .take(answer[3] as usize)
        .collect();
    String::from_utf8_lossy(&bytes).into_owned()
}

fn expected_read(file: &[u32], arcs: &[u32], mapping: &[u32]) -> AnswerWords {
    let bytes = bytes_of(file);
    let (mut arcs, mut mapping) = (arcs.to_vec(), mapping.to_vec());
    let said = read(&bytes, &mut arcs, &mut mapping);
    let sizes = [said.n, said.m, said.mode];
    let values = [&sizes[..], &language_words(&said.language)].concat();
    answer(said.refusal, &values, &[arcs, mapping].concat())
}

/// An unknown kind and a limit above 16 bits become width 0.
fn component_of(kind: u32, limit: u32) -> Component {
    let Ok(limit) = u16::try_from(limit) else {
        return Component::Width(0);
    };
    match kind {
        1 => Component::Dist,
        2 => Component::Width(limit),
        3 => Component::Class(limit),
        4 => Component::Gain,
        _ => Component::Width(0),
    }
}

pub fn language_of(words: &LanguageWords) -> Language {
    let place = |index: usize| component_of(words[1 + 2 * index], words[2 + 2 * index]);
    Language {
        count: words[0],
        places: [0, 1, 2, 3].map(place),
    }
}

fn words_of(component: Component) -> [u32; 2] {
    match component {
        Component::Dist => [1, 0],
        Component::Width(limit) => [2, limit.into()],
        Component::Class(limit) => [3, limit.into()],
        Component::Gain => [4, 0],
    }
}

pub fn language_words(language: &Language) -> LanguageWords {
    let mut words = [language.count; 9];
    for (index, component) in language.places.iter().enumerate() {
        words[1 + 2 * index..3 + 2 * index].copy_from_slice(&words_of(*component));
    }
    words
}

/// Words on one line.
pub fn spaced(words: &[u32]) -> String {
    let texts: Vec<String> = words.iter().map(u32::to_string).collect();
    texts.join(" ")
}

impl fmt::Display for Call {
    fn fmt(&self, f: &mut fmt::Formatter) -> fmt::Result {
        writeln!(f, "call {}", self.kind.name())?;
        writeln!(f, "language: {}", spaced(&self.language))?;
        let Call {
            n, m, mode, i, j, ..
        } = self;
        writeln!(f, "n {n}, m {m}, mode {mode}, i {i}, j {j}")?;
        for (name, words) in self.kind.buffer_names().iter().zip(&self.buffers) {
            writeln!(f, "{name}, {} words: {}", words.len(), spaced(words))?;
        }
        Ok(())
    }
}

#[cfg(test)]
mod tests {
    use super::*;
    use reference::generator::{any_language, damaged_language, Dice};

    #[test]
    fn language_words_are_read_back() {
        let mut dice = Dice::new(40);
        for _ in 0..1_000 {
            for language in [any_language(&mut dice), damaged_language(&mut dice)] {
                assert_eq!(language_of(&language_words(&language)), language);
            }
        }
    }

    #[test]
    fn unknown_kinds_and_large_limits_are_width_0() {
        for (kind, limit) in [(0, 1), (5, 1), (u32::MAX, 0), (1, 65_536), (3, u32::MAX)] {
            assert_eq!(component_of(kind, limit), Component::Width(0));
        }
        assert_eq!(component_of(3, 65_535), Component::Class(65_535));
    }

    #[test]
    fn a_text_is_packed_and_read_back() {
        assert_eq!(expected_text("ABCDE"), [0, 0, 0, 5, 0x4443_4241, 0x45]);
        for text in ["", "R", "LAWS 1 1 1\n"] {
            assert_eq!(text_of(&expected_text(text)), text);
        }
    }

    #[test]
    fn a_request_states_the_lengths_of_its_buffers() {
        let buffers = vec![vec![7, 8], vec![9], vec![]];
        let call = Call::new(Kind::Steps, [1, 1, 0, 0, 0, 0, 0, 0, 0], 1, buffers);
        let words = call.request();
        assert_eq!(words[..11], [3, 1, 1, 0, 0, 0, 0, 0, 0, 0, 1]);
        assert_eq!(words[15..], [2, 1, 0, 7, 8, 9]);
    }
}
