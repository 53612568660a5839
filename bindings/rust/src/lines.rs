//! Problems as readable lines: parsed, and shown.
//!
//! `nodes N`, `destinations M`, `mode plain|hot|cold`, `language COMPONENT, ..` (dist, width W, class C, gain), then
//! `arc FROM TO VALUES..` and `attach NODE DESTINATION VALUES.. [t T]`. `#` starts a comment; empty lines are skipped.
//! Every problem that is parsed can be encoded.

use std::error::Error;
use std::fmt;
use std::str::FromStr;

use crate::buffers::{Matrix, Table};
use crate::language::{spaced, Component, Language};
use crate::network::Network;
use crate::numbers::{Destination, Mode, Node};
use crate::problem::Problem;
use crate::weights::{Entry, Weight, WEIGHT_WORDS};

/// What is wrong, and in which line, counted from 1; the line after the last where something is missing.
#[derive(Clone, Debug, PartialEq, Eq)]
pub struct BadLine {
    /// The line.
    pub line: usize,
    /// What is wrong in it.
    pub fault: &'static str,
}

impl fmt::Display for BadLine {
    fn fmt(&self, f: &mut fmt::Formatter<'_>) -> fmt::Result {
        write!(f, "line {}: {}", self.line, self.fault)
    }
}

impl Error for BadLine {}

type Parsed<T> = Result<T, &'static str>;

/// What the lines have said so far.
#[derive(Default)]
struct Draft {
    n: Option<u8>,
    m: Option<u8>,
    mode: Option<Mode>,
    components: Option<Vec<Component>>,
    body: Option<Body>,
}

/// What arcs and attachments are put into.
struct Body {
    arcs: Matrix,
    mapping: Table,
}

impl FromStr for Problem {
    type Err = BadLine;

    fn from_str(text: &str) -> Result<Problem, BadLine> {
        let mut draft = Draft::default();
        let mut last = 0;
        for (index, line) in text.lines().enumerate() {
            last = index + 1;
            let said = line.split('#').next().unwrap_or_default();
            draft
                .take(said)
                .map_err(|fault| BadLine { line: last, fault })?;
        }
        let line = last + 1;
        draft.finish().map_err(|fault| BadLine { line, fault })
    }
}

impl Draft {
    fn take(&mut self, line: &str) -> Parsed<()> {
        let words: Vec<&str> = line.split_whitespace().collect();
        let Some((name, rest)) = words.split_first() else {
            return Ok(());
        };
        match *name {
            "arc" => self.arc(rest),
            "attach" => self.attach(rest),
            _ if self.body.is_some() => Err("sizes, mode and language come before arcs"),
            "nodes" => put(&mut self.n, size(rest, 1, 16, "nodes are 1..16")?),
            "destinations" => put(&mut self.m, size(rest, 0, 32, "destinations are 0..32")?),
            "mode" => put(&mut self.mode, mode(rest)?),
            "language" => put(&mut self.components, components(&rest.join(" "))?),
            _ => Err("not nodes, destinations, mode, language, arc or attach"),
        }
    }

    fn arc(&mut self, words: &[&str]) -> Parsed<()> {
        let (n, _) = self.sizes()?;
        let ([from, to], values) = ends(words, (n, n), "no such node")?;
        let values = self.values(values)?;
        let arcs = &mut self.body()?.arcs;
        match arcs.set(Node(from), Node(to), Weight::Route(values)) {
            Some(Weight::NoRoute) => Ok(()),
            _ => Err("this arc was given before"),
        }
    }

    fn attach(&mut self, words: &[&str]) -> Parsed<()> {
        let sizes = self.sizes()?;
        let ([node, destination], rest) = ends(words, sizes, "no such node or destination")?;
        let (values, t) = if self.mode.is_some_and(Mode::has_outside) {
            outside(rest)?
        } else {
            (rest, 0)
        };
        let values = self.values(values)?;
        let mapping = &mut self.body()?.mapping;
        match mapping.set(
            Node(node),
            Destination(destination),
            Entry::Route { values, t },
        ) {
            Some(Entry::Empty) => Ok(()),
            _ => Err("this attachment was given before"),
        }
    }

    /// n and m, once they can no longer change.
    fn sizes(&self) -> Parsed<(u8, u8)> {
        let n = self.n.ok_or("the number of nodes is missing")?;
        let m = self.m.unwrap_or(0);
        if (m == 0) != self.mode.is_none() {
            return Err("there is a mode exactly where there are destinations");
        }
        Ok((n, m))
    }

    fn components(&self) -> Parsed<&[Component]> {
        self.components.as_deref().ok_or("the language is missing")
    }

    /// The values of a route, one for each component.
    fn values(&self, words: &[&str]) -> Parsed<[u32; WEIGHT_WORDS]> {
        let components = self.components()?;
        if words.len() != components.len() {
            return Err("there is one value for each component");
        }
        let mut values = [0; WEIGHT_WORDS];
        for (place, component) in components.iter().enumerate() {
            let value = number(words[place])?;
            if !component.holds(value) {
                return Err("a value is out of range");
            }
            values[place] = value;
        }
        Ok(values)
    }

    fn body(&mut self) -> Parsed<&mut Body> {
        let (n, m) = self.sizes()?;
        Ok(self.body.get_or_insert_with(|| Body {
            arcs: Matrix::without_routes(n),
            mapping: Table::empty(n, m),
        }))
    }

    fn finish(mut self) -> Parsed<Problem> {
        let language = Language::of(self.components()?);
        let mode = self.mode;
        self.body()?;
        let Body { arcs, mapping } = self.body.ok_or("the number of nodes is missing")?;
        Ok(Problem::new(Network::new(language, arcs), mode, mapping))
    }
}

fn put<T>(place: &mut Option<T>, value: T) -> Parsed<()> {
    match place.replace(value) {
        None => Ok(()),
        Some(_) => Err("this was said before"),
    }
}

fn number(word: &str) -> Parsed<u32> {
    word.parse().map_err(|_| "a number is wanted")
}

fn size(words: &[&str], low: u8, high: u8, fault: &'static str) -> Parsed<u8> {
    let size = match words {
        [word] => word.parse().map_err(|_| fault)?,
        _ => return Err(fault),
    };
    (low..=high).contains(&size).then_some(size).ok_or(fault)
}

fn mode(words: &[&str]) -> Parsed<Mode> {
    let named = match words {
        [word] => Mode::named(word),
        _ => None,
    };
    named.ok_or("modes are plain, hot and cold")
}

fn components(text: &str) -> Parsed<Vec<Component>> {
    let components: Vec<Component> = text.split(',').map(component).collect::<Parsed<_>>()?;
    match components.len() {
        1..=4 => Ok(components),
        _ => Err("a language has one to four components"),
    }
}

fn component(text: &str) -> Parsed<Component> {
    let words: Vec<&str> = text.split_whitespace().collect();
    let limit = |word: &str| word.parse().map_err(|_| "limits are 0..65,535");
    match words.as_slice() {
        ["dist"] => Ok(Component::Dist),
        ["gain"] => Ok(Component::Gain),
        ["class", word] => Ok(Component::Class(limit(word)?)),
        ["width", word] => match limit(word)? {
            0 => Err("a width's limit is at least 1"),
            limit => Ok(Component::Width(limit)),
        },
        _ => Err("components are dist, width W, class C and gain"),
    }
}

/// The first two words, each below its size, and the words after them.
fn ends<'a, 'b>(
    words: &'a [&'b str],
    sizes: (u8, u8),
    fault: &'static str,
) -> Parsed<([u8; 2], &'a [&'b str])> {
    let [first, second, rest @ ..] = words else {
        return Err(fault);
    };
    let below = |word: &str, size: u8| {
        let found: u8 = word.parse().map_err(|_| fault)?;
        (found < size).then_some(found).ok_or(fault)
    };
    Ok(([below(first, sizes.0)?, below(second, sizes.1)?], rest))
}

/// The words before `t`, and the outside number after it.
fn outside<'a, 'b>(words: &'a [&'b str]) -> Parsed<(&'a [&'b str], u32)> {
    let [values @ .., "t", t] = words else {
        return Err("an attachment ends in t and its outside number");
    };
    let t: u16 = t.parse().map_err(|_| "outside numbers are 0..65,535")?;
    Ok((values, t.into()))
}

impl fmt::Display for Problem {
    /// The lines that parse back to this problem.
    fn fmt(&self, f: &mut fmt::Formatter<'_>) -> fmt::Result {
        let network = self.network();
        let count = network.language().count().min(WEIGHT_WORDS);
        writeln!(f, "nodes {}", network.n())?;
        if self.mapping().m() != 0 {
            writeln!(f, "destinations {}", self.mapping().m())?;
        }
        if let Some(mode) = self.mode() {
            writeln!(f, "mode {mode}")?;
        }
        writeln!(f, "language {}", network.language())?;
        for (from, to, weight) in network.arcs().entries() {
            if let Weight::Route(values) = weight {
                writeln!(f, "arc {from} {to} {}", spaced(&values[..count]))?;
            }
        }
        for (node, destination, entry) in self.mapping().entries() {
            let Entry::Route { values, t } = entry else {
                continue;
            };
            let values = spaced(&values[..count]);
            write!(f, "attach {node} {destination} {values}")?;
            if self.mode().is_some_and(Mode::has_outside) {
                write!(f, " t {t}")?;
            }
            writeln!(f)?;
        }
        Ok(())
    }
}
