//! A problem: a network with a mapping table and a mode, read from a file and written to one.

use std::error::Error;
use std::fmt;

use crate::buffers::{Matrix, Table};
use crate::ffi;
use crate::language::{Component, Language};
use crate::network::Network;
use crate::numbers::{Destination, Mode, Node};
use crate::refusals::{Call, Refusal};
use crate::weights::{Entry, Weight, WEIGHT_WORDS};

/// What a problem file holds.
///
/// ```
/// use tronglephu::{Mode, Problem};
///
/// let bytes = [
///     0x00, 0x00, 0x00, 0x21, 0x01, 0x03, 0x01, 0x03, 0x01, // count; version, n, m, mode; dist
///     0x00, 0x03, 0x00, 0x01, 0x00, 0x02, 0x00, 0x02, 0x00, 0x09, 0x01, 0x02, 0x00, 0x03, // arcs
///     0x00, 0x02, 0x01, 0x00, 0x00, 0x00, 0x00, 0x07, 0x02, 0x00, 0x00, 0x00, 0x00, 0x04, // attachments
/// ];
/// let problem = Problem::read(&bytes)?;
/// assert_eq!(problem.network().n(), 3);
/// assert_eq!(problem.mode(), Some(Mode::Cold));
/// assert_eq!(problem.encode().unwrap(), bytes);
///
/// let refusal = Problem::read(&bytes[..30]).unwrap_err();
/// assert_eq!(refusal.to_string(), "the first four bytes do not count the bytes after them");
/// # Ok::<(), tronglephu::Refusal>(())
/// ```
///
/// A problem is also parsed from readable lines, in any order but that the sizes and the language come first, and shows
/// itself as such lines:
///
/// ```
/// use tronglephu::Problem;
///
/// let lines = "\
/// nodes 3
/// destinations 1
/// mode hot
/// language dist, width 9
/// arc 0 1 2 9
/// arc 1 2 3 4
/// attach 2 0 0 9 t 4
/// ";
/// let problem: Problem = lines.parse().unwrap();
/// assert_eq!(problem.to_string(), lines);
/// assert_eq!(Problem::read(&problem.encode().unwrap())?, problem);
///
/// let fault = "nodes 3\nlanguage dist\narc 0 3 2".parse::<Problem>().unwrap_err();
/// assert_eq!(fault.to_string(), "line 3: no such node");
/// # Ok::<(), tronglephu::Refusal>(())
/// ```
#[derive(Clone, Debug, PartialEq, Eq)]
pub struct Problem {
    network: Network,
    mode: Option<Mode>,
    mapping: Table,
}

/// Why a problem is no file's.
#[derive(Clone, Copy, Debug, PartialEq, Eq)]
pub enum Unwritable {
    /// The mapping table is of another number of nodes than the network.
    Nodes,
    /// The language does not have one to four components of known kinds.
    Language,
    /// The arc holds a value that the language does not have.
    Arc(Node, Node),
    /// The attachment holds a value that the language does not have, or an outside number that the mode does not.
    Attachment(Node, Destination),
    /// The reader would refuse the file.
    Refused(Refusal),
}

impl fmt::Display for Unwritable {
    fn fmt(&self, f: &mut fmt::Formatter<'_>) -> fmt::Result {
        match self {
            Unwritable::Nodes => {
                f.write_str("the mapping table is of another number of nodes than the network")
            }
            Unwritable::Language => {
                f.write_str("the language does not have one to four components of known kinds")
            }
            Unwritable::Arc(from, to) => write!(f, "the arc from {from} to {to} is out of range"),
            Unwritable::Attachment(node, destination) => write!(
                f,
                "the attachment of destination {destination} to node {node} is out of range"
            ),
            Unwritable::Refused(refusal) => write!(f, "the file would be refused: {refusal}"),
        }
    }
}

impl Error for Unwritable {
    fn source(&self) -> Option<&(dyn Error + 'static)> {
        match self {
            Unwritable::Refused(refusal) => Some(refusal),
            _ => None,
        }
    }
}

const VERSION: u8 = 1;
const PRODUCT: u8 = 5;

impl Problem {
    /// A problem of these parts. Without destinations there is no mode.
    pub fn new(network: Network, mode: Option<Mode>, mapping: Table) -> Problem {
        Problem {
            network,
            mode,
            mapping,
        }
    }

    /// The network.
    pub fn network(&self) -> &Network {
        &self.network
    }

    /// The network, to be changed.
    pub fn network_mut(&mut self) -> &mut Network {
        &mut self.network
    }

    /// The mode; none without destinations.
    pub fn mode(&self) -> Option<Mode> {
        self.mode
    }

    /// The mapping table M.
    pub fn mapping(&self) -> &Table {
        &self.mapping
    }

    /// The mapping table, to be changed.
    pub fn mapping_mut(&mut self) -> &mut Table {
        &mut self.mapping
    }

    /// The problem of a file's bytes.
    pub fn read(file: &[u8]) -> Result<Problem, Refusal> {
        let mut arcs = vec![0; ffi::ARCS_ROOM];
        let mut words = vec![0; ffi::MAPPING_ROOM];
        let mut problem = [0; ffi::PROBLEM_WORDS];
        let answer = ffi::read(file, &mut arcs, &mut words, &mut problem);
        Refusal::unless_done(Call::Read, answer)?;
        let [n, m, mode, numbers @ ..] = problem;
        // What the reader gives fits: n is 1..=16, m is 0..=32, and the language's numbers are a file's.
        let (n, m) = (n as u8, m as u8);
        let language = Language::from_numbers(numbers.map(|number| number as u16));
        let mut matrix = Matrix::without_routes(n);
        let mut mapping = Table::empty(n, m);
        copy_first(&arcs, matrix.words_mut());
        copy_first(&words, mapping.words_mut());
        let network = Network::new(language, matrix);
        Ok(Problem::new(network, Mode::from_number(mode), mapping))
    }

    /// The bytes of a file that reads back as this problem. They are read before they are given.
    pub fn encode(&self) -> Result<Vec<u8>, Unwritable> {
        if self.mapping.n() != self.network.n() {
            return Err(Unwritable::Nodes);
        }
        let components = self.network.language().components();
        let components = components.ok_or(Unwritable::Language)?;
        let mode = self.mode.map_or(0, Mode::number);
        let mut body = vec![VERSION, self.network.n(), self.mapping.m(), mode];
        put_language(&mut body, &components);
        put_list(&mut body, self.arc_records(&components)?);
        put_list(&mut body, self.attachment_records(&components)?);
        let mut file = (body.len() as u32).to_be_bytes().to_vec();
        file.append(&mut body);
        Problem::read(&file).map_err(Unwritable::Refused)?;
        Ok(file)
    }

    fn arc_records(&self, components: &[Component]) -> Result<Vec<Vec<u8>>, Unwritable> {
        let mut records = Vec::new();
        for (from, to, weight) in self.network.arcs().entries() {
            let Weight::Route(values) = weight else {
                continue;
            };
            if !fit(components, &values) {
                return Err(Unwritable::Arc(from, to));
            }
            let mut record = vec![from.0, to.0];
            put_values(&mut record, &values[..components.len()]);
            records.push(record);
        }
        Ok(records)
    }

    fn attachment_records(&self, components: &[Component]) -> Result<Vec<Vec<u8>>, Unwritable> {
        let has_outside = self.mode.is_some_and(Mode::has_outside);
        let most = if has_outside { u16::MAX.into() } else { 0 };
        let mut records = Vec::new();
        for (node, destination, entry) in self.mapping.entries() {
            let Entry::Route { values, t } = entry else {
                continue;
            };
            if !fit(components, &values) || most < t {
                return Err(Unwritable::Attachment(node, destination));
            }
            let mut record = vec![node.0, destination.0];
            put_values(&mut record, &values[..components.len()]);
            if has_outside {
                put_values(&mut record, &[t]);
            }
            records.push(record);
        }
        Ok(records)
    }
}

fn copy_first(from: &[u32], to: &mut [u32]) {
    let length = to.len();
    to.copy_from_slice(&from[..length]);
}

/// Whether an arc or an attachment may hold these values.
fn fit(components: &[Component], values: &[u32; WEIGHT_WORDS]) -> bool {
    let (used, unused) = values.split_at(components.len());
    let held = components.iter().zip(used).all(|(c, v)| c.holds(*v));
    held && unused.iter().all(|value| *value == 0)
}

/// Each component but the last under a product with the rest.
fn put_language(body: &mut Vec<u8>, components: &[Component]) {
    for (place, component) in components.iter().enumerate() {
        if place + 1 < components.len() {
            body.push(PRODUCT);
        }
        let [kind, limit] = component.numbers();
        body.push(kind as u8);
        if matches!(component, Component::Width(_) | Component::Class(_)) {
            body.extend(limit.to_be_bytes());
        }
    }
}

/// A list's count, then its records. No table has more entries than two bytes count.
fn put_list(body: &mut Vec<u8>, records: Vec<Vec<u8>>) {
    body.extend((records.len() as u16).to_be_bytes());
    body.extend(records.concat());
}

/// Values that are known to fit two bytes.
fn put_values(record: &mut Vec<u8>, values: &[u32]) {
    record.extend(
        values
            .iter()
            .flat_map(|value| (*value as u16).to_be_bytes()),
    );
}
