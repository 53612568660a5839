//! Matrices that know their n, and tables that know their n and m, each in one flat buffer by rows.

use std::error::Error;
use std::fmt;
use std::ops::Range;

use crate::numbers::{Destination, Node};
use crate::weights::{Entry, Weight, ENTRY_WORDS, WEIGHT_WORDS};

/// Words whose number is not the one that their matrix or table has.
#[derive(Clone, Copy, Debug, PartialEq, Eq)]
pub struct WrongLength {
    /// The words that it has.
    pub wanted: usize,
    /// The words that were given.
    pub found: usize,
}

impl fmt::Display for WrongLength {
    fn fmt(&self, f: &mut fmt::Formatter<'_>) -> fmt::Result {
        write!(f, "{} words where there are {}", self.found, self.wanted)
    }
}

impl Error for WrongLength {}

fn checked(words: Vec<u32>, wanted: usize) -> Result<Vec<u32>, WrongLength> {
    let found = words.len();
    if found == wanted {
        Ok(words)
    } else {
        Err(WrongLength { wanted, found })
    }
}

/// The words of entry (row, column); `None` where there is none.
fn place(sizes: (u8, u8), at: (u8, u8), entry_words: usize) -> Option<Range<usize>> {
    let ((rows, columns), (row, column)) = (sizes, at);
    if rows <= row || columns <= column {
        return None;
    }
    let entry = usize::from(row) * usize::from(columns) + usize::from(column);
    Some(entry * entry_words..(entry + 1) * entry_words)
}

/// n x n weights by rows: the arcs A of a network, or a routing matrix R.
///
/// ```
/// use tronglephu::{Matrix, Node, Weight};
///
/// let mut arcs = Matrix::without_routes(3);
/// arcs.set(Node(0), Node(1), Weight::from(2));
/// assert_eq!(arcs.get(Node(0), Node(1)), Some(Weight::from(2)));
/// assert_eq!(arcs.get(Node(1), Node(0)), Some(Weight::NoRoute));
/// assert_eq!(arcs.get(Node(0), Node(3)), None);
/// assert_eq!(arcs.words().len(), 3 * 3 * 4);
/// ```
#[derive(Clone, Debug, PartialEq, Eq)]
pub struct Matrix {
    n: u8,
    words: Vec<u32>,
}

impl Matrix {
    fn length(n: u8) -> usize {
        usize::from(n) * usize::from(n) * WEIGHT_WORDS
    }

    /// A matrix of n x n times no route. The calls refuse (3) an n that is not 1..=16.
    pub fn without_routes(n: u8) -> Matrix {
        let words = vec![u32::MAX; Matrix::length(n)];
        Matrix { n, words }
    }

    /// The matrix of these words, four for each weight, taken as they are: the calls refuse (6) what is malformed.
    pub fn from_words(n: u8, words: Vec<u32>) -> Result<Matrix, WrongLength> {
        let words = checked(words, Matrix::length(n))?;
        Ok(Matrix { n, words })
    }

    /// The number of its nodes.
    pub fn n(&self) -> u8 {
        self.n
    }

    /// All its words.
    pub fn words(&self) -> &[u32] {
        &self.words
    }

    /// All its words, to be written by a call, or by hand.
    pub fn words_mut(&mut self) -> &mut [u32] {
        &mut self.words
    }

    /// The weight from one node to another; `None` where there is no such node.
    pub fn get(&self, from: Node, to: Node) -> Option<Weight> {
        let place = place((self.n, self.n), (from.0, to.0), WEIGHT_WORDS)?;
        let words = self.words.get(place)?.try_into().ok()?;
        Some(Weight::from_words(words))
    }

    /// Sets a weight, and gives the one that stood there; `None`, and nothing set, where there is no such node.
    pub fn set(&mut self, from: Node, to: Node, weight: Weight) -> Option<Weight> {
        let old = self.get(from, to)?;
        let place = place((self.n, self.n), (from.0, to.0), WEIGHT_WORDS)?;
        self.words[place].copy_from_slice(&weight.words());
        Some(old)
    }

    /// The words of a row; empty where there is no such node.
    pub fn row(&self, from: Node) -> &[u32] {
        let size = usize::from(self.n) * WEIGHT_WORDS;
        let start = usize::from(from.0) * size;
        self.words.get(start..start + size).unwrap_or_default()
    }

    /// Every pair of nodes by rows, with its weight.
    pub fn entries(&self) -> impl Iterator<Item = (Node, Node, Weight)> + '_ {
        let n = self.n;
        let pairs = (0..n).flat_map(move |from| (0..n).map(move |to| (Node(from), Node(to))));
        pairs.filter_map(|(from, to)| Some((from, to, self.get(from, to)?)))
    }
}

/// n x m entries by rows: a mapping table M, or a forwarding table F.
///
/// ```
/// use tronglephu::{Destination, Entry, Node, Table};
///
/// let mut mapping = Table::empty(3, 1);
/// mapping.set(Node(1), Destination(0), Entry::of(0, 7));
/// assert_eq!(mapping.get(Node(1), Destination(0)), Some(Entry::of(0, 7)));
/// assert_eq!(mapping.get(Node(0), Destination(0)), Some(Entry::Empty));
/// assert_eq!(mapping.get(Node(0), Destination(1)), None);
/// ```
#[derive(Clone, Debug, PartialEq, Eq)]
pub struct Table {
    n: u8,
    m: u8,
    words: Vec<u32>,
}

impl Table {
    fn length(n: u8, m: u8) -> usize {
        usize::from(n) * usize::from(m) * ENTRY_WORDS
    }

    /// A table of n x m empty entries. Forwarding refuses (3) an m that is not 1..=32.
    pub fn empty(n: u8, m: u8) -> Table {
        let words = vec![u32::MAX; Table::length(n, m)];
        Table { n, m, words }
    }

    /// The table of these words, five for each entry, taken as they are: forwarding refuses (6) what is malformed.
    pub fn from_words(n: u8, m: u8, words: Vec<u32>) -> Result<Table, WrongLength> {
        let words = checked(words, Table::length(n, m))?;
        Ok(Table { n, m, words })
    }

    /// The number of its nodes.
    pub fn n(&self) -> u8 {
        self.n
    }

    /// The number of its destinations.
    pub fn m(&self) -> u8 {
        self.m
    }

    /// All its words.
    pub fn words(&self) -> &[u32] {
        &self.words
    }

    /// All its words, to be written by a call, or by hand.
    pub fn words_mut(&mut self) -> &mut [u32] {
        &mut self.words
    }

    /// The entry of a node and a destination; `None` where there is none of either.
    pub fn get(&self, node: Node, destination: Destination) -> Option<Entry> {
        let place = place((self.n, self.m), (node.0, destination.0), ENTRY_WORDS)?;
        let words = self.words.get(place)?.try_into().ok()?;
        Some(Entry::from_words(words))
    }

    /// Sets an entry, and gives the one that stood there; `None`, and nothing set, where there is none.
    pub fn set(&mut self, node: Node, destination: Destination, entry: Entry) -> Option<Entry> {
        let old = self.get(node, destination)?;
        let place = place((self.n, self.m), (node.0, destination.0), ENTRY_WORDS)?;
        self.words[place].copy_from_slice(&entry.words());
        Some(old)
    }

    /// Every node and destination by rows, with its entry.
    pub fn entries(&self) -> impl Iterator<Item = (Node, Destination, Entry)> + '_ {
        let (n, m) = (self.n, self.m);
        let pairs = (0..n).flat_map(move |i| (0..m).map(move |d| (Node(i), Destination(d))));
        pairs.filter_map(|(node, destination)| {
            Some((node, destination, self.get(node, destination)?))
        })
    }
}
