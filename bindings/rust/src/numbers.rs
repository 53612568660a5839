//! Node and destination numbers, which are never taken for each other; modes and steps.

use std::fmt;

/// The number of a node. A call refuses (7) a number that is no node of its network.
#[derive(Clone, Copy, Debug, PartialEq, Eq, PartialOrd, Ord, Hash)]
pub struct Node(pub u8);

/// The number of a destination, from a namespace disjoint from the nodes'.
#[derive(Clone, Copy, Debug, PartialEq, Eq, PartialOrd, Ord, Hash)]
pub struct Destination(pub u8);

impl fmt::Display for Node {
    fn fmt(&self, f: &mut fmt::Formatter<'_>) -> fmt::Result {
        self.0.fmt(f)
    }
}

impl fmt::Display for Destination {
    fn fmt(&self, f: &mut fmt::Formatter<'_>) -> fmt::Result {
        self.0.fmt(f)
    }
}

/// How forwarding compares entries.
#[derive(Clone, Copy, Debug, PartialEq, Eq, Hash)]
pub enum Mode {
    /// By weight alone; every outside number is 0.
    Plain = 1,
    /// By weight, then by the smaller outside number. Needs law C.
    Hot = 2,
    /// By the smaller outside number, then by weight.
    Cold = 3,
}

impl Mode {
    /// The mode of a number, where there is one.
    pub fn from_number(number: u32) -> Option<Mode> {
        match number {
            1 => Some(Mode::Plain),
            2 => Some(Mode::Hot),
            3 => Some(Mode::Cold),
            _ => None,
        }
    }

    /// The mode that is written so.
    pub(crate) fn named(name: &str) -> Option<Mode> {
        let modes = [Mode::Plain, Mode::Hot, Mode::Cold];
        modes.into_iter().find(|mode| mode.to_string() == name)
    }

    /// 1 plain, 2 hot, 3 cold.
    pub fn number(self) -> u8 {
        self as u8
    }

    /// Whether entries carry an outside number of their own.
    pub(crate) fn has_outside(self) -> bool {
        self != Mode::Plain
    }
}

impl fmt::Display for Mode {
    fn fmt(&self, f: &mut fmt::Formatter<'_>) -> fmt::Result {
        f.write_str(match self {
            Mode::Plain => "plain",
            Mode::Hot => "hot",
            Mode::Cold => "cold",
        })
    }
}

/// One step of a list.
#[derive(Clone, Copy, Debug, PartialEq, Eq, Hash)]
pub enum Step {
    /// Sets each entry of this row to the best over its arcs and the routes from their ends.
    Row(Node),
    /// Sets this column to the best weights over paths that visit no node twice, whatever it held.
    Settle(Node),
}

/// What a settle step's number adds to its column.
const SETTLE_FROM: u32 = 256;

impl Step {
    /// The step's number in a list: the row, or 256 and the column.
    pub fn number(self) -> u32 {
        match self {
            Step::Row(node) => node.0.into(),
            Step::Settle(node) => SETTLE_FROM + u32::from(node.0),
        }
    }

    /// A row step for each of n nodes in order.
    ///
    /// From fresh, n - 1 sweeps make every route the best.
    pub fn sweep(n: u8) -> Vec<Step> {
        (0..n).map(|node| Step::Row(Node(node))).collect()
    }

    /// A settle for each of n columns: after it every route is the best, whatever the matrix held.
    pub fn settle_all(n: u8) -> Vec<Step> {
        (0..n).map(|node| Step::Settle(Node(node))).collect()
    }
}
