//! Routes over any lawful language of weights, worked out by a library whose every call is proved.
//!
//! The library reads a routing language with a network, decides the language's laws, works out the routing matrix, and
//! applies it to a mapping table. Each call takes every input, ends, and either does what it says or refuses by number
//! and place; each settled route is the best weight over paths that visit no node twice. This crate gives the calls Rust
//! types: matrices that know their n, node numbers that are no destination numbers, and a [`Refusal`] that says itself
//! in words. It adds no check of its own to a call: what is refused is refused by the proved code.
//!
//! # A changeover
//!
//! ```
//! use tronglephu::{Destination, Entry, Lender, Node, Problem, Weight};
//!
//! let problem: Problem = "
//!     nodes 3
//!     destinations 1
//!     mode cold
//!     language dist
//!     arc 0 1 2
//!     arc 0 2 9
//!     arc 1 2 3
//!     attach 1 0 0 t 7
//!     attach 2 0 0 t 4
//! ".parse()?;
//! let network = problem.network();
//!
//! // What stands was worked out before the arc from 1 to 2 was there.
//! let mut before = network.clone();
//! before.arcs_mut().set(Node(1), Node(2), Weight::NoRoute);
//! let standing = before.settled()?;
//!
//! // The new matrix lends its rows from the moment that all of it is the best.
//! let newer = network.settled()?;
//! let row = network.lent_row(&standing, &newer, Node(0))?;
//! assert_eq!(row.lender(), Lender::Newer);
//! assert_eq!(row.get(Node(2)), Some(Weight::from(5)));
//! assert_eq!(network.next_hop(&newer, Node(0), Node(2))?, Some(Node(1)));
//!
//! let mode = problem.mode().expect("it has destinations");
//! let table = network.forward(mode, &newer, problem.mapping())?;
//! assert_eq!(table.get(Node(0), Destination(0)), Some(Entry::of(5, 4)));
//! # Ok::<(), Box<dyn std::error::Error>>(())
//! ```
//!
//! # Linking
//!
//! The build script looks for `libtronglephu.a` in the folder that the environment variable `TRONGLEPHU_LIB` names, or
//! else in `target/staticlib` of the repository, where `tools/archive` puts it. The archive is x86-64 code; on
//! another processor the crate does not compile. The library uses no heap and no globals, so every call may be made from
//! any thread; the buffers of this crate are ordinary vectors.
//!
//! # Where to look
//!
//! | to | use |
//! |---|---|
//! | describe weights | [`Component`], [`Language`], [`Language::laws`] |
//! | read and write problem files | [`Problem::read`], [`Problem::encode`] |
//! | work out routes | [`Network::fresh`], [`Network::steps`], [`Network::settled`] |
//! | judge a matrix | [`Network::equation`], [`Network::first_not_best`] |
//! | use it | [`Network::forward`], [`Network::next_hop`], [`Network::lent_row`] |
//! | understand a refusal | [`Refusal`], `docs/REFUSALS.md` |
#![deny(unsafe_code)]
#![warn(missing_docs)]

#[cfg(not(target_arch = "x86_64"))]
compile_error!(
    "libtronglephu.a is x86-64 code: build this crate for x86_64; on another processor the proved programs run under an emulator"
);

mod buffers;
mod explained;
#[allow(unsafe_code)]
mod ffi;
mod language;
mod lines;
mod network;
mod numbers;
mod problem;
mod refusals;
mod weights;

pub use buffers::{Matrix, Table, WrongLength};
pub use explained::page as refusals_page;
pub use language::{Component, Language, Law, LawReport};
pub use lines::BadLine;
pub use network::{Lender, LentRow, Network, NotBest};
pub use numbers::{Destination, Mode, Node, Step};
pub use problem::{Problem, Unwritable};
pub use refusals::{Call, NoSuchCall, Refusal};
pub use weights::{Entry, Weight, ENTRY_WORDS, WEIGHT_WORDS};
