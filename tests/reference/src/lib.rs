//! A second, independent writing of the routing library, taken from the paper alone.
//! It favours plain definitions over speed; comparison drivers check other code against it.
#![forbid(unsafe_code)]

pub mod corpus;
pub mod enumeration;
pub mod forwarding;
pub mod generator;
pub mod handover;
pub mod hops;
pub mod laws;
pub mod matrices;
pub mod paths;
pub mod printing;
pub mod reader;
pub mod refusals;
pub mod weights;

pub use forwarding::forward;
pub use handover::{lent_row, which_refusal, Lent};
pub use hops::next_hop;
pub use laws::{laws, LawReport};
pub use matrices::{equation, fresh, steps};
pub use printing::print;
pub use reader::{read, ReadAnswer};
pub use refusals::Refusal;
pub use weights::{Component, Language, Weight};
