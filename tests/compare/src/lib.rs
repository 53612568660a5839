//! Generated calls with what the independent implementation answers to them, and what a run of them has met: shared by the
//! drivers that ask the proved code, over a program's input and output here, and through its exported functions in `door`.
#![forbid(unsafe_code)]

pub mod calls;
pub mod coverage;
pub mod generate;
mod networks;
