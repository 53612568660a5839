//! The typed refusal: which call gave it, and 01's number, which and place, said in words.

use std::error::Error;
use std::fmt;
use std::str::FromStr;

use crate::explained::{self, Case};
use crate::ffi::Answer;

/// A call of the library.
#[derive(Clone, Copy, Debug, PartialEq, Eq, PartialOrd, Ord, Hash)]
pub enum Call {
    /// [`Problem::read`](crate::Problem::read)
    Read,
    /// [`Language::laws`](crate::Language::laws)
    Laws,
    /// [`Network::fresh`](crate::Network::fresh)
    Fresh,
    /// [`Network::steps`](crate::Network::steps)
    Steps,
    /// [`Network::equation`](crate::Network::equation)
    Equation,
    /// [`Network::forward`](crate::Network::forward)
    Forward,
    /// [`Network::next_hop`](crate::Network::next_hop)
    NextHop,
    /// [`Network::handover`](crate::Network::handover)
    Handover,
}

impl Call {
    /// Every call.
    pub const ALL: [Call; 8] = [
        Call::Read,
        Call::Laws,
        Call::Fresh,
        Call::Steps,
        Call::Equation,
        Call::Forward,
        Call::NextHop,
        Call::Handover,
    ];

    /// Its name: what follows `tronglephu_` in C.
    pub fn name(self) -> &'static str {
        match self {
            Call::Read => "read",
            Call::Laws => "laws",
            Call::Fresh => "fresh",
            Call::Steps => "steps",
            Call::Equation => "equation",
            Call::Forward => "forward",
            Call::NextHop => "next_hop",
            Call::Handover => "handover",
        }
    }
}

impl fmt::Display for Call {
    fn fmt(&self, f: &mut fmt::Formatter<'_>) -> fmt::Result {
        f.write_str(self.name())
    }
}

impl FromStr for Call {
    type Err = NoSuchCall;

    fn from_str(text: &str) -> Result<Call, NoSuchCall> {
        let named = Call::ALL.into_iter().find(|call| call.name() == text);
        named.ok_or(NoSuchCall)
    }
}

/// A name that no call has.
#[derive(Clone, Copy, Debug, PartialEq, Eq)]
pub struct NoSuchCall;

impl fmt::Display for NoSuchCall {
    fn fmt(&self, f: &mut fmt::Formatter<'_>) -> fmt::Result {
        let names: Vec<&str> = Call::ALL.iter().map(|call| call.name()).collect();
        write!(f, "the calls are {}", names.join(", "))
    }
}

impl Error for NoSuchCall {}

/// Why a call was refused.
///
/// ```
/// use tronglephu::{Call, Component, Language, Matrix, Network, Node, Weight};
///
/// let mut arcs = Matrix::without_routes(2);
/// arcs.set(Node(1), Node(1), Weight::from(70_000));
/// let network = Network::new(Language::of(&[Component::Dist]), arcs);
/// let routes = network.fresh()?;
///
/// let refusal = network.equation(&routes).unwrap_err();
/// assert_eq!((refusal.call, refusal.number, refusal.which, refusal.place), (Call::Equation, 6, 1, 12));
/// assert_eq!(refusal.to_string(), "A is malformed at word 12");
/// # Ok::<(), tronglephu::Refusal>(())
/// ```
#[derive(Clone, Copy, Debug, PartialEq, Eq, Hash)]
pub struct Refusal {
    /// The call that gave it.
    pub call: Call,
    /// 1 to 13.
    pub number: u32,
    /// Which buffer, size or law; 0 where there is only one.
    pub which: u32,
    /// Where: an offset of the file, a word of a buffer, a component, a step, an argument.
    pub place: u32,
}

impl Refusal {
    /// The value of an answer that is done.
    pub(crate) fn unless_done(call: Call, answer: Answer) -> Result<u32, Refusal> {
        let Answer {
            number,
            which,
            place,
            value,
        } = answer;
        if number == 0 {
            return Ok(value);
        }
        Err(Refusal {
            call,
            number,
            which,
            place,
        })
    }

    fn case(&self) -> Option<&'static Case> {
        explained::case(self.call, self.number, self.which, self.place)
    }

    /// What to do about it; `None` for numbers that the call never gives.
    pub fn remedy(&self) -> Option<&'static str> {
        self.case().map(|case| case.remedy)
    }

    /// Its line in the call's table of `docs/REFUSALS.md`.
    pub fn line(&self) -> Option<String> {
        self.case().map(explained::line)
    }
}

impl fmt::Display for Refusal {
    fn fmt(&self, f: &mut fmt::Formatter<'_>) -> fmt::Result {
        match self.case() {
            Some(case) => f.write_str(&case.says(&self.place.to_string())),
            None => {
                let Refusal {
                    call,
                    number,
                    which,
                    place,
                } = self;
                write!(f, "{call} never answers {number} {which} {place}")
            }
        }
    }
}

impl Error for Refusal {}
