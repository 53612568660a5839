//! What a run has met: each answer, told apart by what it says and, when done, by the network's size.

use std::collections::BTreeMap;

use compare::calls::Kind;
use door::exports::Reply;
use door::requests::Request;

use crate::stored::{name, KINDS};

#[derive(Clone, Copy, Debug, PartialEq, Eq, PartialOrd, Ord)]
pub struct Answer {
    pub kind: Kind,
    pub number: u32,
    pub which: u32,
    /// Done: the value, or its class where there are many. Refused: 0.
    pub said: u32,
    /// Done: n, 0 where the call takes none. Refused: how many bits the place has.
    pub size: u32,
}

impl Answer {
    pub fn new(request: &Request, reply: Reply) -> Answer {
        let done = reply.number == 0;
        let nodes = match request.call.kind {
            Kind::Laws | Kind::Read => 0,
            _ => request.call.n,
        };
        Answer {
            kind: request.call.kind,
            number: reply.number,
            which: reply.which,
            said: if done { said(request, reply) } else { 0 },
            size: if done { nodes } else { bits(reply.place) },
        }
    }
}

fn bits(number: u32) -> u32 {
    u32::BITS - number.leading_zeros()
}

/// The classes of a done call: the laws held, the steps done by their bits, yes or no, the mode, none or a hop, the lender, the
/// size of the file by its bits.
fn said(request: &Request, reply: Reply) -> u32 {
    match request.call.kind {
        Kind::Laws | Kind::Equation | Kind::LentRow | Kind::WhichRefusal => reply.value,
        Kind::Fresh => 0,
        Kind::Steps => bits(reply.value),
        Kind::Forward => request.call.mode,
        Kind::NextHop => u32::from(reply.value == 255),
        Kind::Read => bits(request.call.buffers[0].len() as u32),
        Kind::Print => panic!("the printed text is not exported"),
    }
}

#[derive(Default)]
pub struct Answers {
    counts: BTreeMap<Answer, u64>,
}

impl Answers {
    pub fn add(&mut self, answer: Answer) {
        *self.counts.entry(answer).or_default() += 1;
    }

    pub fn is_new(&self, answer: Answer) -> bool {
        !self.counts.contains_key(&answer)
    }

    pub fn distinct(&self) -> usize {
        self.counts.len()
    }

    /// The answers that a call can give and that none gave.
    pub fn missing(&self) -> Vec<String> {
        let met = |kind: Kind, number: u32, which: u32| {
            let same = |a: &Answer| (a.kind, a.number, a.which) == (kind, number, which);
            self.counts.keys().any(same)
        };
        let mut missing = Vec::new();
        for kind in KINDS {
            for (number, which) in possible(kind) {
                if !met(kind, number, which) {
                    missing.push(format!("{} {number} {which}", name(kind)));
                }
            }
        }
        missing
    }

    /// A line for each call: how many were done and refused, and the answers told apart.
    pub fn lines(&self) -> String {
        KINDS.map(|kind| self.line(kind)).concat()
    }

    fn line(&self, kind: Kind) -> String {
        let of_kind = || self.counts.iter().filter(|(answer, _)| answer.kind == kind);
        let all: u64 = of_kind().map(|(_, count)| count).sum();
        let done = of_kind().filter(|(answer, _)| answer.number == 0);
        let done: u64 = done.map(|(_, count)| count).sum();
        let (name, refused, distinct) = (name(kind), all - done, of_kind().count());
        format!("{name}: {done} done, {refused} refused, {distinct} distinct answers\n")
    }
}

/// Done, and the refusals that the exported function can give: the two lengths of its own among them.
pub fn possible(kind: Kind) -> Vec<(u32, u32)> {
    let own: &[(u32, u32)] = match kind {
        Kind::Laws | Kind::Read => &[(9, 6)],
        _ => &[],
    };
    [&[(0, 0)], kind.refusals(), own].concat()
}
