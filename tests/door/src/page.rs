//! Which lines of docs/REFUSALS.md the refused calls have met.

use std::collections::BTreeSet;

use compare::calls::Kind;
use tronglephu::{refusals_page, Call, Refusal};

use crate::exports::Reply;

/// Lines of the page, each with its call's name.
type Lines = BTreeSet<(String, String)>;

#[derive(Default)]
pub struct Explained {
    met: Lines,
}

/// The exported function that a call goes through.
pub fn call_of(kind: Kind) -> Call {
    match kind {
        Kind::Laws => Call::Laws,
        Kind::Fresh => Call::Fresh,
        Kind::Steps => Call::Steps,
        Kind::Equation => Call::Equation,
        Kind::Forward => Call::Forward,
        Kind::NextHop => Call::NextHop,
        Kind::LentRow | Kind::WhichRefusal => Call::Handover,
        Kind::Read => Call::Read,
        Kind::Print => panic!("the printed text is not exported"),
    }
}

impl Explained {
    /// Notes the line of a refusal; false where the page has none.
    pub fn add(&mut self, kind: Kind, reply: Reply) -> bool {
        if reply.number == 0 {
            return true;
        }
        let call = call_of(kind);
        let refusal = Refusal {
            call,
            number: reply.number,
            which: reply.which,
            place: reply.place,
        };
        let line = refusal.line();
        let found = line.is_some();
        self.met.extend(line.map(|line| (call.to_string(), line)));
        found
    }

    /// How many lines the page has, and those that no call has met.
    pub fn missing(&self) -> (usize, Vec<String>) {
        let lines = lines_of(&refusals_page());
        let unmet = lines.difference(&self.met);
        let missing = unmet.map(|(call, line)| format!("{call} {line}"));
        (lines.len(), missing.collect())
    }
}

/// The lines of every table of the page.
fn lines_of(page: &str) -> Lines {
    let mut call = String::new();
    let mut lines = Lines::new();
    for line in page.lines() {
        let is_case = |rest: &str| rest.starts_with(|first: char| first.is_ascii_digit());
        if let Some(name) = line.strip_prefix("## ") {
            call = name.to_string();
        } else if line.strip_prefix("| ").is_some_and(is_case) {
            lines.insert((call.clone(), line.to_string()));
        }
    }
    lines
}

#[cfg(test)]
mod tests {
    use super::*;

    #[test]
    fn a_line_of_the_page_is_met_by_its_refusal() {
        let mut explained = Explained::default();
        let (all, missing) = explained.missing();
        assert_eq!(all, missing.len());
        let reply = |number: u32, which: u32, place: u32| Reply {
            number,
            which,
            place,
            value: 0,
        };
        assert!(explained.add(Kind::Steps, reply(6, 1, 12)));
        assert!(explained.add(Kind::Steps, reply(6, 1, 20)));
        assert!(!explained.add(Kind::Steps, reply(6, 3, 12)));
        assert_eq!(explained.missing().1.len(), all - 1);
    }
}
