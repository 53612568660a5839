//! What the compared calls have met: calls of each kind, refusals by number and which, and
//! the answers that matter most.

use std::collections::BTreeMap;
use std::fmt;

use reference::{equation, Refusal};

use crate::calls::{language_of, text_of, AnswerWords, Call, Kind};

#[derive(Default)]
pub struct Coverage {
    calls: u64,
    words: u64,
    answers: BTreeMap<(Kind, u32, u32), u64>,
    nodes: BTreeMap<u32, u64>,
    seen: BTreeMap<&'static str, u64>,
    steps_run: u64,
    longest_run: u32,
}

impl Coverage {
    pub fn add(&mut self, call: &Call, answer: &AnswerWords) {
        let (number, which) = (answer[0], answer[1]);
        self.calls += 1;
        self.words += answer.len() as u64;
        let key = (call.kind, number, which);
        *self.answers.entry(key).or_default() += 1;
        let without_nodes = matches!(
            call.kind,
            Kind::Laws | Kind::LentRow | Kind::Read | Kind::Print
        );
        if number == 0 && !without_nodes {
            *self.nodes.entry(call.n).or_default() += 1;
        }
        if call.kind == Kind::Steps {
            self.steps_run += u64::from(answer[3]);
            self.longest_run = self.longest_run.max(answer[3]);
        }
        for name in notable(call, answer) {
            *self.seen.entry(name).or_default() += 1;
        }
    }

    fn count(&self, kind: Kind, number: u32, which: u32) -> u64 {
        let key = (kind, number, which);
        self.answers.get(&key).copied().unwrap_or(0)
    }

    /// The answers that a call can give and that none gave.
    pub fn missing(&self) -> Vec<String> {
        let mut missing: Vec<String> = Kind::ALL
            .iter()
            .flat_map(|kind| self.missing_of(*kind))
            .collect();
        for names in [&OF_CALLS[..], &OF_READING, &OF_PRINTING] {
            missing.extend(self.unseen(names));
        }
        missing
    }

    /// Of the exported calls alone: all but the printed text.
    pub fn missing_of_exports(&self) -> Vec<String> {
        let exported = Kind::ALL.iter().filter(|kind| **kind != Kind::Print);
        let mut missing: Vec<String> = exported.flat_map(|kind| self.missing_of(*kind)).collect();
        missing.extend(self.unseen(&OF_CALLS));
        missing.extend(self.unseen(&OF_READING));
        missing
    }

    /// Of reading and printing alone, where each buffer is long enough.
    pub fn missing_of_files(&self) -> Vec<String> {
        let mut missing = self.missing_of(Kind::Read);
        missing.retain(|answer| !answer.starts_with("read 9"));
        missing.extend(self.unseen(&OF_READING));
        missing.extend(self.unseen(&OF_PRINTING));
        missing
    }

    fn missing_of(&self, kind: Kind) -> Vec<String> {
        let answers = [&[(0, 0)], kind.refusals()].concat().into_iter();
        let never = answers.filter(|(number, which)| self.count(kind, *number, *which) == 0);
        never
            .map(|(number, which)| format!("{} {number} {which}", kind.name()))
            .collect()
    }

    fn unseen(&self, names: &[&str]) -> Vec<String> {
        let unseen = names.iter().filter(|name| !self.seen.contains_key(*name));
        unseen.map(|name| name.to_string()).collect()
    }

    fn calls_of(&self, kind: Kind) -> u64 {
        let of_kind = self.answers.iter().filter(|((k, _, _), _)| *k == kind);
        of_kind.map(|(_, count)| count).sum()
    }

    fn kind_line(&self, kind: Kind) -> String {
        let counted = |(number, which): &(u32, u32)| {
            format!("{number} {which}: {}", self.count(kind, *number, *which))
        };
        let refused: Vec<String> = kind.refusals().iter().map(counted).collect();
        let calls = self.calls_of(kind);
        let done = self.count(kind, 0, 0);
        let name = kind.name();
        format!(
            "{name}: {calls} calls, done {done}, refused {}",
            refused.join(", ")
        )
    }
}

/// What a long run must have met besides every refusal: of the calls on a network ..
const OF_CALLS: [&str; 15] = [
    "11 after earlier steps",
    "a settle done",
    "the equation holds",
    "the equation does not hold",
    "forwarded plain",
    "forwarded hot",
    "forwarded cold",
    "a next hop",
    "no next hop",
    "the new row lent",
    "the standing row lent",
    "an empty part lent",
    "7 on j",
    "an equation that holds lends the standing row",
    "a malformed matrix lends the standing row",
];
/// .. of reading ..
const OF_READING: [&str; 1] = ["a file with attachments"];
/// .. and of printing.
const OF_PRINTING: [&str; 6] = [
    "a bad file printed",
    "10 printed for the routes",
    "routes printed alone",
    "10 printed for the table",
    "a plain table printed",
    "a table with t printed",
];

/// Which of these an answer is.
fn notable(call: &Call, answer: &AnswerWords) -> Vec<&'static str> {
    let done = answer[0] == 0;
    let mut names = Vec::new();
    let mut note = |holds: bool, name: &'static str| {
        if holds {
            names.push(name);
        }
    };
    match call.kind {
        Kind::Laws | Kind::Fresh => {}
        Kind::Steps => {
            note(answer[0] == 11 && answer[3] > 0, "11 after earlier steps");
            let settles = call.buffers[2].iter().any(|step| *step >= 256);
            note(done && settles, "a settle done");
        }
        Kind::Equation => {
            note(done && answer[3] == 1, "the equation holds");
            note(done && answer[3] == 0, "the equation does not hold");
        }
        Kind::Forward => {
            note(done && call.mode == 1, "forwarded plain");
            note(done && call.mode == 2, "forwarded hot");
            note(done && call.mode == 3, "forwarded cold");
        }
        Kind::NextHop => {
            note(done && answer[3] == 1, "a next hop");
            note(done && answer[3] == 0, "no next hop");
            note(answer[0] == 7 && answer[2] == 1, "7 on j");
        }
        Kind::LentRow => note(answer[3] == 0, "an empty part lent"),
        Kind::WhichRefusal => {
            note(answer[3] == 2, "the new row lent");
            note(answer[3] == 5, "the standing row lent");
            if answer[3] == 5 {
                let (refusal, holds) = newer_solves(call);
                note(holds, "an equation that holds lends the standing row");
                let malformed = (refusal.number, refusal.which) == (6, 2);
                note(malformed, "a malformed matrix lends the standing row");
            }
        }
        Kind::Read => note(done && answer[4] > 0, "a file with attachments"),
        Kind::Print => {
            let text = text_of(answer);
            let has = |start: &str| text.lines().any(|line| line.starts_with(start));
            let (routes, table, refused) = (has("R "), has("F "), has("REFUSED 10"));
            let plain = call.buffers[0].get(7) == Some(&1);
            note(text.starts_with("REFUSED"), "a bad file printed");
            note(!routes && refused, "10 printed for the routes");
            note(routes && !table && !has("REFUSED"), "routes printed alone");
            note(routes && refused, "10 printed for the table");
            note(table && plain, "a plain table printed");
            note(table && !plain, "a table with t printed");
        }
    }
    names
}

fn listed<K>(counts: &BTreeMap<K, u64>, name: impl Fn(&K) -> String) -> String {
    let texts: Vec<String> = counts
        .iter()
        .map(|(key, count)| format!("{}: {count}", name(key)))
        .collect();
    texts.join(", ")
}

impl fmt::Display for Coverage {
    fn fmt(&self, f: &mut fmt::Formatter) -> fmt::Result {
        writeln!(f, "{} calls, {} words compared", self.calls, self.words)?;
        for kind in Kind::ALL
            .into_iter()
            .filter(|kind| self.calls_of(*kind) > 0)
        {
            writeln!(f, "{}", self.kind_line(kind))?;
        }
        if !self.nodes.is_empty() {
            writeln!(f, "done by nodes: {}", listed(&self.nodes, u32::to_string))?;
            writeln!(
                f,
                "steps run {}, the most in a call {}",
                self.steps_run, self.longest_run
            )?;
        }
        writeln!(f, "{}", listed(&self.seen, |name| name.to_string()))
    }
}

/// Whether the new matrix of a handover satisfies the equation, or how that call is refused.
fn newer_solves(call: &Call) -> (Refusal, bool) {
    let language = language_of(&call.language);
    equation(&language, call.n, &call.buffers[0], &call.buffers[2])
}
