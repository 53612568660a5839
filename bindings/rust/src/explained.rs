//! Every refusal of every call in words, with what to do: the one source of a refusal's text and of `docs/REFUSALS.md`.
//! The cases of a call stand in the order in which the call checks them.

use std::fmt::Write;

use crate::refusals::Call;

/// One refusal of a call.
#[derive(Debug)]
pub(crate) struct Case {
    number: u32,
    which: u32,
    /// The one place that it has, or `None` for any.
    at: Option<u32>,
    /// In words; `{place}` stands for the place.
    words: &'static str,
    pub remedy: &'static str,
}

impl Case {
    const fn fixed(
        (number, which, place): (u32, u32, u32),
        words: &'static str,
        remedy: &'static str,
    ) -> Case {
        Case {
            number,
            which,
            at: Some(place),
            words,
            remedy,
        }
    }

    const fn placed(
        (number, which): (u32, u32),
        words: &'static str,
        remedy: &'static str,
    ) -> Case {
        Case {
            number,
            which,
            at: None,
            words,
            remedy,
        }
    }

    /// Its words, at a place.
    pub fn says(&self, place: &str) -> String {
        self.words.replace("{place}", place)
    }

    fn is(&self, number: u32, which: u32, place: u32) -> bool {
        let here = self.at.is_none_or(|at| at == place);
        self.number == number && self.which == which && here
    }
}

/// The case of an answer; of a case with one place and a case with any, the former stands first.
pub(crate) fn case(call: Call, number: u32, which: u32, place: u32) -> Option<&'static Case> {
    let mut cases = cases(call).iter().copied();
    cases.find(|case| case.is(number, which, place))
}

fn cases(call: Call) -> &'static [&'static Case] {
    match call {
        Call::Read => &READ,
        Call::Laws => &[&COUNT, &KIND, &REPORT_ROOM],
        Call::Fresh => &[&NODES, &COUNT, &KIND, &R_LENGTH, &LAW_D, &LAW_U],
        Call::Steps => &STEPS,
        Call::Equation => &EQUATION,
        Call::Forward => &FORWARD,
        Call::NextHop => &NEXT_HOP,
        Call::Handover => &HANDOVER,
    }
}

const READ: [&Case; 14] = [
    &ARCS_ROOM,
    &MAPPING_ROOM,
    &PROBLEM_ROOM,
    &BYTES_COUNTED,
    &VERSION,
    &FILE_NODES,
    &FILE_DESTINATIONS,
    &FILE_MODE,
    &TAG,
    &PRODUCT,
    &CUT,
    &NO_SUCH,
    &NOT_ASCENDING,
    &VALUE,
];

const STEPS: [&Case; 13] = [
    &NODES,
    &COUNT,
    &KIND,
    &A_LENGTH,
    &R_LENGTH,
    &LAW_D,
    &LAW_U,
    &A_MALFORMED,
    &R_MALFORMED,
    &TOO_MANY,
    &NO_STEP,
    &SUM_FIRST,
    &SUM,
];

const EQUATION: [&Case; 9] = [
    &NODES,
    &COUNT,
    &KIND,
    &A_LENGTH,
    &R_LENGTH,
    &LAW_D,
    &LAW_U,
    &A_MALFORMED,
    &R_MALFORMED,
];

const FORWARD: [&Case; 16] = [
    &NODES,
    &DESTINATIONS,
    &MODE,
    &COUNT,
    &KIND,
    &A_LENGTH,
    &R_LENGTH,
    &M_LENGTH,
    &F_LENGTH,
    &LAW_D,
    &LAW_U,
    &LAW_C,
    &A_MALFORMED,
    &R_MALFORMED,
    &M_MALFORMED,
    &NO_SOLUTION,
];

const NEXT_HOP: [&Case; 11] = [
    &NODES,
    &COUNT,
    &KIND,
    &A_LENGTH,
    &R_LENGTH,
    &LAW_D,
    &LAW_U,
    &A_MALFORMED,
    &R_MALFORMED,
    &NO_I,
    &NO_J,
];

const HANDOVER: [&Case; 10] = [
    &NODES,
    &COUNT,
    &KIND,
    &A_LENGTH,
    &NEW_LENGTH,
    &STANDING_LENGTH,
    &LAW_D,
    &LAW_U,
    &A_MALFORMED,
    &NO_I,
];

// ---- the reader

const ARCS_ROOM: Case = Case::fixed(
    (9, 1, 0),
    "the buffer for A has fewer than 1,024 words",
    "Lend at least 1,024 words, which every file's arcs fit.",
);
const MAPPING_ROOM: Case = Case::fixed(
    (9, 3, 0),
    "the buffer for M has fewer than 2,560 words",
    "Lend at least 2,560 words, which every file's attachments fit.",
);
const PROBLEM_ROOM: Case = Case::fixed(
    (9, 6, 0),
    "the buffer for the problem has fewer than 12 words",
    "Lend at least 12 words: n, m, mode and nine of the language.",
);
const BYTES_COUNTED: Case = Case::fixed(
    (1, 0, 0),
    "the first four bytes do not count the bytes after them",
    "Give the whole file and nothing more; the count's highest byte comes first.",
);
const VERSION: Case = Case::fixed(
    (2, 0, 4),
    "the version is not 1",
    "The byte after the count is 1; this is no problem file, or one of a later version.",
);
const FILE_NODES: Case = Case::fixed((3, 0, 5), "n is not 1..16", "A network has 1 to 16 nodes.");
const FILE_DESTINATIONS: Case = Case::fixed(
    (3, 0, 6),
    "m is above 32",
    "There are 0 to 32 destinations.",
);
const FILE_MODE: Case = Case::fixed(
    (3, 0, 7),
    "the mode is above 3, or it is 0 though there are destinations, or not 0 though there are none",
    "With destinations the mode is 1 plain, 2 hot or 3 cold; without, 0.",
);
const TAG: Case = Case::placed(
    (4, 0),
    "an unknown tag, or a width limit of 0, at byte {place}",
    "Tags are 1 dist, 2 width, 3 class, 4 gain, 5 product; a width's limit is at least 1.",
);
const PRODUCT: Case = Case::placed(
    (5, 0),
    "a fourth product tag at byte {place}",
    "A language has at most four components, so at most three tags 5.",
);
const CUT: Case = Case::placed(
    (1, 0),
    "the field or the record at byte {place} is cut, or bytes are left over from there",
    "See that each list's count is the number of its records, and that each record has all its values.",
);
const NO_SUCH: Case = Case::placed(
    (7, 0),
    "no such node or destination at byte {place}",
    "Nodes are 0..n-1 and destinations 0..m-1.",
);
const NOT_ASCENDING: Case = Case::placed(
    (8, 0),
    "the record at byte {place} does not come after the one before it",
    "Sort each list by its first two bytes, and list no pair twice.",
);
const VALUE: Case = Case::placed(
    (6, 0),
    "the value at byte {place} is out of range",
    "A width is 1 up to its limit, a class 0 up to its limit.",
);

// ---- sizes and language

const NODES: Case = Case::fixed((3, 1, 0), "n is not 1..16", "A network has 1 to 16 nodes.");
const DESTINATIONS: Case = Case::fixed(
    (3, 2, 0),
    "m is above 32",
    "Forward at most 32 destinations in a call.",
);
const MODE: Case = Case::fixed(
    (3, 3, 0),
    "the mode is not 1, 2 or 3, or m is 0",
    "Give 1 plain, 2 hot or 3 cold; with no destination there is nothing to forward.",
);
const COUNT: Case = Case::fixed(
    (5, 0, 0),
    "the language does not have one to four components",
    "Give nine numbers, the first of them 1 to 4; a slice of another length counts as no component.",
);
const KIND: Case = Case::placed(
    (4, 0),
    "component {place} of the language is of an unknown kind, or a width with the limit 0",
    "Kinds are 1 dist, 2 width, 3 class, 4 gain; a width's limit is at least 1. Components count from 0.",
);

// ---- lengths

const REPORT_ROOM: Case = Case::fixed(
    (9, 6, 0),
    "the buffer for the report has fewer than 36 words",
    "Lend at least 36 words, twelve for each law.",
);
const A_LENGTH: Case = Case::fixed(
    (9, 1, 0),
    "A does not have n x n x 4 words",
    "Lend just n x n weights of four words, with the n that the call is given.",
);
const R_LENGTH: Case = Case::fixed(
    (9, 2, 0),
    "R does not have n x n x 4 words",
    "Lend just n x n weights of four words, with the n that the call is given.",
);
const M_LENGTH: Case = Case::fixed(
    (9, 3, 0),
    "M does not have n x m x 5 words",
    "Lend just n x m entries of five words.",
);
const F_LENGTH: Case = Case::fixed(
    (9, 4, 0),
    "F does not have n x m x 5 words",
    "Lend just n x m entries of five words; what they hold is not looked at.",
);
const NEW_LENGTH: Case = Case::fixed(
    (9, 2, 0),
    "the new matrix does not have n x n x 4 words",
    "Lend just n x n weights of four words, with the n that the call is given.",
);
const STANDING_LENGTH: Case = Case::fixed(
    (9, 5, 0),
    "the standing matrix does not have n x n x 4 words",
    "Lend just n x n weights of four words, with the n that the call is given.",
);

// ---- laws

const LAW_D: Case = Case::fixed(
    (10, 1, 0),
    "law D does not hold",
    "Only width 1 and class 0 may follow a width or class of more than one value: put it last. The law report gives weights that break D.",
);
const LAW_U: Case = Case::fixed(
    (10, 2, 0),
    "law U does not hold",
    "Leave gain out: with it longer paths get better without end.",
);
const LAW_C: Case = Case::fixed(
    (10, 3, 0),
    "law C does not hold, and hot forwarding needs it",
    "Forward plain or cold, or use a language of dist, width 1 and class 0 alone.",
);

// ---- entries

const A_MALFORMED: Case = Case::placed(
    (6, 1),
    "A is malformed at word {place}",
    "The weight there is four words: values in range with zeros after them (sums at most 65,535), or four times 4,294,967,295.",
);
const R_MALFORMED: Case = Case::placed(
    (6, 2),
    "R is malformed at word {place}",
    "The weight there is four words: values in range with zeros after them (sums at most 983,025), or four times 4,294,967,295.",
);
const M_MALFORMED: Case = Case::placed(
    (6, 3),
    "M is malformed at word {place}",
    "The entry there is a route of four words (sums at most 65,535) and t (at most 65,535; 0 in plain mode), or five times 4,294,967,295.",
);

// ---- steps, nodes, the equation

const TOO_MANY: Case = Case::fixed(
    (13, 0, 0),
    "the list has more than 4,096 steps",
    "Split it over several calls: each goes on from what the last one left.",
);
const NO_STEP: Case = Case::placed(
    (7, 0),
    "step {place} of the list is no step",
    "0..n-1 is a row step, 256..255+n settles a column. No step of the list was done.",
);
const SUM_FIRST: Case = Case::fixed(
    (11, 0, 0),
    "step 0 of the list would store a sum above 983,025",
    "No step was done. The matrix was not reached from fresh with this language and A: settle its columns first.",
);
const SUM: Case = Case::placed(
    (11, 0),
    "step {place} of the list would store a sum above 983,025; the steps before it are done",
    "The matrix was not reached from fresh with this language and A: settle its columns first.",
);
const NO_I: Case = Case::fixed((7, 0, 0), "i is no node", "Nodes are 0..n-1.");
const NO_J: Case = Case::fixed((7, 0, 1), "j is no node", "Nodes are 0..n-1.");
const NO_SOLUTION: Case = Case::fixed(
    (12, 2, 0),
    "R does not satisfy the routing equation",
    "Settle every column of R (steps 256..255+n), which makes it the best, and forward again.",
);

// ---- the page

const HEAD: &str = "\
# Refusals

Every call answers with number, which and place; 0 0 0 is done. A table for each call follows, its refusals in the order in which
the call checks them: an answer names the first that applies. A refused call writes no buffer, but for 11, which leaves the steps
before it done. The reader goes by the file: after its 9 it names the first fault in file order, and in a record looks for 1, 7, 8
and 6. The name of a call is that of its C function without `tronglephu_`.

Buffers are called A (arcs), R (routes), M (mapping) and F (forwarding). Words of a buffer, bytes of a file, components and steps
count from 0.

This page is made from `bindings/rust/src/explained.rs`, as the texts of the Rust crate's refusals are. There,
`cargo run --example explain CALL NUMBER WHICH PLACE` says one of them, and `cargo run --example explain page` makes this page.
";

/// `docs/REFUSALS.md`.
pub fn page() -> String {
    let mut page = HEAD.to_string();
    for call in Call::ALL {
        // Writing to a string does not fail.
        let _ = write!(page, "\n## {call}\n\n{TABLE_HEAD}");
        for case in cases(call) {
            let _ = writeln!(page, "{}", line(case));
        }
    }
    page
}

const TABLE_HEAD: &str =
    "| number | which | place | in words | what to do |\n|---|---|---|---|---|\n";

/// A case's line of its table.
pub(crate) fn line(case: &Case) -> String {
    let place = case.at.map_or("p".to_string(), |at| at.to_string());
    let (number, which, remedy) = (case.number, case.which, case.remedy);
    let words = case.says("p");
    format!("| {number} | {which} | {place} | {words} | {remedy} |")
}
