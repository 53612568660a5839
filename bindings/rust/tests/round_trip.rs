//! Generated problems, written as files and as lines, read back as they were.

mod common;

use common::{problem, Dice};
use tronglephu::{
    Component, Destination, Entry, Language, Matrix, Mode, Network, Node, Problem, Table,
    Unwritable, Weight,
};

const PROBLEMS: u64 = 3_000;

#[test]
fn what_is_encoded_reads_back() {
    for seed in 0..PROBLEMS {
        let made = problem(&mut Dice::new(seed));
        let file = made.encode().unwrap();
        assert_eq!(Problem::read(&file).as_ref(), Ok(&made), "seed {seed}");
    }
}

#[test]
fn what_is_shown_parses_back() {
    for seed in 0..PROBLEMS {
        let made = problem(&mut Dice::new(seed));
        let parsed: Problem = made.to_string().parse().unwrap();
        assert_eq!(parsed, made, "seed {seed}");
        assert_eq!(parsed.encode(), made.encode());
    }
}

/// A byte changed or cut off: refused, or read as the problem that encodes to it under some nesting of its products.
#[test]
fn what_is_read_encodes() {
    for seed in 0..PROBLEMS {
        let mut dice = Dice::new(seed);
        let mut file = problem(&mut dice).encode().unwrap();
        let place = dice.between(4, file.len() as u32 - 1) as usize;
        file[place] = dice.between(0, 255) as u8;
        if let Ok(read) = Problem::read(&file) {
            let again = Problem::read(&read.encode().unwrap());
            assert_eq!(again, Ok(read), "seed {seed}");
        }
        file.pop();
        assert_eq!(Problem::read(&file).unwrap_err().number, 1);
    }
}

/// The stored file of the C example.
#[test]
fn a_stored_file_is_its_own_encoding() {
    let path = concat!(
        env!("CARGO_MANIFEST_DIR"),
        "/../../examples/printed.problem"
    );
    let file = std::fs::read(path).unwrap();
    assert_eq!(Problem::read(&file).unwrap().encode(), Ok(file));
}

fn small(components: &[Component], arc: Weight, mode: Option<Mode>, m: u8) -> Problem {
    let mut arcs = Matrix::without_routes(2);
    arcs.set(Node(0), Node(1), arc);
    let network = Network::new(Language::of(components), arcs);
    Problem::new(network, mode, Table::empty(2, m))
}

fn with_attachment(mode: Mode, entry: Entry) -> Problem {
    let problem = small(&[Component::Dist], Weight::NoRoute, Some(mode), 1);
    let mut mapping = Table::empty(2, 1);
    mapping.set(Node(1), Destination(0), entry);
    Problem::new(problem.network().clone(), Some(mode), mapping)
}

#[test]
fn no_file_holds_these() {
    let dist = [Component::Dist];
    let arc = Err(Unwritable::Arc(Node(0), Node(1)));
    assert_eq!(small(&dist, Weight::from(65_536), None, 0).encode(), arc);
    assert_eq!(small(&dist, Weight::from([1, 1]), None, 0).encode(), arc);
    let width = [Component::Width(9)];
    assert_eq!(small(&width, Weight::from(10), None, 0).encode(), arc);
    assert_eq!(small(&width, Weight::from(0), None, 0).encode(), arc);

    let attachment = Err(Unwritable::Attachment(Node(1), Destination(0)));
    let late = Entry::of(1, 65_536);
    assert_eq!(with_attachment(Mode::Hot, late).encode(), attachment);
    let plain = Entry::of(1, 1);
    assert_eq!(with_attachment(Mode::Plain, plain).encode(), attachment);

    let none = small(&[], Weight::NoRoute, None, 0).encode();
    assert_eq!(none, Err(Unwritable::Language));
    let five = small(&[Component::Dist; 5], Weight::NoRoute, None, 0).encode();
    assert_eq!(five, Err(Unwritable::Language));
    let network = small(&dist, Weight::NoRoute, None, 0).network().clone();
    let other = Problem::new(network, None, Table::empty(3, 0)).encode();
    assert_eq!(other, Err(Unwritable::Nodes));

    let refused = |problem: Problem| match problem.encode() {
        Err(Unwritable::Refused(refusal)) => (refusal.number, refusal.which, refusal.place),
        _ => panic!("not refused"),
    };
    assert_eq!(refused(small(&dist, Weight::NoRoute, None, 1)), (3, 0, 7));
    let mode = Some(Mode::Cold);
    assert_eq!(refused(small(&dist, Weight::NoRoute, mode, 0)), (3, 0, 7));
    assert_eq!(refused(small(&dist, Weight::NoRoute, mode, 33)), (3, 0, 6));
    let wide = [Component::Width(0)];
    assert_eq!(refused(small(&wide, Weight::NoRoute, None, 0)), (4, 0, 9));
}

/// Lines, and what is said of them.
const FAULTS: [(&str, &str); 23] = [
    ("nodes 0", "line 1: nodes are 1..16"),
    ("nodes 17", "line 1: nodes are 1..16"),
    ("nodes 2\nnodes 2", "line 2: this was said before"),
    ("destinations 33", "line 1: destinations are 0..32"),
    ("mode warm", "line 1: modes are plain, hot and cold"),
    (
        "language dist gain",
        "line 1: components are dist, width W, class C and gain",
    ),
    ("language width 0", "line 1: a width's limit is at least 1"),
    ("language class 65536", "line 1: limits are 0..65,535"),
    (
        "language dist, dist, dist, dist, dist",
        "line 1: a language has one to four components",
    ),
    (
        "language dist\narc 0 0 1",
        "line 2: the number of nodes is missing",
    ),
    ("nodes 2\narc 0 0 1", "line 2: the language is missing"),
    ("", "line 1: the language is missing"),
    ("language dist", "line 2: the number of nodes is missing"),
    (
        "nodes 2\nmode hot\nlanguage dist",
        "line 4: there is a mode exactly where there are destinations",
    ),
    (
        "nodes 2\nlanguage dist\narc 0 1 1 1",
        "line 3: there is one value for each component",
    ),
    (
        "nodes 2\nlanguage dist\narc 0 1 65536",
        "line 3: a value is out of range",
    ),
    (
        "nodes 2\nlanguage dist\narc 0 1 x",
        "line 3: a number is wanted",
    ),
    (
        "nodes 2\nlanguage dist\narc 0 1 1\narc 0 1 1",
        "line 4: this arc was given before",
    ),
    (
        "nodes 2\nlanguage dist\narc 0 1 1\nnodes 3",
        "line 4: sizes, mode and language come before arcs",
    ),
    (
        "nodes 2\nlanguage dist\nattach 0 0 1",
        "line 3: no such node or destination",
    ),
    (
        "nodes 2\ndestinations 1\nmode hot\nlanguage dist\nattach 0 0 1",
        "line 5: an attachment ends in t and its outside number",
    ),
    (
        "nodes 2\ndestinations 1\nmode hot\nlanguage dist\nattach 0 0 1 t 65536",
        "line 5: outside numbers are 0..65,535",
    ),
    (
        "link 0 1",
        "line 1: not nodes, destinations, mode, language, arc or attach",
    ),
];

#[test]
fn faulty_lines_are_named() {
    for (lines, wanted) in FAULTS {
        let fault = lines.parse::<Problem>().unwrap_err();
        assert_eq!(fault.to_string(), wanted, "{lines}");
    }
}
