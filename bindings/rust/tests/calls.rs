//! Every call, done and refused.

use tronglephu::{
    Call, Component, Destination, Entry, Language, Law, Lender, Matrix, Mode, Network, Node,
    Problem, Refusal, Step, Table, Weight,
};

/// The printed case: three nodes in a row, and a long way round.
fn printed_lines() -> String {
    let head = "nodes 3\ndestinations 1\nmode cold\nlanguage dist\n";
    let arcs = "arc 0 1 2\narc 0 2 9\narc 1 2 3\n";
    format!("{head}{arcs}attach 1 0 0 t 7\nattach 2 0 0 t 4\n")
}

fn printed() -> Problem {
    printed_lines().parse().unwrap()
}

fn without_arcs(components: &[Component], n: u8) -> Network {
    Network::new(Language::of(components), Matrix::without_routes(n))
}

/// Number, which and place of a refusal, which the call must have given.
fn told<T: std::fmt::Debug>(call: Call, answer: Result<T, Refusal>) -> (u32, u32, u32) {
    let refusal = answer.unwrap_err();
    assert_eq!(refusal.call, call);
    assert!(refusal.remedy().is_some());
    (refusal.number, refusal.which, refusal.place)
}

const DIST: [Component; 1] = [Component::Dist];
const GAIN: [Component; 1] = [Component::Gain];
const WIDE_FIRST: [Component; 2] = [Component::Width(9), Component::Dist];

#[test]
fn read() {
    let file = printed().encode().unwrap();
    assert_eq!(Problem::read(&file), Ok(printed()));
    let changed = |place: usize, byte: u8| {
        let mut file = file.clone();
        file[place] = byte;
        told(Call::Read, Problem::read(&file))
    };
    assert_eq!(changed(3, 0), (1, 0, 0));
    assert_eq!(changed(4, 2), (2, 0, 4));
    assert_eq!(changed(5, 17), (3, 0, 5));
    assert_eq!(changed(6, 33), (3, 0, 6));
    assert_eq!(changed(7, 0), (3, 0, 7));
    assert_eq!(changed(8, 6), (4, 0, 8));
    assert_eq!(changed(24, 1), (1, 0, 31));
    assert_eq!(changed(24, 3), (1, 0, 37));
    assert_eq!(changed(11, 3), (7, 0, 11));
    assert_eq!(changed(16, 1), (8, 0, 15));
    assert_eq!(told(Call::Read, Problem::read(&[])), (1, 0, 0));
    let products = [0, 0, 0, 8, 1, 1, 0, 0, 5, 5, 5, 5];
    assert_eq!(told(Call::Read, Problem::read(&products)), (5, 0, 11));
    let above = [0, 0, 0, 13, 1, 1, 0, 0, 3, 0, 9, 0, 1, 0, 0, 0, 10];
    assert_eq!(told(Call::Read, Problem::read(&above)), (6, 0, 15));
}

#[test]
fn laws() {
    let report = Language::of(&DIST).laws().unwrap();
    assert!(report.forwards_hot());
    let report = Language::of(&WIDE_FIRST).laws().unwrap();
    assert!(!report.routes() && report.u.is_held() && !report.c.is_held());
    let report = Language::of(&GAIN).laws().unwrap();
    let witness = Law::Broken {
        s: [0; 4],
        x: [1, 0, 0, 0],
        y: [0; 4],
    };
    assert_eq!(
        (report.d, report.u, report.c),
        (Law::Held, witness, Law::Held)
    );

    let refused = |language: Language| told(Call::Laws, language.laws());
    assert_eq!(refused(Language::of(&[])), (5, 0, 0));
    assert_eq!(refused(Language::of(&[Component::Dist; 5])), (5, 0, 0));
    let zero = [Component::Dist, Component::Width(0)];
    assert_eq!(refused(Language::of(&zero)), (4, 0, 1));
    let unknown = Language::from_numbers([3, 1, 0, 1, 0, 9, 9, 0, 0]);
    assert_eq!(refused(unknown), (4, 0, 2));
    assert_eq!(unknown.components(), None);
    let unused = Language::from_numbers([1, 1, 7, 9, 9, 9, 9, 9, 9]);
    assert!(unused.laws().is_ok());
}

#[test]
fn fresh() {
    let network = without_arcs(&[Component::Dist, Component::Width(9)], 2);
    let fresh = network.fresh().unwrap();
    assert_eq!(fresh.get(Node(1), Node(1)), Some(Weight::from([0, 9])));
    assert_eq!(fresh.get(Node(0), Node(1)), Some(Weight::NoRoute));

    let refused =
        |components: &[Component], n: u8| told(Call::Fresh, without_arcs(components, n).fresh());
    assert_eq!(refused(&DIST, 0), (3, 1, 0));
    assert_eq!(refused(&DIST, 17), (3, 1, 0));
    assert_eq!(refused(&WIDE_FIRST, 2), (10, 1, 0));
    assert_eq!(refused(&GAIN, 2), (10, 2, 0));
}

#[test]
fn steps() {
    let problem = printed();
    let network = problem.network();
    let mut swept = network.fresh().unwrap();
    assert_eq!(network.steps(&mut swept, &[]), Ok(0));
    for _ in 0..2 {
        assert_eq!(network.steps(&mut swept, &Step::sweep(3)), Ok(3));
    }
    assert_eq!(Ok(&swept), network.settled().as_ref());
    assert_eq!(swept.get(Node(0), Node(2)), Some(Weight::from(5)));

    let refused = |r: &mut Matrix, steps: &[Step]| {
        let before = r.clone();
        let told = told(Call::Steps, network.steps(r, steps));
        assert_eq!(*r, before);
        told
    };
    let bad = [Step::Row(Node(0)), Step::Settle(Node(3))];
    assert_eq!(refused(&mut swept, &bad), (7, 0, 1));
    assert_eq!(refused(&mut swept, &[Step::Row(Node(255))]), (7, 0, 0));
    let many = vec![Step::Row(Node(0)); 4_097];
    assert_eq!(refused(&mut swept, &many), (13, 0, 0));
    assert_eq!(network.steps(&mut swept, &many[1..]), Ok(4_096));
    assert_eq!(refused(&mut Matrix::without_routes(2), &[]), (9, 2, 0));
    swept.set(Node(1), Node(0), Weight::from(983_026));
    assert_eq!(refused(&mut swept, &[]), (6, 2, 12));
}

/// The first step is done and stands; the second would store a sum that is too large.
#[test]
fn a_sum_above_the_largest() {
    let mut arcs = Matrix::without_routes(3);
    arcs.set(Node(0), Node(1), Weight::from(1));
    let network = Network::new(Language::of(&DIST), arcs);
    let mut r = Matrix::without_routes(3);
    r.set(Node(1), Node(2), Weight::from(983_025));
    let steps = [Step::Row(Node(2)), Step::Row(Node(0)), Step::Row(Node(1))];
    let refusal = network.steps(&mut r, &steps).unwrap_err();
    assert_eq!((refusal.number, refusal.which, refusal.place), (11, 0, 1));
    assert_eq!(r.get(Node(2), Node(2)), Some(Weight::from(0)));
    assert_eq!(r.get(Node(0), Node(2)), Some(Weight::NoRoute));
    assert_eq!(r.get(Node(1), Node(2)), Some(Weight::from(983_025)));
}

#[test]
fn equation() {
    let problem = printed();
    let network = problem.network();
    assert_eq!(network.equation(&network.settled().unwrap()), Ok(true));
    assert_eq!(network.equation(&network.fresh().unwrap()), Ok(false));
    let refused = |r: &Matrix| told(Call::Equation, network.equation(r));
    assert_eq!(refused(&Matrix::without_routes(4)), (9, 2, 0));
    let zeros = Matrix::from_words(3, vec![0; 36]).unwrap();
    assert_eq!(network.equation(&zeros), Ok(false));
    let torn = Matrix::from_words(3, vec![1; 36]).unwrap();
    assert_eq!(refused(&torn), (6, 2, 0));
}

#[test]
fn forward() {
    let problem = printed();
    let network = problem.network();
    let routes = network.settled().unwrap();
    let at_0 = |mode: Mode| {
        let table = network.forward(mode, &routes, problem.mapping()).unwrap();
        table.get(Node(0), Destination(0)).unwrap()
    };
    assert_eq!(at_0(Mode::Cold), Entry::of(5, 4));
    assert_eq!(at_0(Mode::Hot), Entry::of(2, 7));

    let refused = |mode: Mode, r: &Matrix, mapping: &Table| {
        told(Call::Forward, network.forward(mode, r, mapping))
    };
    let mapping = problem.mapping();
    assert_eq!(refused(Mode::Plain, &routes, mapping), (6, 3, 5));
    assert_eq!(refused(Mode::Hot, &routes, &Table::empty(3, 0)), (3, 3, 0));
    assert_eq!(refused(Mode::Hot, &routes, &Table::empty(3, 33)), (3, 2, 0));
    assert_eq!(refused(Mode::Hot, &routes, &Table::empty(2, 1)), (9, 3, 0));
    let fresh = network.fresh().unwrap();
    assert_eq!(refused(Mode::Cold, &fresh, mapping), (12, 2, 0));
    let wide = without_arcs(&[Component::Width(9)], 3);
    let settled = wide.settled().unwrap();
    let hot = wide.forward(Mode::Hot, &settled, &Table::empty(3, 1));
    assert_eq!(told(Call::Forward, hot), (10, 3, 0));
}

#[test]
fn next_hop() {
    let problem = printed();
    let network = problem.network();
    let routes = network.settled().unwrap();
    let hop = |i: u8, j: u8| network.next_hop(&routes, Node(i), Node(j));
    assert_eq!(hop(0, 2), Ok(Some(Node(1))));
    assert_eq!(hop(1, 2), Ok(Some(Node(2))));
    assert_eq!(hop(1, 1), Ok(None));
    assert_eq!(hop(2, 0), Ok(None));
    assert_eq!(told(Call::NextHop, hop(3, 3)), (7, 0, 0));
    assert_eq!(told(Call::NextHop, hop(2, 3)), (7, 0, 1));
}

#[test]
fn handover() {
    let problem = printed();
    let network = problem.network();
    let standing = Matrix::from_words(3, (0..36).collect()).unwrap();
    let best = network.settled().unwrap();
    let row = network.lent_row(&standing, &best, Node(1)).unwrap();
    assert_eq!(row.lender(), Lender::Newer);
    assert!(std::ptr::eq(row.words(), &best.words()[12..24]));
    assert_eq!(row.get(Node(2)), Some(Weight::from(3)));
    assert_eq!(row.get(Node(3)), None);

    let fresh = network.fresh().unwrap();
    let row = network.lent_row(&standing, &fresh, Node(2)).unwrap();
    assert_eq!(row.lender(), Lender::Standing);
    assert!(std::ptr::eq(row.words(), &standing.words()[24..36]));

    let refused = |standing: &Matrix, newer: &Matrix, i: u8| {
        told(Call::Handover, network.handover(standing, newer, Node(i)))
    };
    let other = Matrix::without_routes(2);
    assert_eq!(refused(&other, &best, 0), (9, 5, 0));
    assert_eq!(refused(&other, &other, 0), (9, 2, 0));
    assert_eq!(refused(&standing, &best, 3), (7, 0, 0));
}

#[test]
fn first_not_best() {
    let problem = printed();
    let network = problem.network();
    let mut matrix = network.settled().unwrap();
    assert_eq!(network.first_not_best(&matrix), Ok(None));
    matrix.set(Node(2), Node(0), Weight::Route([u32::MAX, 0, 0, 0]));
    matrix.set(Node(1), Node(2), Weight::from(2));
    let fault = network.first_not_best(&matrix).unwrap().unwrap();
    assert_eq!((fault.from, fault.to), (Node(1), Node(2)));
    assert_eq!((fault.held, fault.best), (Weight::from(2), Weight::from(3)));
    matrix.set(Node(1), Node(2), Weight::from(3));
    let fault = network.first_not_best(&matrix).unwrap().unwrap();
    assert_eq!((fault.from, fault.to), (Node(2), Node(0)));
    assert_eq!(fault.best, Weight::NoRoute);
    let other = network.first_not_best(&Matrix::without_routes(2));
    assert_eq!(told(Call::Handover, other), (9, 2, 0));
}
