//! changeover [BEFORE AFTER]: a whole changeover between two problem files, or between the two that stand beside this
//! program as lines. Reads both, settles the first, sweeps the old matrix over the new arcs, sees that this is not
//! enough, settles, and hands over.

use std::error::Error;
use std::fs;
use std::process::ExitCode;

use tronglephu::{Language, Law, Lender, LentRow, Matrix, Network, Node, Problem, Step};

type Outcome<T> = Result<T, Box<dyn Error>>;

fn main() -> ExitCode {
    if let Err(fault) = run() {
        eprintln!("{fault}");
        return ExitCode::FAILURE;
    }
    ExitCode::SUCCESS
}

fn run() -> Outcome<()> {
    let words: Vec<String> = std::env::args().skip(1).collect();
    let (before, after) = match words.as_slice() {
        [] => (
            made(include_str!("lines/before.txt"))?,
            made(include_str!("lines/after.txt"))?,
        ),
        [before, after] => (fs::read(before)?, fs::read(after)?),
        _ => return Err("usage: changeover [BEFORE AFTER]".into()),
    };
    changeover(&Problem::read(&before)?, &Problem::read(&after)?)
}

/// The bytes of a problem file from lines.
fn made(lines: &str) -> Outcome<Vec<u8>> {
    Ok(lines.parse::<Problem>()?.encode()?)
}

fn changeover(before: &Problem, after: &Problem) -> Outcome<()> {
    let network = after.network();
    show_laws(network.language())?;
    let standing = before.network().settled()?;

    // Sweeping what stands over the new arcs may keep routes that are no longer there.
    let mut newer = standing.clone();
    for _ in 1..network.n() {
        network.steps(&mut newer, &Step::sweep(network.n()))?;
    }
    println!("swept; the equation holds: {}", network.equation(&newer)?);
    show_handover(network, &standing, &newer)?;

    // Settling every column repairs any matrix.
    network.steps(&mut newer, &Step::settle_all(network.n()))?;
    println!("settled; the equation holds: {}", network.equation(&newer)?);
    show_handover(network, &standing, &newer)?;
    show_table(after, &newer)
}

fn show_laws(language: &Language) -> Outcome<()> {
    let report = language.laws()?;
    for (name, law) in [("D", report.d), ("U", report.u), ("C", report.c)] {
        match law {
            Law::Held => println!("law {name} holds"),
            Law::Broken { s, x, y } => println!("law {name} is broken by {s:?}, {x:?}, {y:?}"),
        }
    }
    Ok(())
}

fn show_handover(network: &Network, standing: &Matrix, newer: &Matrix) -> Outcome<()> {
    let language = network.language();
    if let Some(fault) = network.first_not_best(newer)? {
        let (held, best) = (language.show(fault.held), language.show(fault.best));
        println!(
            "not the best from {} to {}: {held}, where {best} is",
            fault.from, fault.to
        );
    }
    for node in (0..network.n()).map(Node) {
        let row = network.lent_row(standing, newer, node)?;
        let lender = match row.lender() {
            Lender::Newer => "new",
            Lender::Standing => "standing",
        };
        println!(
            "row {node} of the {lender} matrix: {}",
            weights(language, row)
        );
    }
    Ok(())
}

fn weights(language: &Language, row: LentRow) -> String {
    let nodes = (0..=u8::MAX).map(Node);
    let weights = nodes.map_while(|node| row.get(node));
    let texts: Vec<String> = weights.map(|weight| language.show(weight)).collect();
    texts.join(", ")
}

fn show_table(problem: &Problem, routes: &Matrix) -> Outcome<()> {
    let Some(mode) = problem.mode() else {
        return Ok(());
    };
    let network = problem.network();
    let table = network.forward(mode, routes, problem.mapping())?;
    for (node, destination, entry) in table.entries() {
        let weight = network.language().show(entry.weight());
        println!("node {node} forwards to destination {destination} at {weight}");
    }
    Ok(())
}
