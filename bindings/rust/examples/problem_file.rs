//! problem_file < LINES > FILE: makes a problem file from readable lines, such as examples/lines/before.txt.
//! problem_file --lines < FILE: shows a problem file as lines.

use std::error::Error;
use std::io::{self, Read, Write};
use std::process::ExitCode;

use tronglephu::Problem;

fn main() -> ExitCode {
    if let Err(fault) = run() {
        eprintln!("{fault}");
        return ExitCode::FAILURE;
    }
    ExitCode::SUCCESS
}

fn run() -> Result<(), Box<dyn Error>> {
    let mut input = Vec::new();
    io::stdin().read_to_end(&mut input)?;
    match std::env::args().nth(1).as_deref() {
        None => {
            let problem: Problem = String::from_utf8(input)?.parse()?;
            io::stdout().write_all(&problem.encode()?)?;
        }
        Some("--lines") => print!("{}", Problem::read(&input)?),
        Some(_) => return Err("usage: problem_file [--lines]".into()),
    }
    Ok(())
}
