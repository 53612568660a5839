//! explain CALL NUMBER WHICH PLACE: says a refusal in words, and what to do.
//! explain page: writes docs/REFUSALS.md.

use std::error::Error;
use std::process::ExitCode;

use tronglephu::{refusals_page, Refusal};

fn main() -> ExitCode {
    if let Err(fault) = run() {
        eprintln!("{fault}");
        return ExitCode::FAILURE;
    }
    ExitCode::SUCCESS
}

fn run() -> Result<(), Box<dyn Error>> {
    let words: Vec<String> = std::env::args().skip(1).collect();
    match words.as_slice() {
        [word] if word == "page" => print!("{}", refusals_page()),
        [call, number, which, place] => explain(Refusal {
            call: call.parse()?,
            number: number.parse()?,
            which: which.parse()?,
            place: place.parse()?,
        }),
        _ => return Err("usage: explain CALL NUMBER WHICH PLACE, or explain page".into()),
    }
    Ok(())
}

fn explain(refusal: Refusal) {
    if (refusal.number, refusal.which, refusal.place) == (0, 0, 0) {
        println!("{}: done", refusal.call);
        return;
    }
    println!("{}: {refusal}", refusal.call);
    if let Some(remedy) = refusal.remedy() {
        println!("{remedy}");
    }
}
