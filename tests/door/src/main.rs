//! door [--calls N] [--seed S]: makes generated calls through the exported functions, every buffer between canaries, and
//! compares every answer and every word of every buffer with the independent implementation. Call k has the seed S + k.

use std::process::ExitCode;

use compare::calls::Kind;
use compare::coverage::Coverage;

use door::page::Explained;
use door::requests::Request;

/// From this many calls on, each answer that a call can give must have been met.
const ENOUGH: u64 = 50_000;

struct Options {
    calls: u64,
    seed: u64,
}

/// What the calls have met.
#[derive(Default)]
struct Met {
    coverage: Coverage,
    explained: Explained,
    odd_languages: u64,
    short_reports: u64,
    short_problems: u64,
}

fn main() -> ExitCode {
    let options = match options(std::env::args().skip(1)) {
        Ok(options) => options,
        Err(fault) => {
            eprintln!("{fault}\nusage: door [--calls N] [--seed S]");
            return ExitCode::from(2);
        }
    };
    println!("seed {}, {} calls", options.seed, options.calls);
    let mut met = Met::default();
    for index in 0..options.calls {
        let seed = options.seed.wrapping_add(index);
        if let Err(fault) = compare_call(seed, &mut met) {
            println!("MISMATCH at seed {seed} (again: --seed {seed} --calls 1)\n{fault}");
            return ExitCode::FAILURE;
        }
    }
    judged(&options, &met)
}

fn options(mut words: impl Iterator<Item = String>) -> Result<Options, String> {
    let mut options = Options {
        calls: 200_000,
        seed: 1_000_000,
    };
    while let Some(word) = words.next() {
        let place = match word.as_str() {
            "--calls" => &mut options.calls,
            "--seed" => &mut options.seed,
            _ => return Err(format!("not known: '{word}'")),
        };
        let number = words.next().unwrap_or_default();
        *place = number
            .parse()
            .map_err(|_| format!("no number: '{number}'"))?;
    }
    Ok(options)
}

/// Makes the call of a seed and compares all that it answers and leaves.
fn compare_call(seed: u64, met: &mut Met) -> Result<(), String> {
    let request = Request::new(seed);
    let (reply, answer) = door::compare(&request)?;
    if !met.explained.add(request.call.kind, reply) {
        return Err(format!("docs/REFUSALS.md does not have {reply:?}"));
    }
    met.odd_languages += u64::from(request.has_odd_language());
    let too_short = (reply.number, reply.which) == (9, 6);
    match request.call.kind {
        Kind::Laws if too_short => met.short_reports += 1,
        Kind::Read if too_short => met.short_problems += 1,
        _ => met.coverage.add(&request.call, &answer),
    }
    Ok(())
}

/// Prints what was met; a long run that misses an answer fails.
fn judged(options: &Options, met: &Met) -> ExitCode {
    print!("{}", met.coverage);
    let others = [
        ("languages of another length", met.odd_languages),
        ("reports too short", met.short_reports),
        ("problems too short", met.short_problems),
    ];
    let texts = others.map(|(name, count)| format!("{name}: {count}"));
    println!("{}", texts.join(", "));
    let (lines, unmet) = met.explained.missing();
    println!(
        "of {lines} lines of docs/REFUSALS.md met: {}",
        lines - unmet.len()
    );
    let mut missing = [met.coverage.missing_of_exports(), unmet].concat();
    let unseen = others.iter().filter(|(_, count)| *count == 0);
    missing.extend(unseen.map(|(name, _)| name.to_string()));
    if options.calls >= ENOUGH && !missing.is_empty() {
        println!("never met: {}", missing.join(", "));
        return ExitCode::FAILURE;
    }
    println!("no difference, every canary intact");
    ExitCode::SUCCESS
}
