//! compare [--calls N | --files N] [--seed S] COMMAND [WORDS..]: sends generated calls to the program that the command
//! starts, and compares every answer and every word of every buffer with the independent implementation. Call k has the
//! seed S + k. With --files they are problem files, each of which is read and then printed.
#![forbid(unsafe_code)]

mod program;

use std::io;
use std::process::{ChildStdin, ExitCode};
use std::sync::mpsc::{sync_channel, Receiver, SyncSender};
use std::thread;

use compare::calls::{spaced, AnswerWords, Call};
use compare::coverage::Coverage;
use compare::generate;
use program::Program;

/// From this many calls, or files, on, each answer that can be given must have been met.
const ENOUGH_CALLS: u64 = 50_000;
const ENOUGH_FILES: u64 = 2_000;
/// Calls that are sent in one write.
const BATCH: u64 = 32;

struct Options {
    /// How many calls, or files.
    count: u64,
    files: bool,
    seed: u64,
    command: Vec<String>,
}

/// A call with its seed.
type Seeded = (u64, Call);

fn main() -> ExitCode {
    let options = match options(std::env::args().skip(1).collect()) {
        Ok(options) => options,
        Err(fault) => {
            eprintln!(
                "{fault}\nusage: compare [--calls N | --files N] [--seed S] COMMAND [WORDS..]"
            );
            return ExitCode::from(2);
        }
    };
    let what = if options.files { "files" } else { "calls" };
    println!("seed {}, {} {what}", options.seed, options.count);
    match compare(&options) {
        Ok(coverage) => judged(&options, &coverage),
        Err(fault) => {
            println!("{fault}");
            ExitCode::FAILURE
        }
    }
}

fn options(words: Vec<String>) -> Result<Options, String> {
    let mut options = Options {
        count: 120_000,
        files: false,
        seed: 1,
        command: Vec::new(),
    };
    let mut words = words.into_iter();
    while let Some(word) = words.next() {
        match word.as_str() {
            "--calls" => options.count = number(words.next())?,
            "--files" => (options.count, options.files) = (number(words.next())?, true),
            "--seed" => options.seed = number(words.next())?,
            _ => {
                options.command = std::iter::once(word).chain(words).collect();
                return Ok(options);
            }
        }
    }
    Err("no command".to_string())
}

fn number(word: Option<String>) -> Result<u64, String> {
    let word = word.unwrap_or_default();
    word.parse().map_err(|_| format!("no number: '{word}'"))
}

fn enough(options: &Options) -> u64 {
    if options.files {
        ENOUGH_FILES
    } else {
        ENOUGH_CALLS
    }
}

/// Prints what was met; a long run that misses an answer fails.
fn judged(options: &Options, coverage: &Coverage) -> ExitCode {
    print!("{coverage}");
    let missing = if options.files {
        coverage.missing_of_files()
    } else {
        coverage.missing()
    };
    if options.count >= enough(options) && !missing.is_empty() {
        println!("never met: {}", missing.join(", "));
        return ExitCode::FAILURE;
    }
    println!("no difference");
    ExitCode::SUCCESS
}

fn compare(options: &Options) -> Result<Coverage, String> {
    let (mut program, input) = Program::start(&options.command)
        .map_err(|fault| format!("cannot start {}: {fault}", options.command.join(" ")))?;
    let (sender, receiver) = sync_channel(4);
    let (first, count, files) = (options.seed, options.count, options.files);
    let writer = thread::spawn(move || write_calls(input, sender, (first, count), files));
    let compared = read_answers(&mut program, &receiver);
    drop(receiver);
    let Ok(coverage) = compared else {
        program.stop();
        return compared;
    };
    match writer.join() {
        Ok(Ok(())) => {}
        _ => return Err("the program stopped reading".to_string()),
    }
    match program.ends_quietly() {
        Ok(true) => Ok(coverage),
        _ => Err("the program did not end quietly after the last call".to_string()),
    }
}

/// Writes the calls batch by batch, each announced before it is written; the program's input ends with this function.
fn write_calls(
    mut input: ChildStdin,
    sender: SyncSender<Vec<Seeded>>,
    (first, count): (u64, u64),
    files: bool,
) -> io::Result<()> {
    let mut made = 0;
    while made < count {
        let until = count.min(made + BATCH);
        let seeds = (made..until).map(|index| first.wrapping_add(index));
        let batch: Vec<Seeded> = seeds.flat_map(|seed| calls_of(seed, files)).collect();
        let frames: Vec<Vec<u8>> = batch
            .iter()
            .map(|(_, call)| program::frame(&call.request()))
            .collect();
        if sender.send(batch).is_err() {
            return Ok(());
        }
        program::send(&mut input, &frames)?;
        made = until;
    }
    Ok(())
}

/// The call of a seed, or the two calls of its file.
fn calls_of(seed: u64, files: bool) -> Vec<Seeded> {
    let calls = if files {
        generate::file_calls(seed).to_vec()
    } else {
        vec![generate::call(seed)]
    };
    calls.into_iter().map(|call| (seed, call)).collect()
}

/// Reads the answer of each call and compares it.
fn read_answers(
    program: &mut Program,
    receiver: &Receiver<Vec<Seeded>>,
) -> Result<Coverage, String> {
    let mut coverage = Coverage::default();
    for (seed, call) in receiver.iter().flatten() {
        let expected = call.expected();
        match program.response() {
            Ok(answer) if answer == expected => coverage.add(&call, &expected),
            Ok(answer) => return Err(mismatch(seed, &call, &expected, &answer)),
            Err(fault) => return Err(unanswered(seed, &call, &expected, &fault)),
        }
    }
    Ok(coverage)
}

fn told(seed: u64, call: &Call, expected: &AnswerWords) -> String {
    format!(
        "seed {seed} (again: --seed {seed}, with 1 for the count)\n{call}independent: {}\n",
        spaced(expected)
    )
}

fn mismatch(seed: u64, call: &Call, expected: &AnswerWords, answer: &AnswerWords) -> String {
    let equal = expected.iter().zip(answer).take_while(|(x, y)| x == y);
    let at = equal.count();
    format!(
        "MISMATCH at word {at} of the answer: {}program:     {}",
        told(seed, call, expected),
        spaced(answer)
    )
}

fn unanswered(seed: u64, call: &Call, expected: &AnswerWords, fault: &io::Error) -> String {
    let told = told(seed, call, expected);
    format!("NO ANSWER ({fault}): {}", told.trim_end())
}
