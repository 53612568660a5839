//! fuzz [--executions N] [--seed S] [--last FILE] | --replay FILE | --make-corpus: mutates stored calls, makes them through the
//! exported functions with every buffer between canaries, and compares each answer and every word of every buffer with the
//! independent implementation.
//!
//! It mutates a corpus and is not guided by coverage: the library's archive is compiled without edge counters, so the edges
//! inside the proved module cannot be counted. In their place a mutant whose answer is new in the run (call, number, which, bits
//! of the place; done: what it says, and n) becomes a seed of the run. The same seed and corpus give the same run. A difference or
//! a lost canary is told whole and ends with status 1; the told call, stored in a file, is made again by --replay. With --last
//! every call is stored before it is made, so that a call that crashes is not lost.

mod answers;
mod corpus;
mod files;
mod mutate;
mod seeds;
mod stored;

use std::path::PathBuf;
use std::process::ExitCode;
use std::time::Instant;

use door::requests::Request;
use reference::generator::Dice;

use answers::{Answer, Answers};
use seeds::Seeds;

/// From this many executions on, each answer that a call can give must have been met by mutants.
const ENOUGH: u64 = 100_000;

struct Options {
    executions: u64,
    seed: u64,
    last: Option<PathBuf>,
    replay: Option<PathBuf>,
    make_corpus: bool,
}

fn main() -> ExitCode {
    let told = options(std::env::args().skip(1)).and_then(|options| match &options {
        Options { make_corpus, .. } if *make_corpus => {
            let count = corpus::make(&corpus::folder())?;
            Ok(format!("{count} calls stored"))
        }
        Options { replay, .. } if replay.is_some() => {
            let path = replay.clone().unwrap_or_default();
            let (reply, _) = door::compare(&corpus::read_file(&path)?)?;
            Ok(format!("no difference: {reply:?}"))
        }
        _ => Run::new(&options)?.run(),
    });
    match told {
        Ok(text) => {
            println!("{text}");
            ExitCode::SUCCESS
        }
        Err(fault) => {
            println!("{fault}");
            ExitCode::FAILURE
        }
    }
}

fn options(mut words: impl Iterator<Item = String>) -> Result<Options, String> {
    let mut options = Options {
        executions: 1_000_000,
        seed: 1,
        last: None,
        replay: None,
        make_corpus: false,
    };
    while let Some(word) = words.next() {
        if word == "--make-corpus" {
            options.make_corpus = true;
            continue;
        }
        let given = words.next().unwrap_or_default();
        let number = || given.parse().map_err(|_| format!("no number: '{given}'"));
        match word.as_str() {
            "--executions" => options.executions = number()?,
            "--seed" => options.seed = number()?,
            "--last" => options.last = Some(PathBuf::from(&given)),
            "--replay" => options.replay = Some(PathBuf::from(&given)),
            _ => return Err(format!("not known: '{word}'")),
        }
    }
    Ok(options)
}

struct Run<'a> {
    options: &'a Options,
    seeds: Seeds,
    /// How many of the seeds are the corpus.
    stored: usize,
    /// The answers of the seeds, and those of the mutants.
    answers: Answers,
    mutants: Answers,
}

impl Run<'_> {
    /// Makes every stored call.
    fn new(options: &Options) -> Result<Run<'_>, String> {
        let corpus = corpus::read(&corpus::folder())?;
        let mut run = Run {
            options,
            seeds: Seeds::default(),
            stored: corpus.len(),
            answers: Answers::default(),
            mutants: Answers::default(),
        };
        for request in corpus {
            let told = run.execute(&request);
            let answer = told.map_err(|fault| format!("MISMATCH at a stored call\n{fault}"))?;
            run.answers.add(answer);
            run.seeds.add(request, answer);
        }
        let missing = run.answers.missing();
        match missing.is_empty() {
            true => Ok(run),
            false => Err(format!("not in the corpus: {}", missing.join(", "))),
        }
    }

    /// Makes one call; a difference is told with the call as it can be stored.
    fn execute(&self, request: &Request) -> Result<Answer, String> {
        if let Some(path) = &self.options.last {
            std::fs::write(path, stored::write(request)).map_err(|fault| fault.to_string())?;
        }
        match door::compare(request) {
            Ok((reply, _)) => Ok(Answer::new(request, reply)),
            Err(fault) => {
                let text = stored::write(request);
                Err(format!("{fault}\n\nto be stored:\n{text}"))
            }
        }
    }

    fn run(mut self) -> Result<String, String> {
        let Options {
            executions, seed, ..
        } = *self.options;
        println!(
            "seed {seed}, {} stored calls, {executions} mutants",
            self.stored
        );
        let mut dice = Dice::new(seed);
        let start = Instant::now();
        for index in 0..executions {
            let (first, second) = (self.seeds.pick(&mut dice), self.seeds.pick(&mut dice));
            let request = mutate::mutant(&mut dice, &first, &second);
            let answer = self
                .execute(&request)
                .map_err(|fault| format!("MISMATCH at mutant {index} of seed {seed}\n{fault}"))?;
            self.mutants.add(answer);
            if self.answers.is_new(answer) {
                self.answers.add(answer);
                self.seeds.add(request, answer);
            }
        }
        self.judged(start.elapsed().as_secs_f64())
    }

    /// What was met; a long run that misses an answer fails.
    fn judged(&self, seconds: f64) -> Result<String, String> {
        let executions = self.options.executions;
        print!("{}", self.mutants.lines());
        let distinct = self.mutants.distinct();
        let new = self.seeds.count() - self.stored;
        println!("distinct answers: {distinct}, {new} of them new and kept as seeds of the run");
        println!(
            "{seconds:.1} s, {:.0} executions per second",
            executions as f64 / seconds
        );
        let missing = self.mutants.missing();
        if executions >= ENOUGH && !missing.is_empty() {
            return Err(format!("never met: {}", missing.join(", ")));
        }
        Ok("no difference, every canary intact".to_string())
    }
}
