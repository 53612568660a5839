//! bench [--networks N] [--most RATIO] [--write FILE]: the proved library against ordinary Rust, in one run, interleaved.
//!
//! `equal` is the library's own source without its contracts, compiled as Rust: the same layouts, checks and loops, with Rust's
//! own checks of bounds. `plain` is the same work as someone would write it first. Each network is timed by all three,
//! one after another; a number is the median over networks of the time of one unit, a ratio the median of the ratios.

mod equal {
    #![allow(unused, clippy::all)]
    include!(concat!(env!("OUT_DIR"), "/equal.rs"));
}
mod networks;
mod plain;
mod proved;
mod work;

use std::fmt::Write as _;
use std::hint::black_box;
use std::process::ExitCode;
use std::time::{Duration, Instant};

use networks::{network, Arcs, Named, LANGUAGES};
use work::{Bench, Work};

const NODES: [usize; 3] = [4, 8, 16];
/// A measurement repeats its work until it takes about this long.
const LONG_ENOUGH: Duration = Duration::from_micros(40);

struct Options {
    networks: usize,
    most: f64,
    write: Option<String>,
}

/// What one network took: nanoseconds of one unit by the proved code, by the equal Rust and by the plain Rust.
type Times = [f64; 3];

struct Row {
    work: Work,
    language: &'static str,
    n: usize,
    arcs: Arcs,
    times: Vec<Times>,
}

fn main() -> ExitCode {
    let Some(options) = options() else {
        eprintln!("usage: bench [--networks N] [--most RATIO] [--write FILE]");
        return ExitCode::from(2);
    };
    match run(&options) {
        Ok(rows) => report(&options, &rows),
        Err(fault) => {
            println!("{fault}");
            ExitCode::FAILURE
        }
    }
}

fn options() -> Option<Options> {
    let mut options = Options {
        networks: 10_000,
        most: f64::INFINITY,
        write: None,
    };
    let mut words = std::env::args().skip(1);
    while let Some(word) = words.next() {
        match word.as_str() {
            "--networks" => options.networks = words.next()?.parse().ok()?,
            "--most" => options.most = words.next()?.parse().ok()?,
            "--write" => options.write = Some(words.next()?),
            _ => return None,
        }
    }
    Some(options)
}

fn run(options: &Options) -> Result<Vec<Row>, String> {
    let mut rows = Vec::new();
    for work in Work::ALL {
        for language in &LANGUAGES {
            for n in NODES {
                for &arcs in row_arcs(work) {
                    rows.push(Row {
                        work,
                        language: language.name,
                        n,
                        arcs,
                        times: Vec::new(),
                    });
                }
            }
        }
    }
    let each = options.networks.div_ceil(rows.len()).max(5);
    for (index, row) in rows.iter_mut().enumerate() {
        let language = named(row.language);
        for turn in 0..each {
            let seed = (index * each + turn) as u64 + 1;
            let network = network(language, row.n, row.arcs, seed);
            let mut bench = Bench::new(row.work, language, network);
            bench.agree()?;
            row.times
                .push(timed(&mut bench, row.work.units(row.n), turn));
        }
    }
    Ok(rows)
}

/// A ring is for the work that is passes of a settle.
fn row_arcs(work: Work) -> &'static [Arcs] {
    match work {
        Work::Settle | Work::Handover => &[Arcs::Sparse, Arcs::Dense, Arcs::Ring],
        Work::Sweeps | Work::Forward | Work::Read => &[Arcs::Sparse, Arcs::Dense],
    }
}

fn named(name: &str) -> &'static Named {
    let found = LANGUAGES.iter().find(|language| language.name == name);
    found.expect("the language is in the list")
}

/// The three one after another, beginning with another one each turn; the least of three measurements of each.
fn timed(bench: &mut Bench, units: usize, turn: usize) -> Times {
    let mut least = [f64::INFINITY; 3];
    let repeats = repeats(bench);
    for round in 0..3 {
        for place in 0..3 {
            let which = (place + turn + round) % 3;
            let time = measure(bench, which, repeats) / (repeats * units) as f64;
            least[which] = least[which].min(time);
        }
    }
    least
}

fn once(bench: &mut Bench, which: usize) -> u32 {
    match which {
        0 => bench.proved(),
        1 => bench.equal(),
        _ => bench.plain(),
    }
}

fn measure(bench: &mut Bench, which: usize, repeats: usize) -> f64 {
    let started = Instant::now();
    for _ in 0..repeats {
        black_box(once(black_box(bench), which));
    }
    started.elapsed().as_nanos() as f64
}

fn repeats(bench: &mut Bench) -> usize {
    let started = Instant::now();
    black_box(bench.proved());
    let one = started.elapsed().max(Duration::from_nanos(50));
    (LONG_ENOUGH.as_nanos() / one.as_nanos()).clamp(1, 1_000) as usize
}

/// The value below which a part of the values lie.
fn quantile(mut values: Vec<f64>, part: f64) -> f64 {
    values.sort_by(f64::total_cmp);
    values[((values.len() - 1) as f64 * part).round() as usize]
}

impl Row {
    fn median(&self, which: usize) -> f64 {
        quantile(self.times.iter().map(|times| times[which]).collect(), 0.5)
    }

    fn ratio(&self, which: usize, part: f64) -> f64 {
        let ratios = self.times.iter().map(|times| times[0] / times[which]);
        quantile(ratios.collect(), part)
    }

    fn line(&self) -> String {
        format!(
            "| {} | {} | {} | {} | {:.0} | {:.0} | {:.0} | {:.2} ({:.2} to {:.2}) | {:.2} |",
            self.work.name(),
            self.language,
            self.n,
            self.arcs.name(),
            self.median(0),
            self.median(1),
            self.median(2),
            self.ratio(1, 0.5),
            self.ratio(1, 0.25),
            self.ratio(1, 0.75),
            self.ratio(2, 0.5)
        )
    }
}

fn report(options: &Options, rows: &[Row]) -> ExitCode {
    let mut text = String::new();
    let _ = writeln!(
        text,
        "| work | language | n | arcs | proved ns | equal ns | plain ns | proved / equal (quartiles) | proved / plain |"
    );
    let _ = writeln!(text, "|---|---|---|---|---|---|---|---|---|");
    for row in rows {
        let _ = writeln!(text, "{}", row.line());
    }
    let _ = writeln!(text, "\n{}", growth(rows));
    print!("{text}");
    let networks: usize = rows.iter().map(|row| row.times.len()).sum();
    println!("{networks} networks; the three agreed on each");
    if let Some(file) = &options.write {
        if let Err(fault) = std::fs::write(file, &text) {
            println!("{file}: {fault}");
            return ExitCode::FAILURE;
        }
    }
    let slow = |row: &&Row| row.work == Work::Sweeps && row.ratio(1, 0.5) > options.most;
    if let Some(row) = rows.iter().find(slow) {
        println!("too slow: {}", row.line());
        return ExitCode::FAILURE;
    }
    ExitCode::SUCCESS
}

/// How the cost of the proved code grows with n, dense: nanoseconds of one unit.
fn growth(rows: &[Row]) -> String {
    let mut text = "| work | language | n 4 | n 8 | n 16 | 8 / 4 | 16 / 8 |\n".to_string();
    text += "|---|---|---|---|---|---|---|\n";
    for work in Work::ALL {
        for language in &LANGUAGES {
            let dense = rows.iter().filter(|row| {
                row.work == work && row.language == language.name && row.arcs == Arcs::Dense
            });
            let times: Vec<f64> = dense.map(|row| row.median(0)).collect();
            let _ = writeln!(
                text,
                "| {} | {} | {:.0} | {:.0} | {:.0} | {:.1} | {:.1} |",
                work.name(),
                language.name,
                times[0],
                times[1],
                times[2],
                times[1] / times[0],
                times[2] / times[1]
            );
        }
    }
    text
}
