//! Prints the languages of the fixed list (`law_reports languages`), or the text of their law reports.
#![forbid(unsafe_code)]

use std::io::{self, BufWriter, Write};

fn main() -> io::Result<()> {
    let inputs = std::env::args().nth(1).as_deref() == Some("languages");
    let mut output = BufWriter::new(io::stdout().lock());
    for language in reference::enumeration::languages() {
        if inputs {
            writeln!(output, "{}", language.numbers())?;
        } else {
            write!(output, "{}", language.report())?;
        }
    }
    for (line, report) in reference::enumeration::odd_lines() {
        write!(output, "{}", if inputs { line } else { report.as_str() })?;
    }
    output.flush()
}
