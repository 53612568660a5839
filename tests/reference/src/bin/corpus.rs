//! The fixed list of problem files: `corpus names` prints their names, `corpus write FOLDER` writes
//! the files, `corpus outputs` prints what the print program has to print for each.
#![forbid(unsafe_code)]

use std::fs;
use std::io;
use std::path::Path;

fn main() -> io::Result<()> {
    let words: Vec<String> = std::env::args().skip(1).collect();
    let cases = reference::corpus::cases();
    match words.iter().map(String::as_str).collect::<Vec<_>>()[..] {
        ["names"] => cases.iter().for_each(|(name, _)| println!("{name}")),
        ["write", folder] => {
            for (name, bytes) in &cases {
                fs::write(Path::new(folder).join(name), bytes)?;
            }
        }
        ["outputs"] => {
            for (name, bytes) in &cases {
                print!("{name}\n{}", reference::print(bytes));
            }
        }
        _ => eprintln!("usage: corpus names | corpus write FOLDER | corpus outputs"),
    }
    Ok(())
}
