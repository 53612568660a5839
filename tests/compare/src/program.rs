//! The program under test: requests go to its standard input, responses come from its standard
//! output, as frames of 32-bit words, the lowest byte first, the first counting the others.

use std::io::{self, BufReader, Read, Write};
use std::process::{Child, ChildStdin, ChildStdout, Command, Stdio};

pub struct Program {
    child: Child,
    output: BufReader<ChildStdout>,
}

impl Program {
    /// Starts the command; its input is handed out for another thread to write to.
    pub fn start(command: &[String]) -> io::Result<(Program, ChildStdin)> {
        let (name, words) = command.split_first().ok_or(io::ErrorKind::InvalidInput)?;
        let mut child = Command::new(name)
            .args(words)
            .stdin(Stdio::piped())
            .stdout(Stdio::piped())
            .spawn()?;
        let (Some(input), Some(output)) = (child.stdin.take(), child.stdout.take()) else {
            return Err(io::ErrorKind::BrokenPipe.into());
        };
        let output = BufReader::with_capacity(1 << 16, output);
        Ok((Program { child, output }, input))
    }

    pub fn response(&mut self) -> io::Result<Vec<u32>> {
        receive(&mut self.output)
    }

    /// Waits for the program, whose input must have ended; it may write no more.
    pub fn ends_quietly(mut self) -> io::Result<bool> {
        let mut rest = Vec::new();
        self.output.read_to_end(&mut rest)?;
        Ok(rest.is_empty() && self.child.wait()?.success())
    }

    pub fn stop(mut self) {
        // It may have ended by itself.
        let _ = self.child.kill();
        let _ = self.child.wait();
    }
}

/// The bytes of a frame with these words.
pub fn frame(words: &[u32]) -> Vec<u8> {
    let counted = std::iter::once(words.len() as u32).chain(words.iter().copied());
    counted.flat_map(u32::to_le_bytes).collect()
}

/// A frame has at most 65,536 bytes after its first word.
const MOST_WORDS: u32 = 16_384;

fn receive(input: &mut impl Read) -> io::Result<Vec<u32>> {
    let count = receive_word(input)?;
    if count > MOST_WORDS {
        return Err(io::Error::other(format!("a frame of {count} words")));
    }
    (0..count).map(|_| receive_word(input)).collect()
}

fn receive_word(input: &mut impl Read) -> io::Result<u32> {
    let mut bytes = [0; 4];
    input.read_exact(&mut bytes)?;
    Ok(u32::from_le_bytes(bytes))
}

/// Sends frames, all in one write.
pub fn send(input: &mut ChildStdin, frames: &[Vec<u8>]) -> io::Result<()> {
    input.write_all(&frames.concat())
}

#[cfg(test)]
mod tests {
    use super::*;

    #[test]
    fn frames_are_read_back() {
        for words in [vec![], vec![1], vec![u32::MAX, 0, 256]] {
            assert_eq!(receive(&mut frame(&words).as_slice()).unwrap(), words);
        }
        assert_eq!(frame(&[258]), [1, 0, 0, 0, 2, 1, 0, 0]);
        assert!(receive(&mut [2, 0, 0, 0, 1, 0, 0, 0].as_slice()).is_err());
        assert!(receive(&mut [255; 400].as_slice()).is_err());
    }
}
