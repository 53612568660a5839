//! A request as text, a line for each part, so that a stored call can be read, and changed by hand:
//!
//!     call steps
//!     language 1 1 0 1 0 1 0 1 0
//!     numbers 2 0 0 0 0
//!     a 4294967295*16
//!     r 0*4 4294967295*8 0*4
//!     list 0 257
//!     told
//!
//! The numbers are n, m, mode, i and j; w*k is k words w; told is where the law report or the problem goes.

use compare::calls::{Call, Kind};
use door::page::call_of;
use door::requests::Request;

/// The eight exported functions; of the two calls that go through the handover, the one that tells a refusal.
pub const KINDS: [Kind; 8] = [
    Kind::Laws,
    Kind::Fresh,
    Kind::Steps,
    Kind::Equation,
    Kind::Forward,
    Kind::NextHop,
    Kind::WhichRefusal,
    Kind::Read,
];

/// The function's name.
pub fn name(kind: Kind) -> String {
    call_of(kind).to_string()
}

pub fn write(request: &Request) -> String {
    let call = &request.call;
    let numbers = [call.n, call.m, call.mode, call.i, call.j];
    let language: Vec<u32> = request.language.iter().map(|n| u32::from(*n)).collect();
    let mut lines = vec![format!("call {}", name(call.kind))];
    lines.push(line("language", &language));
    lines.push(line("numbers", &numbers));
    for (name, words) in call.kind.buffer_names().iter().zip(&call.buffers) {
        lines.push(line(name, words));
    }
    lines.push(line("told", &request.told));
    lines.join("\n") + "\n"
}

fn line(name: &str, words: &[u32]) -> String {
    let mut texts = vec![name.to_string()];
    for run in words.chunk_by(|first, next| first == next) {
        match run.len() {
            1 => texts.push(run[0].to_string()),
            length => texts.push(format!("{}*{length}", run[0])),
        }
    }
    texts.join(" ")
}

pub fn read(text: &str) -> Result<Request, String> {
    let mut lines = text.lines();
    let first = lines.next().unwrap_or_default();
    let is_called = |kind: &Kind| first == format!("call {}", name(*kind));
    let kind = KINDS
        .into_iter()
        .find(is_called)
        .ok_or(format!("no call: '{first}'"))?;
    let mut part = |name: &str| words(name, lines.next().unwrap_or_default());
    let language: Result<Vec<u16>, _> = part("language")?.into_iter().map(u16::try_from).collect();
    let language = language.map_err(|_| "a number of the language above 16 bits")?;
    let numbers: [u32; 5] = part("numbers")?
        .try_into()
        .map_err(|_| "not five numbers")?;
    let buffers: Result<Vec<Vec<u32>>, String> =
        kind.buffer_names().iter().map(|name| part(name)).collect();
    let mut call = Call::new(kind, [0; 9], numbers[0], buffers?);
    [_, call.m, call.mode, call.i, call.j] = numbers;
    Ok(Request::of(call, language, part("told")?))
}

/// The words of the line with this name.
fn words(name: &str, line: &str) -> Result<Vec<u32>, String> {
    let mut texts = line.split(' ');
    if texts.next() != Some(name) {
        return Err(format!("no line '{name}' but '{line}'"));
    }
    let mut words = Vec::new();
    for text in texts {
        let (word, length) = text.split_once('*').unwrap_or((text, "1"));
        match (word.parse::<u32>(), length.parse::<usize>()) {
            (Ok(word), Ok(length)) => words.extend(vec![word; length]),
            _ => return Err(format!("no words: '{text}'")),
        }
    }
    Ok(words)
}

#[cfg(test)]
mod tests {
    use super::*;

    #[test]
    fn a_request_is_read_back() {
        for seed in 0..2_000 {
            let mut request = Request::new(seed);
            if request.call.kind == Kind::LentRow {
                request.call.kind = Kind::WhichRefusal;
            }
            assert_eq!(read(&write(&request)), Ok(request));
        }
    }
}
