//! The stored calls, a file each, named by the answer: `steps-6-1.call` is refused 6 with which 1, `steps-done-3.call` is done.

use std::collections::BTreeMap;
use std::fs;
use std::path::{Path, PathBuf};

use compare::calls::Kind;
use door::requests::Request;

use crate::answers::Answer;
use crate::stored;

/// How many generated calls the corpus is chosen from.
const CALLS: u64 = 200_000;
/// What stands in a buffer before a call writes it, so that it can be stored shortly.
const BEFORE: u32 = 0xC0FF_EE00;
/// The most nodes.
const MOST: u32 = 16;

pub fn folder() -> PathBuf {
    Path::new(env!("CARGO_MANIFEST_DIR")).join("../fuzz/corpus")
}

/// Every stored call, by the names of the files.
pub fn read(folder: &Path) -> Result<Vec<Request>, String> {
    let told = |fault: std::io::Error| format!("{}: {fault}", folder.display());
    let entries = fs::read_dir(folder).map_err(told)?;
    let paths: Result<Vec<PathBuf>, _> = entries.map(|entry| entry.map(|e| e.path())).collect();
    let mut paths = paths.map_err(told)?;
    paths.sort();
    paths.iter().map(|path| read_file(path)).collect()
}

pub fn read_file(path: &Path) -> Result<Request, String> {
    let text = fs::read_to_string(path).map_err(|fault| format!("{}: {fault}", path.display()))?;
    stored::read(&text).map_err(|fault| format!("{}: {fault}", path.display()))
}

/// Writes the corpus: of the generated calls with one answer the one with the fewest words; and of each call that is done the one
/// with the fewest words for 16 nodes, for the reader the largest file.
pub fn make(folder: &Path) -> Result<usize, String> {
    let mut chosen: BTreeMap<String, (usize, Request)> = BTreeMap::new();
    for seed in 0..CALLS {
        let request = plain(Request::new(seed));
        let (reply, _) = door::compare(&request)?;
        let answer = Answer::new(&request, reply);
        for (name, rank) in places(&request, answer) {
            let kept = chosen.get(&name);
            if kept.is_none_or(|(least, _)| rank < *least) {
                chosen.insert(name, (rank, request.clone()));
            }
        }
    }
    let told = |fault: std::io::Error| format!("{}: {fault}", folder.display());
    fs::create_dir_all(folder).map_err(told)?;
    for (name, (_, request)) in &chosen {
        let path = folder.join(format!("{name}.call"));
        fs::write(path, stored::write(request)).map_err(told)?;
    }
    Ok(chosen.len())
}

/// The names that a call may be stored under, each with its rank: the lowest is kept.
fn places(request: &Request, answer: Answer) -> Vec<(String, usize)> {
    let kind = stored::name(answer.kind);
    let (number, which) = (answer.number, answer.which);
    let looked_at = match answer.kind {
        Kind::Read => &request.call.buffers[..1],
        _ => &request.call.buffers,
    };
    let words = looked_at.iter().map(Vec::len).sum::<usize>();
    if number != 0 {
        return vec![(format!("{kind}-{number}-{which}"), words)];
    }
    let mut places = vec![(format!("{kind}-done-{}", answer.said), words)];
    match answer.kind {
        Kind::Read => places.push((format!("{kind}-done-largest"), usize::MAX - words)),
        Kind::Laws => {}
        _ if answer.size == MOST => places.push((format!("{kind}-done-{MOST}-nodes"), words)),
        _ => {}
    }
    places
}

/// The same call with numbers and buffers that are not looked at made plain.
fn plain(mut request: Request) -> Request {
    let call = &mut request.call;
    request.told.fill(BEFORE);
    match call.kind {
        Kind::Laws => call.n = 0,
        Kind::LentRow => call.kind = Kind::WhichRefusal,
        Kind::Fresh => call.buffers[0].fill(BEFORE),
        Kind::Forward => call.buffers[3].fill(BEFORE),
        Kind::Read => call.buffers[1..].iter_mut().for_each(|b| b.fill(BEFORE)),
        _ => {}
    }
    request
}

#[cfg(test)]
mod tests {
    use super::*;
    use crate::answers::Answers;

    #[test]
    fn every_answer_of_every_call_is_stored() {
        let mut answers = Answers::default();
        for request in read(&folder()).expect("the corpus is read") {
            let (reply, _) = door::compare(&request).expect("the answers agree");
            answers.add(Answer::new(&request, reply));
        }
        assert_eq!(answers.missing(), Vec::<String>::new());
    }
}
