//! What a call must answer and leave, in the form of the exported functions, worked out from the independent
//! implementation's answer.

use compare::calls::{AnswerWords, Call, Kind};
use reference::reader::{ARC_ROOM, MAPPING_ROOM};

use crate::exports::{Lent, Reply};
use crate::requests::{Request, PROBLEM_WORDS, REPORT_WORDS};

/// The next hop's value for none; the buffers that lend at a handover.
const NO_NODE: u32 = 255;
const NEWER: u32 = 2;
const STANDING: u32 = 5;
const WEIGHT_WORDS: usize = 4;

/// The answer, every buffer after the call, and the row that is lent.
#[derive(Debug, PartialEq, Eq)]
pub struct Outcome {
    pub reply: Reply,
    pub language: Vec<u16>,
    pub buffers: Vec<Vec<u32>>,
    pub told: Vec<u32>,
    pub row: Vec<u32>,
}

fn reply(answer: &[u32], value: u32) -> Reply {
    Reply {
        number: answer[0],
        which: answer[1],
        place: answer[2],
        value,
    }
}

/// What was found: the reply, and what stands in the lent buffers.
pub fn found(request: &Request, reply: Reply, lent: &Lent) -> Outcome {
    let words = lent.buffers.iter().map(|buffer| buffer.part().to_vec());
    let file = lent.file.part().iter().map(|byte| u32::from(*byte));
    let buffers: Vec<Vec<u32>> = match request.call.kind {
        Kind::Read => std::iter::once(file.collect()).chain(words).collect(),
        _ => words.collect(),
    };
    let row = lent_row(&request.call, reply, &buffers);
    Outcome {
        reply,
        language: lent.language.part().to_vec(),
        buffers,
        told: lent.told.part().to_vec(),
        row,
    }
}

/// Row i of the buffer that a handover names: it starts at word i x n x 4.
fn lent_row(call: &Call, reply: Reply, buffers: &[Vec<u32>]) -> Vec<u32> {
    let is_handover = matches!(call.kind, Kind::LentRow | Kind::WhichRefusal);
    if !is_handover || reply.number != 0 {
        return Vec::new();
    }
    let lender = match reply.value {
        STANDING => &buffers[1],
        NEWER => &buffers[2],
        _ => return Vec::new(),
    };
    let size = call.n as usize * WEIGHT_WORDS;
    let start = call.i as usize * size;
    lender.get(start..start + size).unwrap_or_default().to_vec()
}

/// What must be found, given the independent implementation's answer to the call.
pub fn expected(request: &Request, answer: &AnswerWords) -> Outcome {
    let call = &request.call;
    let mut outcome = Outcome {
        reply: reply(answer, 0),
        language: request.language.clone(),
        buffers: call.buffers.clone(),
        told: request.told.clone(),
        row: Vec::new(),
    };
    let done = answer[0] == 0;
    match call.kind {
        Kind::Laws => laws_outcome(request, answer, &mut outcome),
        Kind::Fresh => outcome.buffers[0] = answer[3..].to_vec(),
        Kind::Steps => {
            outcome.reply.value = answer[3];
            outcome.buffers[1] = answer[4..].to_vec();
        }
        Kind::Equation => outcome.reply.value = answer[3],
        Kind::Forward => outcome.buffers[3] = answer[3..].to_vec(),
        Kind::NextHop if done => {
            let (found, node) = (answer[3], answer[4]);
            outcome.reply.value = if found == 1 { node } else { NO_NODE };
        }
        Kind::NextHop => {}
        Kind::LentRow | Kind::WhichRefusal => handover_outcome(call, &mut outcome),
        Kind::Read => read_outcome(request, answer, &mut outcome),
        Kind::Print => panic!("the printed text is not exported"),
    }
    outcome
}

const TOO_SHORT: Reply = Reply {
    number: 9,
    which: 6,
    place: 0,
    value: 0,
};

/// 5 and 4 come before the length of the report.
fn laws_outcome(request: &Request, answer: &[u32], outcome: &mut Outcome) {
    if answer[0] != 0 {
        return;
    }
    if request.is_told_too_short() {
        outcome.reply = TOO_SHORT;
        return;
    }
    outcome.reply.value = answer[3] + 2 * answer[4] + 4 * answer[5];
    outcome.told[..REPORT_WORDS].copy_from_slice(&answer[6..]);
}

/// The lengths of arcs and mapping come before that of the problem, and all three before the file.
fn read_outcome(request: &Request, answer: &[u32], outcome: &mut Outcome) {
    let (arcs, mapping) = (request.call.buffers[1].len(), request.call.buffers[2].len());
    if ARC_ROOM <= arcs && MAPPING_ROOM <= mapping && request.is_told_too_short() {
        outcome.reply = TOO_SHORT;
        return;
    }
    let (problem, words) = answer[3..].split_at(PROBLEM_WORDS);
    if answer[0] == 0 {
        outcome.told[..PROBLEM_WORDS].copy_from_slice(problem);
    }
    let (arcs_left, mapping_left) = words.split_at(arcs);
    outcome.buffers[1] = arcs_left.to_vec();
    outcome.buffers[2] = mapping_left.to_vec();
}

/// The refusal and the lender by the second call, the row's words by the first.
fn handover_outcome(call: &Call, outcome: &mut Outcome) {
    let asked = |kind: Kind| {
        let mut call = call.clone();
        call.kind = kind;
        call.expected()
    };
    let which = asked(Kind::WhichRefusal);
    outcome.reply = reply(&which, which[3]);
    outcome.row = asked(Kind::LentRow)[4..].to_vec();
}
