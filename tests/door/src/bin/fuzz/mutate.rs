//! Mutations of a stored call: of its words and numbers, of the lengths and order of its buffers, with parts of another call,
//! and into another call. Some keep it sound (a whole entry, another n with right lengths, the best matrix over the arcs), so
//! that what lies behind the checks is met as well.

use compare::calls::{language_of, Call, Kind};
use door::requests::Request;
use reference::forwarding::ENTRY_WORDS;
use reference::generator::{best_words, Dice};
use reference::matrices::{matrix_words, SETTLE_FROM};
use reference::refusals::{check_language, check_nodes};
use reference::weights::{ONES, WEIGHT_WORDS};

use crate::files;
use crate::stored::KINDS;

/// Words at the edges of what an entry, a number or a length may be.
const EDGES: [u32; 16] = [
    0, 1, 2, 3, 15, 16, 17, 255, 256, 65_535, 65_536, 983_025, 983_026, 1_048_560, 1_048_561, ONES,
];
/// The most words of a buffer that grows.
const MOST_WORDS: usize = 5_000;
/// Joins that the independent implementation is asked for in a list of steps: mostly, and now and then.
const MOSTLY: usize = 50_000;
const RARELY: usize = 2_000_000;

/// The first call after one to eight mutations, some with parts of the second.
pub fn mutant(dice: &mut Dice, first: &Request, second: &Request) -> Request {
    let mut request = first.clone();
    for _ in 0..dice.pick(&[1, 1, 1, 1, 2, 2, 3, 8]) {
        if request.call.kind == Kind::Read && dice.percent(75) {
            files::mutate(dice, &mut request.call.buffers[0], &second.call);
        } else {
            mutate(dice, &mut request, second);
        }
    }
    let Request {
        mut call,
        language,
        told,
    } = request;
    if call.kind == Kind::Read {
        call.buffers[0].iter_mut().for_each(|byte| *byte &= 0xFF);
    }
    shorten_list(dice, &mut call);
    Request::of(call, language, told)
}

fn mutate(dice: &mut Dice, request: &mut Request, second: &Request) {
    match dice.below(22) {
        0 | 1 => change_word(dice, request, |dice, word| word ^ (1 << dice.below(32))),
        2 | 3 => change_word(dice, request, |dice, _| dice.pick(&EDGES)),
        4 => change_word(dice, request, near),
        5 | 6 => copy_words(dice, request, second),
        7 => change_length(dice, request),
        8 => swap_buffers(dice, &mut request.call),
        9 | 10 => change_number(dice, &mut request.call),
        11 | 12 => change_language(dice, &mut request.language),
        13 => splice(dice, request, second),
        14 => recast(dice, request, second),
        15 | 16 => whole_entry(dice, &mut request.call),
        17 => right_lengths(dice, &mut request.call),
        18 | 19 => best_matrix(request),
        _ => add_steps(dice, &mut request.call),
    }
}

fn near(dice: &mut Dice, word: u32) -> u32 {
    dice.pick(&[word.wrapping_add(1), word.wrapping_sub(1)])
}

/// The slices of words: the buffers, then what is told.
fn slice<'a>(dice: &mut Dice, request: &'a mut Request) -> &'a mut Vec<u32> {
    let index = dice.index(request.call.buffers.len() + 1);
    let buffer = request.call.buffers.get_mut(index);
    buffer.unwrap_or(&mut request.told)
}

fn change_word(dice: &mut Dice, request: &mut Request, new: impl Fn(&mut Dice, u32) -> u32) {
    let words = slice(dice, request);
    if !words.is_empty() {
        let at = dice.index(words.len());
        words[at] = new(dice, words[at]);
    }
}

/// Some words of a buffer of either call, over some words of a buffer; mostly whole entries.
fn copy_words(dice: &mut Dice, request: &mut Request, second: &Request) {
    let from_self = dice.percent(70);
    let giver = if from_self {
        &request.call
    } else {
        &second.call
    };
    let Some(source) = giver.buffers.get(dice.index(giver.buffers.len())).cloned() else {
        return;
    };
    let target = slice(dice, request);
    let unit = dice.pick(&[1, WEIGHT_WORDS, WEIGHT_WORDS, ENTRY_WORDS]);
    let from = dice.index(source.len() / unit) * unit;
    let to = dice.index(target.len() / unit) * unit;
    let most = (source.len() - from).min(target.len() - to);
    let length = (unit * dice.pick(&[1, 1, 2, 4, 16])).min(most);
    target[to..to + length].copy_from_slice(&source[from..from + length]);
}

fn change_length(dice: &mut Dice, request: &mut Request) {
    let fill = dice.pick(&EDGES);
    let words = slice(dice, request);
    let length = words.len();
    let by = dice.pick(&[1, 1, 4, 5, 64]);
    let any = dice.index(length + 1);
    let new = dice.pick(&[length + by, length.saturating_sub(by), any, 2 * length, 0]);
    words.resize(new.min(MOST_WORDS), fill);
}

/// Two buffers swapped; never the file, whose words are bytes.
fn swap_buffers(dice: &mut Dice, call: &mut Call) {
    let first = usize::from(call.kind == Kind::Read);
    let count = call.buffers.len().saturating_sub(first);
    if count > 0 {
        let (one, other) = (dice.index(count), dice.index(count));
        call.buffers.swap(first + one, first + other);
    }
}

fn change_number(dice: &mut Dice, call: &mut Call) {
    let edge = dice.pick(&EDGES);
    let node = dice.index(17) as u32;
    let number = match dice.below(5) {
        0 => &mut call.n,
        1 => &mut call.m,
        2 => &mut call.mode,
        3 => &mut call.i,
        _ => &mut call.j,
    };
    let near = near(dice, *number);
    *number = dice.pick(&[edge, node, node, near]);
}

fn change_language(dice: &mut Dice, language: &mut Vec<u16>) {
    if dice.percent(5) || language.is_empty() {
        language.resize(dice.pick(&[0, 1, 8, 9, 9, 9, 10, 18]), 1);
        return;
    }
    let at = dice.index(language.len());
    let any = dice.roll() as u16;
    let small = dice.index(6) as u16;
    language[at] = dice.pick(&[small, small, 1, 9, 65_534, 65_535, language[at] ^ 1, any]);
}

/// One part of the other call: its language, its numbers, or the buffer of the same name.
fn splice(dice: &mut Dice, request: &mut Request, second: &Request) {
    let other = &second.call;
    match dice.below(4) {
        0 => request.language = second.language.clone(),
        1 => (request.call.n, request.call.m, request.call.mode) = (other.n, other.m, other.mode),
        _ => {
            let index = dice.index(request.call.buffers.len());
            if let Some(name) = request.call.kind.buffer_names().get(index) {
                let found = named(other, name);
                let kept = std::mem::take(&mut request.call.buffers[index]);
                request.call.buffers[index] = found.unwrap_or(kept);
            }
        }
    }
}

fn named(call: &Call, name: &str) -> Option<Vec<u32>> {
    let names = call.kind.buffer_names();
    let index = names.iter().position(|other| *other == name)?;
    Some(call.buffers[index].clone())
}

/// Another call on the same language, network and numbers; what it takes besides is the other call's, or the last buffer again.
fn recast(dice: &mut Dice, request: &mut Request, second: &Request) {
    let call = &request.call;
    let kind = dice.pick(&KINDS);
    let last = call.buffers.last().cloned().unwrap_or_default();
    let buffer = |name: &&str| {
        let own = named(call, name).or_else(|| named(&second.call, name));
        own.unwrap_or_else(|| last.clone())
    };
    let buffers = kind.buffer_names().iter().map(buffer).collect();
    request.call = Call {
        kind,
        buffers,
        ..call.clone()
    };
    let least = match kind {
        Kind::Laws => door::requests::REPORT_WORDS,
        Kind::Read => door::requests::PROBLEM_WORDS,
        _ => 0,
    };
    request.told.resize(least, 0);
}

/// No route or empty, an entry of one small value, or zeros, over a whole entry of a matrix or table.
fn whole_entry(dice: &mut Dice, call: &mut Call) {
    let index = dice.index(call.buffers.len());
    let size = match (call.kind, index) {
        (Kind::Read, _) => return,
        (Kind::Forward, 2 | 3) => ENTRY_WORDS,
        _ => WEIGHT_WORDS,
    };
    let Some(buffer) = call.buffers.get_mut(index) else {
        return;
    };
    let mut entries: Vec<&mut [u32]> = buffer.chunks_exact_mut(size).collect();
    if entries.is_empty() {
        return;
    }
    let at = dice.index(entries.len());
    let entry = &mut entries[at];
    if dice.percent(40) {
        entry.fill(ONES);
        return;
    }
    entry.fill(0);
    let value = dice.pick(&[0, 1, 2, 3, 9, 65_535]);
    entry[dice.pick(&[0, 0, 0, 1, size - 1])] = value;
}

/// Another n, or the same, with buffers of the right lengths.
fn right_lengths(dice: &mut Dice, call: &mut Call) {
    let any = 1 + dice.index(16) as u32;
    call.n = dice.pick(&[call.n, call.n, 1, 2, 3, 4, any]).clamp(1, 16);
    call.m = call.m.clamp(1, 32);
    let nodes = call.n as usize;
    let table = nodes * call.m as usize * ENTRY_WORDS;
    let fill = dice.pick(&[ONES, ONES, 0]);
    for (name, buffer) in call.kind.buffer_names().iter().zip(&mut call.buffers) {
        match (call.kind, *name) {
            (Kind::Read, _) | (_, "list") => {}
            (_, "mapping" | "f") => buffer.resize(table, fill),
            _ => buffer.resize(matrix_words(nodes), fill),
        }
    }
}

/// The best matrix over the arcs for r or the new matrix, where there can be one.
fn best_matrix(request: &mut Request) {
    let Ok(numbers) = <[u16; 9]>::try_from(request.language.as_slice()) else {
        return;
    };
    let language = language_of(&numbers.map(u32::from));
    let call = &mut request.call;
    let sound = check_language(&language).is_ok() && check_nodes(call.n).is_ok();
    let at = match call.kind {
        Kind::Steps | Kind::Equation | Kind::Forward | Kind::NextHop => 1,
        Kind::LentRow | Kind::WhichRefusal => 2,
        _ => return,
    };
    if sound {
        call.buffers[at] = best_words(&language, call.n, &call.buffers[0]);
    }
}

/// Some steps that there are, at the end of a list.
fn add_steps(dice: &mut Dice, call: &mut Call) {
    if call.kind != Kind::Steps {
        return;
    }
    for _ in 0..dice.pick(&[1, 2, 8, 40]) {
        let node = dice.index(call.n.clamp(1, 16) as usize) as u32;
        let start = dice.pick(&[0, SETTLE_FROM]);
        call.buffers[2].push(start + node);
    }
}

/// Cuts a list that the independent implementation would run for long; most of what runs long also runs cut.
fn shorten_list(dice: &mut Dice, call: &mut Call) {
    if call.kind != Kind::Steps || call.n > 16 || call.buffers[2].len() > 4_096 {
        return;
    }
    let nodes = call.n as usize;
    let budget = if dice.percent(1) { RARELY } else { MOSTLY };
    let mut joins = 0;
    let mut fits = |step: &u32| {
        joins += nodes * nodes * if *step < SETTLE_FROM { 1 } else { nodes };
        joins <= budget
    };
    let length = call.buffers[2].iter().take_while(|step| fits(step)).count();
    call.buffers[2].truncate(length);
}
