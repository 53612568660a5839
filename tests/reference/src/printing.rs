//! The print program's whole output for a given input: laws, routes and forwarding entries,
//! or the refusal that stands in their place.

use crate::forwarding::{forward, ENTRY_WORDS, PLAIN};
use crate::laws::laws;
use crate::matrices::{fresh, matrix_words, steps};
use crate::reader::{read, ReadAnswer, ARC_ROOM, MAPPING_ROOM};
use crate::refusals::{Checked, Refusal};
use crate::weights::{ONES, WEIGHT_WORDS};

/// Longer inputs are refused unread.
pub const MOST_INPUT: usize = 65_536;

/// What the program prints for these bytes.
pub fn print(bytes: &[u8]) -> String {
    let mut text = String::new();
    if let Err(refusal) = print_parts(bytes, &mut text) {
        let Refusal {
            number,
            which,
            place,
        } = refusal;
        text += &format!("REFUSED {number} {which} {place}\n");
    }
    text
}

/// Adds each part as soon as it is known; a refusal ends the output.
fn print_parts(bytes: &[u8], text: &mut String) -> Checked<()> {
    if bytes.len() > MOST_INPUT {
        return Err(Refusal::new(1, 0, 0));
    }
    let mut arcs = vec![0; ARC_ROOM];
    let mut mapping = vec![0; MAPPING_ROOM];
    let answer = read(bytes, &mut arcs, &mut mapping);
    done_or(answer.refusal)?;
    let (nodes, destinations) = (answer.n as usize, answer.m as usize);
    arcs.truncate(matrix_words(nodes));
    mapping.truncate(nodes * destinations * ENTRY_WORDS);
    *text += &laws_line(&answer);
    let routes = swept_matrix(&answer, &arcs)?;
    *text += &route_lines(&answer, &routes);
    if destinations > 0 {
        let table = forwarding_words(&answer, &arcs, &routes, &mapping)?;
        *text += &forwarding_lines(&answer, &table);
    }
    Ok(())
}

fn done_or(refusal: Refusal) -> Checked<()> {
    if refusal.is_done() {
        Ok(())
    } else {
        Err(refusal)
    }
}

fn laws_line(answer: &ReadAnswer) -> String {
    let [d, u, c] = laws(&answer.language).held.map(u32::from);
    format!("LAWS {d} {u} {c}\n")
}

/// Rows 0..n-1 in order, n-1 times, from fresh.
fn swept_matrix(answer: &ReadAnswer, arcs: &[u32]) -> Checked<Vec<u32>> {
    let mut routes = vec![0; matrix_words(answer.n as usize)];
    done_or(fresh(&answer.language, answer.n, &mut routes))?;
    let list: Vec<u32> = (1..answer.n).flat_map(|_| 0..answer.n).collect();
    let (refusal, _) = steps(&answer.language, answer.n, arcs, &mut routes, &list);
    done_or(refusal)?;
    Ok(routes)
}

fn forwarding_words(
    answer: &ReadAnswer,
    arcs: &[u32],
    routes: &[u32],
    mapping: &[u32],
) -> Checked<Vec<u32>> {
    let mut table = vec![0; mapping.len()];
    let ReadAnswer {
        n,
        m,
        mode,
        language,
        ..
    } = answer;
    let refusal = forward(language, *n, *m, *mode, arcs, routes, mapping, &mut table);
    done_or(refusal)?;
    Ok(table)
}

fn route_lines(answer: &ReadAnswer, routes: &[u32]) -> String {
    let nodes = answer.n as usize;
    let components = answer.language.count as usize;
    let mut lines = String::new();
    for (index, words) in routes.chunks(WEIGHT_WORDS).enumerate() {
        let (from, to) = (index / nodes, index % nodes);
        lines += &format!("R {from} {to} {}\n", numbers(words, &words[..components]));
    }
    lines
}

fn forwarding_lines(answer: &ReadAnswer, table: &[u32]) -> String {
    let destinations = answer.m as usize;
    let components = answer.language.count as usize;
    let mut lines = String::new();
    for (index, words) in table.chunks(ENTRY_WORDS).enumerate() {
        let (node, destination) = (index / destinations, index % destinations);
        let mut shown = words[..components].to_vec();
        if answer.mode != PLAIN {
            shown.push(words[WEIGHT_WORDS]);
        }
        lines += &format!("F {node} {destination} {}\n", numbers(words, &shown));
    }
    lines
}

/// The shown numbers of an entry, or "-" where its words are all ones.
fn numbers(words: &[u32], shown: &[u32]) -> String {
    if words.iter().all(|word| *word == ONES) {
        return "-".to_string();
    }
    let shown: Vec<String> = shown.iter().map(u32::to_string).collect();
    shown.join(" ")
}
