//! Mapping and forwarding tables: entries of a route and an outside number, the plain, hot
//! and cold rules, and the forwarding call.

use crate::laws::check_laws;
use crate::matrices::{matrices_from_words, matrix_words, satisfies_equation, Matrix};
use crate::refusals::{
    check_language, check_length, check_nodes, refusal_of, Checked, Refusal, BUFFER_A, BUFFER_F,
    BUFFER_M, BUFFER_R,
};
use crate::weights::{
    is_better, join, weight_from_words, weight_to_words, Language, Weight, ARC_LIMIT, ONES,
    WEIGHT_WORDS,
};

/// Words per entry: a route and t.
pub const ENTRY_WORDS: usize = 5;
pub const PLAIN: u32 = 1;
pub const HOT: u32 = 2;
pub const COLD: u32 = 3;
/// The largest outside number.
pub const MOST_OUTSIDE: u32 = 65_535;

/// A route and its outside number t, or `None` for an empty entry.
pub type Entry = Option<(Vec<u64>, u32)>;

/// n x m entries by rows.
#[derive(Clone, Debug, PartialEq, Eq)]
pub struct Table {
    pub destinations: usize,
    entries: Vec<Entry>,
}

impl Table {
    pub fn at(&self, node: usize, destination: usize) -> &Entry {
        &self.entries[node * self.destinations + destination]
    }

    pub fn to_words(&self) -> Vec<u32> {
        self.entries.iter().flat_map(entry_to_words).collect()
    }

    /// The table in a buffer, or the index of the first word of its first bad entry.
    pub fn from_words(
        language: &Language,
        destinations: usize,
        mode: u32,
        words: &[u32],
        sum_limit: u64,
    ) -> Result<Table, usize> {
        let mut entries = Vec::new();
        for (index, entry) in words.chunks(ENTRY_WORDS).enumerate() {
            let entry = entry_from_words(language, mode, entry, sum_limit);
            entries.push(entry.ok_or(index * ENTRY_WORDS)?);
        }
        Ok(Table {
            destinations,
            entries,
        })
    }
}

/// The entry in five words, or `None` when they are malformed or out of range.
pub fn entry_from_words(
    language: &Language,
    mode: u32,
    words: &[u32],
    sum_limit: u64,
) -> Option<Entry> {
    if words.len() != ENTRY_WORDS {
        return None;
    }
    if words.iter().all(|word| *word == ONES) {
        return Some(None);
    }
    let outside = words[WEIGHT_WORDS];
    let highest = if mode == PLAIN { 0 } else { MOST_OUTSIDE };
    // Four words of ones with a t are no route but not empty, so they are malformed.
    let route = weight_from_words(language, &words[..WEIGHT_WORDS], sum_limit)??;
    (outside <= highest).then_some(Some((route, outside)))
}

pub fn entry_to_words(entry: &Entry) -> [u32; ENTRY_WORDS] {
    let mut words = [ONES; ENTRY_WORDS];
    if let Some((route, outside)) = entry {
        words[..WEIGHT_WORDS].copy_from_slice(&weight_to_words(&Some(route.clone())));
        words[WEIGHT_WORDS] = *outside;
    }
    words
}

/// Joins the weight and keeps t; no route or empty gives empty.
pub fn apply(language: &Language, weight: &Weight, entry: &Entry) -> Entry {
    let (route, outside) = entry.as_ref()?;
    let joined = join(language, weight, &Some(route.clone()))?;
    Some((joined, *outside))
}

/// Whether `first` is strictly better by the mode's rule; empty is worst.
pub fn entry_is_better(language: &Language, mode: u32, first: &Entry, second: &Entry) -> bool {
    let Some((first_route, first_t)) = first else {
        return false;
    };
    let Some((second_route, second_t)) = second else {
        return true;
    };
    let lighter = is_better(
        language,
        &Some(first_route.clone()),
        &Some(second_route.clone()),
    );
    match mode {
        PLAIN => lighter,
        HOT if first_route == second_route => first_t < second_t,
        HOT => lighter,
        _ if first_t == second_t => lighter,
        _ => first_t < second_t,
    }
}

/// The best over k of matrix(i,k) applied to table(k,d), and of a start entry.
fn best_applied(
    (language, mode): (&Language, u32),
    matrix: &Matrix,
    table: &Table,
    (i, d): (usize, usize),
    start: Entry,
) -> Entry {
    (0..matrix.nodes).fold(start, |best, k| {
        let candidate = apply(language, matrix.at(i, k), table.at(k, d));
        if entry_is_better(language, mode, &candidate, &best) {
            candidate
        } else {
            best
        }
    })
}

/// Routing applied to mapping.
pub fn forwarding_table(language: &Language, mode: u32, r: &Matrix, mapping: &Table) -> Table {
    let mut entries = Vec::new();
    for i in 0..r.nodes {
        for d in 0..mapping.destinations {
            entries.push(best_applied((language, mode), r, mapping, (i, d), None));
        }
    }
    Table {
        destinations: mapping.destinations,
        entries,
    }
}

/// Whether F = (A applied to F) best M.
pub fn satisfies_forwarding_equation(
    language: &Language,
    mode: u32,
    a: &Matrix,
    f: &Table,
    mapping: &Table,
) -> bool {
    let rule = (language, mode);
    let holds_at = |i: usize, d: usize| {
        let start = mapping.at(i, d).clone();
        *f.at(i, d) == best_applied(rule, a, f, (i, d), start)
    };
    (0..a.nodes).all(|i| (0..f.destinations).all(|d| holds_at(i, d)))
}

/// Writes the forwarding table F.
#[allow(clippy::too_many_arguments)]
pub fn forward(
    language: &Language,
    n: u32,
    m: u32,
    mode: u32,
    a: &[u32],
    r: &[u32],
    mapping: &[u32],
    f: &mut [u32],
) -> Refusal {
    let sizes = check_sizes(n, m, mode);
    let lengths = [a.len(), r.len(), mapping.len(), f.len()];
    let checked = sizes.and_then(|(nodes, destinations)| {
        check_shape(language, nodes, destinations, mode, lengths)?;
        let (a, r) = matrices_from_words(language, nodes, a, r)?;
        let mapping = Table::from_words(language, destinations, mode, mapping, ARC_LIMIT)
            .map_err(|word| Refusal::new(6, BUFFER_M, word as u32))?;
        if !satisfies_equation(language, &a, &r) {
            return Err(Refusal::new(12, BUFFER_R, 0));
        }
        Ok(forwarding_table(language, mode, &r, &mapping))
    });
    if let Ok(table) = &checked {
        f.copy_from_slice(&table.to_words());
    }
    refusal_of(&checked)
}

/// 3: with m 0 no mode is right, so the mode is what is named.
fn check_sizes(n: u32, m: u32, mode: u32) -> Checked<(usize, usize)> {
    let nodes = check_nodes(n)?;
    if m > 32 {
        return Err(Refusal::new(3, 2, 0));
    }
    if m == 0 || !(PLAIN..=COLD).contains(&mode) {
        return Err(Refusal::new(3, 3, 0));
    }
    Ok((nodes, m as usize))
}

/// 5, 4, 9 and 10.
fn check_shape(
    language: &Language,
    nodes: usize,
    destinations: usize,
    mode: u32,
    lengths: [usize; 4],
) -> Checked<()> {
    check_language(language)?;
    let table_words = nodes * destinations * ENTRY_WORDS;
    check_length(BUFFER_A, lengths[0], matrix_words(nodes))?;
    check_length(BUFFER_R, lengths[1], matrix_words(nodes))?;
    check_length(BUFFER_M, lengths[2], table_words)?;
    check_length(BUFFER_F, lengths[3], table_words)?;
    check_laws(language, mode == HOT)
}
