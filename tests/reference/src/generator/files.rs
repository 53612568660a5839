//! Random problem files: sound ones, as parts that a driver can change before they are
//! written, and damaged ones, each damage aimed at a case of the refusal table.

use super::networks::{mapping_table, network, Spread};
use super::{any_language, cancelling_language, lawful_language, Dice};
use crate::forwarding::ENTRY_WORDS;
use crate::weights::{Component, Language, ONES, WEIGHT_WORDS};

/// The parts of a file; the byte count is worked out when it is written.
#[derive(Clone, Debug, PartialEq, Eq)]
pub struct FileParts {
    /// Version, n, m, mode.
    pub header: [u8; 4],
    pub language: Vec<u8>,
    pub arc_count: u16,
    pub arcs: Vec<Vec<u8>>,
    pub attachment_count: u16,
    pub attachments: Vec<Vec<u8>>,
    pub tail: Vec<u8>,
}

impl FileParts {
    pub fn bytes(&self) -> Vec<u8> {
        let mut body = self.header.to_vec();
        body.extend(&self.language);
        body.extend(self.arc_count.to_be_bytes());
        body.extend(self.arcs.concat());
        body.extend(self.attachment_count.to_be_bytes());
        body.extend(self.attachments.concat());
        body.extend(&self.tail);
        counted(&body)
    }
}

/// The body after its own right byte count.
fn counted(body: &[u8]) -> Vec<u8> {
    let mut bytes = (body.len() as u32).to_be_bytes().to_vec();
    bytes.extend(body);
    bytes
}

/// Tags and limits; a product splits the list at any place.
fn language_bytes(dice: &mut Dice, components: &[Component]) -> Vec<u8> {
    match components {
        [] => Vec::new(),
        [component] => component_bytes(*component),
        _ => {
            let split = 1 + dice.index(components.len() - 1);
            let mut bytes = vec![5];
            bytes.extend(language_bytes(dice, &components[..split]));
            bytes.extend(language_bytes(dice, &components[split..]));
            bytes
        }
    }
}

fn component_bytes(component: Component) -> Vec<u8> {
    let with_limit = |tag: u8, limit: u16| {
        let [high, low] = limit.to_be_bytes();
        vec![tag, high, low]
    };
    match component {
        Component::Dist => vec![1],
        Component::Width(limit) => with_limit(2, limit),
        Component::Class(limit) => with_limit(3, limit),
        Component::Gain => vec![4],
    }
}

/// One record per entry that holds a route, by rows.
fn records(
    words: &[u32],
    columns: u32,
    entry_words: usize,
    language: &Language,
    with_t: bool,
) -> Vec<Vec<u8>> {
    let mut list = Vec::new();
    for (index, entry) in words.chunks(entry_words).enumerate() {
        if entry[0] == ONES {
            continue;
        }
        let (row, column) = (index as u32 / columns, index as u32 % columns);
        let mut record = vec![row as u8, column as u8];
        let values = entry[..language.components().len()].iter();
        let outside = entry.get(WEIGHT_WORDS).filter(|_| with_t);
        for number in values.chain(outside) {
            record.extend((*number as u16).to_be_bytes());
        }
        list.push(record);
    }
    list
}

/// A sound file's parts; half of the languages are lawful, a quarter cancelling too.
pub fn sound_parts(dice: &mut Dice) -> FileParts {
    let language = match dice.below(4) {
        0 => any_language(dice),
        1 => cancelling_language(dice),
        _ => lawful_language(dice),
    };
    let (most_nodes, most_destinations) = dice.pick(&[(5, 4), (5, 4), (5, 32), (16, 4), (16, 32)]);
    let n = dice.between(1, most_nodes) as u32;
    let m = dice.between(0, most_destinations) as u32;
    let mode = if m == 0 { 0 } else { dice.between(1, 3) as u32 };
    let density = dice.between(0, 100);
    let spread = dice.pick(&[Spread::Small, Spread::Large, Spread::Mixed]);
    let a = network(dice, &language, n, density, spread);
    let mapping = mapping_table(dice, &language, (n, m), mode, density, spread);
    let arcs = records(&a, n, WEIGHT_WORDS, &language, false);
    let attachments = records(&mapping, m.max(1), ENTRY_WORDS, &language, mode >= 2);
    FileParts {
        header: [1, n as u8, m as u8, mode as u8],
        language: language_bytes(dice, language.components()),
        arc_count: arcs.len() as u16,
        arcs,
        attachment_count: attachments.len() as u16,
        attachments,
        tail: Vec::new(),
    }
}

/// A file that the reader takes.
pub fn sound_file(dice: &mut Dice) -> Vec<u8> {
    sound_parts(dice).bytes()
}

/// A file with some damage; now and then it happens to be sound.
pub fn damaged_file(dice: &mut Dice) -> Vec<u8> {
    let mut parts = sound_parts(dice);
    match dice.below(12) {
        0..=4 => damage_bytes(dice, parts.bytes()),
        5 => damage_counts(dice, parts),
        6 => unsort(dice, parts),
        7 => {
            parts.tail = (0..=dice.below(4)).map(|_| dice.roll() as u8).collect();
            parts.bytes()
        }
        8 => damage_header(dice, parts),
        9 => damage_language(dice, parts),
        10 => damage_record(dice, parts),
        _ => random_body(dice),
    }
}

/// Cuts, changes or lengthens the written bytes, with or without putting the count right.
fn damage_bytes(dice: &mut Dice, mut bytes: Vec<u8>) -> Vec<u8> {
    let at = dice.index(bytes.len());
    match dice.below(5) {
        0 => bytes.truncate(at),
        1 => {
            bytes.truncate(at.max(4));
            bytes = counted(&bytes[4..]);
        }
        2 => bytes[at] = dice.roll() as u8,
        3 => bytes[at] ^= 1 << dice.below(8),
        _ => bytes.push(dice.roll() as u8),
    }
    bytes
}

fn damage_counts(dice: &mut Dice, mut parts: FileParts) -> Vec<u8> {
    let change = dice.pick(&[1, u16::MAX, 2, 256]);
    if dice.percent(50) {
        parts.arc_count = parts.arc_count.wrapping_add(change);
    } else {
        parts.attachment_count = parts.attachment_count.wrapping_add(change);
    }
    parts.bytes()
}

/// Swaps two records, or writes one twice.
fn unsort(dice: &mut Dice, mut parts: FileParts) -> Vec<u8> {
    let in_arcs = dice.percent(50);
    let (list, count) = if in_arcs {
        (&mut parts.arcs, &mut parts.arc_count)
    } else {
        (&mut parts.attachments, &mut parts.attachment_count)
    };
    if !list.is_empty() {
        let (one, other) = (dice.index(list.len()), dice.index(list.len()));
        if one == other {
            list.insert(one, list[other].clone());
            *count += 1;
        } else {
            list.swap(one, other);
        }
    }
    parts.bytes()
}

fn damage_header(dice: &mut Dice, mut parts: FileParts) -> Vec<u8> {
    let field = dice.index(4);
    parts.header[field] = dice.pick(&[0, 1, 2, 3, 4, 16, 17, 32, 33, 255]);
    parts.bytes()
}

/// A product too many, a tag nobody knows, a width without a value, or a language cut short.
fn damage_language(dice: &mut Dice, mut parts: FileParts) -> Vec<u8> {
    match dice.below(4) {
        0 => parts.language = vec![5, 5, 5, 1, 1, 5, 1, 1, 1],
        1 => parts.language[0] = dice.pick(&[0, 6, 7, 255]),
        2 => parts.language = vec![5, 1, 2, 0, 0],
        _ => {
            let keep = dice.index(parts.language.len());
            parts.language.truncate(keep);
            let mut body = parts.header.to_vec();
            body.extend(&parts.language);
            return counted(&body);
        }
    }
    parts.bytes()
}

/// Changes one byte of a record: a node, a destination, a value or t.
fn damage_record(dice: &mut Dice, mut parts: FileParts) -> Vec<u8> {
    let in_arcs = dice.percent(50);
    let list = if in_arcs {
        &mut parts.arcs
    } else {
        &mut parts.attachments
    };
    if !list.is_empty() {
        let record = dice.index(list.len());
        let at = dice.index(list[record].len());
        list[record][at] = dice.pick(&[0, 1, 16, 32, 255]);
    }
    parts.bytes()
}

/// A right byte count and version, then bytes that are mostly small.
fn random_body(dice: &mut Dice) -> Vec<u8> {
    let mut body = vec![1];
    for _ in 0..dice.below(40) {
        let any = dice.roll() as u8;
        body.push(dice.pick(&[0, 1, 1, 2, 3, 4, 5, any]));
    }
    counted(&body)
}
