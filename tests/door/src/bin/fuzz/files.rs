//! Mutations of a file's bytes, one in each word; mostly with the byte count put right after it.

use compare::calls::{Call, Kind};
use reference::generator::Dice;

/// The bytes of the count.
const COUNT: usize = 4;
const BYTES: [u32; 14] = [0, 1, 2, 3, 4, 5, 6, 15, 16, 17, 31, 32, 33, 255];
/// The most bytes of a file that grows: above the largest that is read, 8,731.
const MOST_BYTES: usize = 10_000;

pub fn mutate(dice: &mut Dice, file: &mut Vec<u32>, second: &Call) {
    match dice.below(9) {
        0 => change_byte(dice, file, |dice, byte| byte ^ (1 << dice.below(8))),
        1 | 2 => change_byte(dice, file, |dice, _| dice.pick(&BYTES)),
        3 => change_byte(dice, file, |dice, byte| {
            dice.pick(&[byte.wrapping_add(1), byte.wrapping_sub(1)]) & 0xFF
        }),
        4 => insert(dice, file, second),
        5 => remove(dice, file),
        6 => repeat(dice, file),
        7 => file.truncate(dice.index(file.len() + 1)),
        _ => exchange(dice, file),
    }
    file.truncate(MOST_BYTES);
    if dice.percent(85) {
        put_count_right(file);
    }
}

fn put_count_right(file: &mut [u32]) {
    if let Some(after) = file.len().checked_sub(COUNT) {
        let bytes = (after as u32).to_be_bytes().map(u32::from);
        file[..COUNT].copy_from_slice(&bytes);
    }
}

fn change_byte(dice: &mut Dice, file: &mut [u32], new: impl Fn(&mut Dice, u32) -> u32) {
    if !file.is_empty() {
        // the header and the language are met as often as all that follows
        let most = dice.pick(&[file.len(), file.len().min(24)]);
        let at = dice.index(most);
        file[at] = new(dice, file[at]);
    }
}

/// A range of up to a dozen bytes, about a record.
fn range(dice: &mut Dice, length: usize) -> std::ops::Range<usize> {
    let start = dice.index(length + 1);
    let end = start + 1 + dice.index(12);
    start..end.min(length)
}

/// Some bytes, of another file where the other call has one.
fn insert(dice: &mut Dice, file: &mut Vec<u32>, second: &Call) {
    let at = dice.index(file.len() + 1);
    let bytes = if second.kind == Kind::Read && dice.percent(60) {
        let source = &second.buffers[0];
        source[range(dice, source.len())].to_vec()
    } else {
        let count = 1 + dice.index(4);
        (0..count).map(|_| dice.pick(&BYTES)).collect()
    };
    file.splice(at..at, bytes);
}

fn remove(dice: &mut Dice, file: &mut Vec<u32>) {
    file.drain(range(dice, file.len()));
}

fn repeat(dice: &mut Dice, file: &mut Vec<u32>) {
    let part = range(dice, file.len());
    let bytes = file[part.clone()].to_vec();
    file.splice(part.end..part.end, bytes);
}

/// Two bytes exchanged, most often neighbours or a record apart.
fn exchange(dice: &mut Dice, file: &mut [u32]) {
    if !file.is_empty() {
        let one = dice.index(file.len());
        let any = dice.index(file.len());
        let other = (one + dice.pick(&[1, 4, 6, 8, 12, any])) % file.len();
        file.swap(one, other);
    }
}
