//! Generated calls, each from a seed of its own: a valid call, and often some damages on it, so
//! that the order of the refusals is tried too.

use reference::forwarding::{ENTRY_WORDS, HOT};
use reference::generator::{
    any_language, best_words, cancelling_language, damage_entry, damaged_file, damaged_language,
    damaged_step_list, lawful_language, mapping_table, sound_file, Dice, Spread,
};
use reference::reader::{ARC_ROOM, MAPPING_ROOM};
use reference::weights::{ONES, WEIGHT_WORDS};
use reference::Language;

use crate::calls::{language_words, Call, Kind, LanguageWords};
use crate::networks::{nodes, routing, step_list};

/// What the program has room for in a matrix, and in a table, that a call writes.
const ROOM: usize = 1_280;
#[cfg(test)]
const TABLE_ROOM: usize = 2_816;
/// A file of more bytes does not fit a request.
const FILE_ROOM: usize = 9_000;
const BAD_COUNTS: [u32; 6] = [0, 5, 6, 255, 65_536, u32::MAX];
const BAD_NODES: [u32; 8] = [0, 17, 18, 255, 256, 65_537, 1 << 30, u32::MAX];

/// The call of a seed.
pub fn call(seed: u64) -> Call {
    let mut dice = Dice::new(seed);
    match dice.below(44) {
        0..=2 => laws_call(&mut dice),
        3..=4 => fresh_call(&mut dice),
        5..=11 => steps_call(&mut dice),
        12..=15 => equation_call(&mut dice),
        16..=23 => forward_call(&mut dice),
        24..=27 => hop_call(&mut dice),
        28..=31 => handover_call(&mut dice, Kind::LentRow),
        32..=35 => handover_call(&mut dice, Kind::WhichRefusal),
        36..=39 => read_call(&mut dice),
        _ => print_call(&mut dice),
    }
}

fn laws_call(dice: &mut Dice) -> Call {
    let language = match dice.below(10) {
        0..=4 => any_language(dice),
        5..=7 => lawful_language(dice),
        _ => damaged_language(dice),
    };
    let mut words = language_words(&language);
    if dice.percent(15) {
        spoil_component(dice, &mut words);
    }
    Call::new(Kind::Laws, words, dice.roll() as u32, vec![])
}

fn fresh_call(dice: &mut Dice) -> Call {
    let language = lawful_language(dice);
    let n = nodes(dice);
    let r = (0..matrix_words(n)).map(|_| dice.roll() as u32).collect();
    damaged(dice, Kind::Fresh, &language, n, vec![r])
}

fn steps_call(dice: &mut Dice) -> Call {
    let language = lawful_language(dice);
    let (n, case) = routing(dice, &language);
    let list = step_list(dice, n);
    let buffers = vec![case.arcs, case.matrix, list];
    damaged(dice, Kind::Steps, &language, n, buffers)
}

fn equation_call(dice: &mut Dice) -> Call {
    let language = lawful_language(dice);
    let (n, mut case) = routing(dice, &language);
    if dice.percent(20) {
        nudge_entry(dice, &mut case.matrix);
    }
    damaged(
        dice,
        Kind::Equation,
        &language,
        n,
        vec![case.arcs, case.matrix],
    )
}

/// Mostly a matrix that satisfies the equation, since all others are refused with 12.
fn forward_call(dice: &mut Dice) -> Call {
    let mode = dice.pick(&[1, 2, 2, 3]);
    let language = if mode == HOT && dice.percent(80) {
        cancelling_language(dice)
    } else {
        lawful_language(dice)
    };
    let (n, case) = routing(dice, &language);
    let most = dice.between(1, 32) as u32;
    let m = dice.pick(&[1, 1, 2, 3, 5, most]);
    let matrix = if dice.percent(70) {
        best_words(&language, n, &case.arcs)
    } else {
        case.matrix
    };
    let density = dice.between(0, 100);
    let spread = dice.pick(&[Spread::Small, Spread::Large, Spread::Mixed]);
    let mapping = mapping_table(dice, &language, (n, m), mode, density, spread);
    let f = (0..mapping.len()).map(|_| dice.roll() as u32).collect();
    let buffers = vec![case.arcs, matrix, mapping, f];
    let mut call = damaged(dice, Kind::Forward, &language, n, buffers);
    (call.m, call.mode) = (m, mode);
    spoil_table(dice, &mut call);
    call
}

/// Sometimes another m, mode, length or entry of a table.
fn spoil_table(dice: &mut Dice, call: &mut Call) {
    match dice.below(20) {
        0 => call.m = dice.pick(&[0, 33, 34, 255, 256, 65_537, u32::MAX]),
        1 => call.mode = dice.pick(&[0, 4, 5, 255, 257, 65_538, u32::MAX]),
        2 => call.mode = dice.pick(&[1, 2, 3]),
        3 => {
            let longer = call.buffers[2].len() + dice.pick(&[1, 5]);
            call.buffers[2].resize(longer, ONES);
        }
        4 => {
            let shorter = call.buffers[3].len().saturating_sub(dice.pick(&[1, 5]));
            call.buffers[3].truncate(shorter);
        }
        5..=7 => damage_entry(dice, &mut call.buffers[2], ENTRY_WORDS),
        8 => nudge_entry(dice, &mut call.buffers[1]),
        _ => {}
    }
}

fn hop_call(dice: &mut Dice) -> Call {
    let language = lawful_language(dice);
    let (n, case) = routing(dice, &language);
    let mut call = damaged(
        dice,
        Kind::NextHop,
        &language,
        n,
        vec![case.arcs, case.matrix],
    );
    call.i = node(dice, n);
    call.j = node(dice, n);
    call
}

/// A node, or sometimes none.
fn node(dice: &mut Dice, n: u32) -> u32 {
    let any = dice.index(n as usize) as u32;
    dice.pick(&[any, any, any, any, any, any, any, any, n, u32::MAX])
}

/// The new matrix is often the best or nearly so, and the standing one holds anything.
fn handover_call(dice: &mut Dice, kind: Kind) -> Call {
    let language = lawful_language(dice);
    let (n, case) = routing(dice, &language);
    let mut newer = if dice.percent(60) {
        best_words(&language, n, &case.arcs)
    } else {
        case.matrix
    };
    match dice.below(10) {
        0 => nudge_entry(dice, &mut newer),
        1 => damage_entry(dice, &mut newer, WEIGHT_WORDS),
        2 => torn_entry(dice, &mut newer),
        _ => {}
    }
    let standing = (0..newer.len()).map(|_| dice.roll() as u32).collect();
    let mut call = damaged(dice, kind, &language, n, vec![case.arcs, newer, standing]);
    if dice.percent(5) {
        let longer = call.buffers[2].len() + dice.pick(&[1, 4]);
        call.buffers[2].resize(longer, 0);
    }
    call.buffers.swap(1, 2);
    call.i = node(dice, n);
    call
}

/// No route with a word of it lost, where there is one.
fn torn_entry(dice: &mut Dice, words: &mut [u32]) {
    let is_none = |entry: &&mut [u32]| entry.iter().all(|word| *word == ONES);
    if let Some(entry) = words.chunks_mut(WEIGHT_WORDS).find(is_none) {
        entry[dice.index(WEIGHT_WORDS)..].fill(0);
        entry[0] = ONES;
    }
}

/// Cuts of one file: at each offset below this, as it is and with its count put right.
const CUTS: u64 = 200;

/// The file of a seed: sound, damaged, or a sound one that is cut.
pub fn file(seed: u64) -> Vec<u8> {
    let mut dice = Dice::new(seed);
    match seed % 10 {
        0..=3 => any_sound_file(&mut dice),
        4..=7 => any_damaged_file(&mut dice),
        8 => cut_file(seed / 10, false),
        _ => cut_file(seed / 10, true),
    }
}

/// One small file after the other, each cut at every offset in turn.
fn cut_file(turn: u64, recounted: bool) -> Vec<u8> {
    let seeds = (0..).map(|attempt: u64| turn / CUTS + (attempt << 32));
    let mut files = seeds.map(|seed| any_sound_file(&mut Dice::new(seed)));
    let small = files.find(|file| file.len() < CUTS as usize);
    let mut file = small.expect("some file is small");
    file.truncate((turn % CUTS) as usize);
    if recounted && file.len() >= 4 {
        let count = (file.len() - 4) as u32;
        file[..4].copy_from_slice(&count.to_be_bytes());
    }
    file
}

fn any_sound_file(dice: &mut Dice) -> Vec<u8> {
    let mut file = sound_file(dice);
    file.truncate(FILE_ROOM);
    file
}

fn any_damaged_file(dice: &mut Dice) -> Vec<u8> {
    let mut file = damaged_file(dice);
    file.truncate(FILE_ROOM);
    file
}

fn any_file(dice: &mut Dice, sound: u64) -> Vec<u8> {
    if dice.percent(sound) {
        any_sound_file(dice)
    } else {
        any_damaged_file(dice)
    }
}

fn words_of(file: &[u8]) -> Vec<u32> {
    file.iter().map(|byte| u32::from(*byte)).collect()
}

/// The file of a seed, read into buffers of the least length, and printed.
pub fn file_calls(seed: u64) -> [Call; 2] {
    let mut dice = Dice::new(seed);
    let bytes = words_of(&file(seed));
    let mut filled = |room: usize| (0..room).map(|_| dice.roll() as u32).collect();
    let buffers = vec![bytes.clone(), filled(ARC_ROOM), filled(MAPPING_ROOM)];
    [
        Call::new(Kind::Read, [0; 9], 0, buffers),
        Call::new(Kind::Print, [0; 9], 0, vec![bytes]),
    ]
}

/// A file with a byte in each word, and buffers that are mostly long enough.
fn read_call(dice: &mut Dice) -> Call {
    let bytes = words_of(&any_file(dice, 40));
    let arcs = buffer_for(dice, ARC_ROOM);
    let mapping = buffer_for(dice, MAPPING_ROOM);
    let mut call = Call::new(Kind::Read, [0; 9], 0, vec![bytes, arcs, mapping]);
    fill_unused(dice, &mut call);
    call
}

/// A file alone, more often sound.
fn print_call(dice: &mut Dice) -> Call {
    let bytes = words_of(&any_file(dice, 70));
    let mut call = Call::new(Kind::Print, [0; 9], 0, vec![bytes]);
    fill_unused(dice, &mut call);
    call
}

fn buffer_for(dice: &mut Dice, room: usize) -> Vec<u32> {
    let length = dice.pick(&[
        room,
        room,
        room,
        room + 1,
        room + 100,
        room + 200,
        room - 1,
        0,
    ]);
    (0..length).map(|_| dice.roll() as u32).collect()
}

fn matrix_words(n: u32) -> usize {
    let nodes = n as usize;
    nodes * nodes * WEIGHT_WORDS
}

/// The call with none, one or several damages.
fn damaged(
    dice: &mut Dice,
    kind: Kind,
    language: &Language,
    n: u32,
    buffers: Vec<Vec<u32>>,
) -> Call {
    let mut call = Call::new(kind, language_words(language), n, buffers);
    let damages = dice.pick(&[0, 0, 0, 0, 0, 1, 1, 1, 2, 3]);
    for _ in 0..damages {
        damage(dice, &mut call);
    }
    fill_unused(dice, &mut call);
    call
}

/// Numbers that the call does not take hold anything.
fn fill_unused(dice: &mut Dice, call: &mut Call) {
    for number in [&mut call.m, &mut call.mode, &mut call.i, &mut call.j] {
        *number = dice.pick(&[0, 1, u32::MAX]);
    }
}

fn damage(dice: &mut Dice, call: &mut Call) {
    match dice.below(11) {
        0 => call.n = dice.pick(&BAD_NODES),
        1 => seventeen_nodes(call),
        2 => call.language[0] = dice.pick(&BAD_COUNTS),
        3 => width_without_value(dice, &mut call.language),
        4 => spoil_component(dice, &mut call.language),
        5 => call.language = language_words(&any_language(dice)),
        6 => change_length(dice, call),
        7 | 8 => spoil_entry(dice, call),
        9 => spoil_list(dice, call),
        _ => call.n = nodes(dice),
    }
}

/// One node too many, with buffers of the length that it would have.
fn seventeen_nodes(call: &mut Call) {
    call.n = 17;
    for index in matrices(call) {
        call.buffers[index].resize(matrix_words(17), ONES);
    }
}

fn width_without_value(dice: &mut Dice, language: &mut LanguageWords) {
    let place = dice.index(4);
    language[1 + 2 * place] = 2;
    language[2 + 2 * place] = 0;
}

/// A kind that is unknown, or a limit above 16 bits.
fn spoil_component(dice: &mut Dice, language: &mut LanguageWords) {
    let place = dice.index(4);
    if dice.percent(50) {
        language[1 + 2 * place] = dice.pick(&[0, 5, 6, 255, 257, 65_537, u32::MAX]);
    } else {
        language[2 + 2 * place] = dice.pick(&[65_536, 65_537, 1 << 31, u32::MAX]);
    }
}

/// The buffers that are matrices; a list or a table is the third.
fn matrices(call: &Call) -> std::ops::Range<usize> {
    match call.kind {
        Kind::LentRow | Kind::WhichRefusal => 0..3,
        Kind::Read | Kind::Print => 0..0,
        _ => 0..call.buffers.len().min(2),
    }
}

fn change_length(dice: &mut Dice, call: &mut Call) {
    let index = dice.index(matrices(call).len());
    let buffer = &mut call.buffers[index];
    let length = buffer.len();
    let shorter = dice.pick(&[1, 1, 2, 4, 64]);
    let longer = dice.pick(&[1, 1, 2, 4, 64]);
    let lengths = [
        length.saturating_sub(shorter),
        length + longer,
        0,
        2 * length,
    ];
    let new = dice.pick(&[
        lengths[0], lengths[0], lengths[1], lengths[1], lengths[2], lengths[3],
    ]);
    buffer.resize(new.min(ROOM), ONES);
}

/// Spoils the words of an entry; they may happen to be sound.
fn spoil_entry(dice: &mut Dice, call: &mut Call) {
    let index = dice.index(matrices(call).len());
    let buffer = &mut call.buffers[index];
    let patterns = [
        [ONES, 0, 0, 0],
        [0, ONES, ONES, ONES],
        [ONES, ONES, ONES, 0],
        [0, 0, 0, 1],
        [983_026, 0, 0, 0],
        [65_536, 0, 0, 0],
    ];
    if dice.percent(60) || buffer.len() < WEIGHT_WORDS {
        damage_entry(dice, buffer, WEIGHT_WORDS);
        return;
    }
    let at = dice.index(buffer.len() / WEIGHT_WORDS) * WEIGHT_WORDS;
    buffer[at..at + WEIGHT_WORDS].copy_from_slice(&dice.pick(&patterns));
}

/// A word one more or one less, or an entry that is another's: nearly what it was.
fn nudge_entry(dice: &mut Dice, words: &mut [u32]) {
    let entries = words.len() / WEIGHT_WORDS;
    if entries == 0 {
        return;
    }
    let to = dice.index(entries) * WEIGHT_WORDS;
    if dice.percent(50) {
        let from = dice.index(entries) * WEIGHT_WORDS;
        words.copy_within(from..from + WEIGHT_WORDS, to);
    } else {
        let word = &mut words[to + dice.index(WEIGHT_WORDS)];
        *word = dice.pick(&[word.wrapping_add(1), word.wrapping_sub(1)]);
    }
}

fn spoil_list(dice: &mut Dice, call: &mut Call) {
    if call.kind == Kind::Steps {
        call.buffers[2] = damaged_step_list(dice, call.n.clamp(1, 16));
    }
}

#[cfg(test)]
mod tests {
    use super::*;

    #[test]
    fn the_same_seed_makes_the_same_call() {
        for seed in 0..200 {
            assert_eq!(call(seed), call(seed));
        }
        assert_ne!(call(1), call(2));
    }

    #[test]
    fn a_file_is_cut_at_every_offset() {
        let whole = any_sound_file(&mut Dice::new(0));
        for at in 0..whole.len().min(CUTS as usize) {
            assert_eq!(cut_file(at as u64, false), whole[..at]);
            assert_eq!(cut_file(at as u64, true).len(), at);
        }
    }

    #[test]
    fn calls_fit_the_program() {
        for seed in 0..3_000 {
            let call = call(seed);
            assert!(call.request().len() < 16_384);
            assert_eq!(call.buffers.len(), call.kind.buffer_names().len());
            assert!(matrices(&call).all(|index| call.buffers[index].len() <= ROOM));
            let tables = matrices(&call).end..call.buffers.len();
            let fits = |index: usize| call.buffers[index].len() <= TABLE_ROOM;
            assert!(call.kind != Kind::Forward || tables.clone().all(fits));
        }
    }
}
