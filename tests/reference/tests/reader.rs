//! The reader by concrete bytes: the sound case, each refusal at its offset, and the order
//! in which faults are found.

mod common;

use common::{counted, hex, printed_arcs, refusal, EMPTY, NONE, PRINTED};
use reference::{read, Component, Language, ReadAnswer, Refusal};

use Component::{Class, Dist, Gain, Width};

const MARK: u32 = 0xABCD;

/// Reads into marked buffers; a refusal must leave every mark and every other field zero.
fn read_marked(bytes: &[u8]) -> (ReadAnswer, Vec<u32>, Vec<u32>) {
    let (mut arcs, mut mapping) = (vec![MARK; 1_030], vec![MARK; 2_565]);
    let answer = read(bytes, &mut arcs, &mut mapping);
    if !answer.refusal.is_done() {
        let zeros = (answer.n, answer.m, answer.mode, answer.language);
        assert_eq!(zeros, (0, 0, 0, Language::NONE));
        assert!(arcs.iter().chain(&mapping).all(|word| *word == MARK));
    }
    (answer, arcs, mapping)
}

/// Each body, counted rightly, must be refused with this number at this offset.
fn check_refused(cases: &[(&str, u32, u32)]) {
    for (body, number, offset) in cases {
        let found = read_marked(&counted(body)).0.refusal;
        assert_eq!(found, refusal(*number, 0, *offset), "{body}");
    }
}

fn check_sound(body: &str) -> (ReadAnswer, Vec<u32>, Vec<u32>) {
    let (answer, arcs, mapping) = read_marked(&counted(body));
    assert_eq!(answer.refusal, Refusal::DONE, "{body}");
    (answer, arcs, mapping)
}

#[test]
fn the_printed_file_is_read() {
    let (answer, arcs, mapping) = read_marked(&hex(PRINTED));
    assert_eq!(answer.refusal, Refusal::DONE);
    assert_eq!((answer.n, answer.m, answer.mode), (3, 1, 3));
    assert_eq!(answer.language, Language::of(&[Dist]));
    assert_eq!(arcs[..36], printed_arcs());
    let table = [EMPTY, [0, 0, 0, 0, 7], [0, 0, 0, 0, 4]].concat();
    assert_eq!(mapping[..15], table);
    assert!(arcs[36..]
        .iter()
        .chain(&mapping[15..])
        .all(|word| *word == MARK));
}

#[test]
fn reading_1_header_fields_are_judged_one_by_one() {
    check_refused(&[
        ("01 00", 3, 5),
        ("01 11", 3, 5),
        ("01 10", 1, 6),
        ("01 01 21", 3, 6),
        ("01 01 20", 1, 7),
        ("02", 2, 4),
        ("00 00 FF FF", 2, 4),
        ("01", 1, 5),
        ("01 01 00 04", 3, 7),
        ("01 01 00 00", 1, 8),
    ]);
}

#[test]
fn reading_2_short_buffers_come_first() {
    let try_rooms = |arcs: usize, mapping: usize| {
        let (mut arcs, mut mapping) = (vec![MARK; arcs], vec![MARK; mapping]);
        let answer = read(b"nonsense", &mut arcs, &mut mapping);
        assert!(arcs.iter().chain(&mapping).all(|word| *word == MARK));
        answer.refusal
    };
    assert_eq!(try_rooms(1_023, 2_560), refusal(9, 1, 0));
    assert_eq!(try_rooms(1_024, 2_559), refusal(9, 3, 0));
    assert_eq!(try_rooms(0, 0), refusal(9, 1, 0));
    assert_eq!(try_rooms(1_024, 2_560), refusal(1, 0, 0));
}

#[test]
fn reading_3_a_cut_limit_points_at_the_limit() {
    check_refused(&[
        ("01 01 00 00 02", 1, 9),
        ("01 01 00 00 02 00", 1, 9),
        ("01 01 00 00 03", 1, 9),
        ("01 01 00 00 05 03 00", 1, 10),
        ("01 01 00 00 05 01", 1, 10),
    ]);
}

#[test]
fn reading_4_long_inputs_are_read_as_they_are() {
    let mut body = hex("01 01 00 00 01 0000 0000");
    body.resize(70_000, 0);
    let mut bytes = 70_000_u32.to_be_bytes().to_vec();
    bytes.extend(&body);
    assert_eq!(read_marked(&bytes).0.refusal, refusal(1, 0, 13));
    bytes[8] = 9;
    assert_eq!(read_marked(&bytes).0.refusal, refusal(4, 0, 8));
}

#[test]
fn readings_5_and_6_the_byte_count() {
    for text in [
        "",
        "00",
        "000000",
        "00000001",
        "00000000 01",
        "FFFFFFFF 01",
        "00000001 0101",
    ] {
        assert_eq!(
            read_marked(&hex(text)).0.refusal,
            refusal(1, 0, 0),
            "{text}"
        );
    }
    check_refused(&[("", 1, 4)]);
}

#[test]
fn readings_7_and_8_mode_against_m() {
    check_refused(&[
        ("01 01 00 01", 3, 7),
        ("01 01 00 03", 3, 7),
        ("01 01 01 00", 3, 7),
        ("01 01 20 04", 3, 7),
        ("01 01 21 00", 3, 6),
    ]);
}

#[test]
fn reading_9_a_cut_record_comes_before_its_other_faults() {
    check_refused(&[
        ("01 02 00 00 01 0001 FF FF 00", 1, 11),
        ("01 02 00 00 01 0001 FF", 1, 11),
        ("01 02 01 03 01 0000 0001 FF FF 0000 00", 1, 13),
        ("01 02 01 02 01 0000 0001 00 00 0000", 1, 13),
        ("01 02 01 01 01 0000 0001 FF FF 0000", 7, 13),
    ]);
}

#[test]
fn reading_10_the_lower_of_two_faults() {
    check_refused(&[
        ("01 02 00 00 01 0001 02 02 0000 0000", 7, 11),
        ("01 02 00 00 01 0001 01 02 0000 0000", 7, 12),
        (
            "01 02 00 00 05 02 0009 03 0009 0001 00 00 000A 000A 0000",
            6,
            19,
        ),
        (
            "01 02 00 00 05 02 0009 03 0009 0001 00 00 0009 000A 0000",
            6,
            21,
        ),
        ("01 02 00 00 02 0009 0001 00 00 0000 0000", 6, 15),
    ]);
}

#[test]
fn faults_of_a_record_in_order() {
    check_refused(&[
        // 7 before 8 before 6, the second record against the first.
        ("01 02 00 00 02 0009 0002 01 01 0009 00 02 0000 0000", 7, 18),
        ("01 02 00 00 02 0009 0002 01 01 0009 00 01 0000 0000", 8, 17),
        ("01 02 00 00 02 0009 0002 00 01 0009 00 01 0009 0000", 8, 17),
        ("01 02 00 00 02 0009 0002 00 01 0009 01 00 0000 0000", 6, 19),
        // An earlier record's value before a later record's node.
        ("01 02 00 00 02 0009 0002 00 01 0000 FF 00 0000 0000", 6, 15),
    ]);
}

#[test]
fn reading_11_counts_have_no_refusal_of_their_own() {
    check_refused(&[
        ("01 01 00 00 01 FFFF 00 00 0000 0000", 1, 15),
        ("01 01 00 00 01 0002 00 00 0000 00 00 0000 0000", 8, 15),
        ("01 01 00 00 01 0002 00 00 0000 01 00 0000 0000", 7, 15),
    ]);
}

#[test]
fn reading_12_no_destinations() {
    let (answer, arcs, mapping) = check_sound("01 02 00 00 01 0000 0000");
    assert_eq!((answer.n, answer.m, answer.mode), (2, 0, 0));
    assert_eq!(arcs[..16], [NONE; 4].concat());
    assert_eq!(arcs[16], MARK);
    assert!(mapping.iter().all(|word| *word == MARK));
    check_refused(&[
        ("01 02 00 00 01 0000", 1, 11),
        ("01 02 00 00 01 0000 00", 1, 11),
        ("01 02 00 00 01 0000 0001 01 00 0000", 7, 14),
        ("01 02 00 00 01 0000 0001 02 00 0000", 7, 13),
        ("01 02 00 00 01 0000 0001 01 00 00", 1, 13),
    ]);
}

#[test]
fn reading_13_a_promised_record_with_no_byte_there() {
    check_refused(&[
        ("01 02 00 00 01 0001", 1, 11),
        ("01 02 00 00 01 0002 00 00 0000", 1, 15),
        ("01 02 01 01 01 0000 0001", 1, 13),
    ]);
}

#[test]
fn reading_14_tags_are_refused_where_they_stand() {
    check_refused(&[
        ("01 01 00 00", 1, 8),
        ("01 01 00 00 00", 4, 8),
        ("01 01 00 00 06", 4, 8),
        ("01 01 00 00 05 01 FF", 4, 10),
        ("01 01 00 00 02 0000", 4, 9),
        ("01 01 00 00 05 05 05 05", 5, 11),
        ("01 01 00 00 05 05 01 01 05 01 05 01 01", 5, 14),
        ("01 01 00 00 05 05 05 01", 1, 12),
        ("01 01 00 00 05 05 05 09 05", 4, 11),
    ]);
}

#[test]
fn languages_nest_either_way() {
    let four = Language::of(&[Dist, Width(258), Class(0), Gain]);
    for tree in [
        "05 01 05 02 0102 05 03 0000 04",
        "05 05 05 01 02 0102 03 0000 04",
        "05 05 01 02 0102 05 03 0000 04",
        "05 01 05 05 02 0102 03 0000 04",
    ] {
        let (answer, arcs, _) = check_sound(&format!(
            "01 01 00 00 {tree} 0001 00 00 FFFF 0001 0000 FFFF 0000"
        ));
        assert_eq!(answer.language, four);
        assert_eq!(arcs[..4], [65_535, 1, 0, 65_535]);
    }
    let (answer, _, _) = check_sound("01 01 00 00 05 04 03 FFFF 0000 0000");
    assert_eq!(answer.language, Language::of(&[Gain, Class(65_535)]));
}

#[test]
fn attachments_with_and_without_outside_numbers() {
    let (answer, _, mapping) = check_sound("01 01 02 01 01 0000 0001 00 01 FFFF");
    assert_eq!((answer.m, answer.mode), (2, 1));
    assert_eq!(
        mapping[..11],
        [&EMPTY[..], &[65_535, 0, 0, 0, 0], &[MARK]].concat()
    );
    let (_, _, mapping) = check_sound("01 01 02 02 01 0000 0001 00 01 0003 FFFF");
    assert_eq!(
        mapping[..11],
        [&EMPTY[..], &[3, 0, 0, 0, 65_535], &[MARK]].concat()
    );
    check_refused(&[
        ("01 01 02 02 01 0000 0001 00 02 0003 FFFF", 7, 14),
        ("01 01 02 02 02 0009 0000 0001 00 01 000A FFFF", 6, 17),
        (
            "01 01 02 02 01 0000 0002 00 01 0003 FFFF 00 01 0003 FFFF",
            8,
            19,
        ),
    ]);
}

#[test]
fn left_over_bytes_point_at_the_first() {
    check_refused(&[
        ("01 01 00 00 01 0000 0000 00", 1, 13),
        ("01 01 00 00 01 0000 0000 0101010101", 1, 13),
        ("01 01 01 01 01 0000 0001 00 00 0000 0000", 1, 17),
    ]);
}

#[test]
fn every_cut_of_the_printed_file_is_refused() {
    let bytes = hex(PRINTED);
    for length in 0..bytes.len() {
        assert_eq!(read_marked(&bytes[..length]).0.refusal, refusal(1, 0, 0));
        if length >= 4 {
            let mut cut = bytes[..length].to_vec();
            cut[..4].copy_from_slice(&(length as u32 - 4).to_be_bytes());
            assert_eq!(read_marked(&cut).0.refusal.number, 1);
        }
    }
}
