//! The print program's output: the paper's case byte for byte, and each way it can end.

mod common;

use common::{counted, hex, PRINTED};
use reference::print;

#[test]
fn the_printed_case() {
    let expected = "LAWS 1 1 1\nR 0 0 0\nR 0 1 2\nR 0 2 5\nR 1 0 -\nR 1 1 0\nR 1 2 3\n\
                    R 2 0 -\nR 2 1 -\nR 2 2 0\nF 0 0 5 4\nF 1 0 3 4\nF 2 0 0 4\n";
    assert_eq!(print(&hex(PRINTED)), expected);
}

#[test]
fn p6_the_same_file_in_hot_mode() {
    let mut bytes = hex(PRINTED);
    bytes[7] = 2;
    let text = print(&bytes);
    assert!(
        text.ends_with("R 2 2 0\nF 0 0 2 7\nF 1 0 0 7\nF 2 0 0 4\n"),
        "{text}"
    );
}

#[test]
fn plain_mode_and_several_components() {
    let file =
        "01 02 02 01 05 01 02 0009 0001 00 01 0002 0003 0002 00 00 0000 0009 01 01 0007 0005";
    let expected = "LAWS 1 1 0\nR 0 0 0 9\nR 0 1 2 3\nR 1 0 -\nR 1 1 0 9\n\
                    F 0 0 0 9\nF 0 1 9 3\nF 1 0 -\nF 1 1 7 5\n";
    assert_eq!(print(&counted(file)), expected);
}

#[test]
fn no_destinations_no_forwarding_lines() {
    assert_eq!(
        print(&counted("01 01 00 00 01 0000 0000")),
        "LAWS 1 1 1\nR 0 0 0\n"
    );
}

#[test]
fn missing_laws_stand_in_place_of_the_routes() {
    let gain = counted("01 01 00 00 04 0000 0000");
    assert_eq!(print(&gain), "LAWS 1 0 1\nREFUSED 10 2 0\n");
    let unlawful = counted("01 02 00 00 05 02 0009 01 0000 0000");
    assert_eq!(print(&unlawful), "LAWS 0 1 0\nREFUSED 10 1 0\n");
}

#[test]
fn hot_without_law_c_stands_in_place_of_the_forwarding_lines() {
    let file = counted("01 01 01 02 02 0009 0000 0000");
    assert_eq!(print(&file), "LAWS 1 1 0\nR 0 0 9\nREFUSED 10 3 0\n");
    let cold = counted("01 01 01 03 02 0009 0000 0001 00 00 0004 0000");
    assert_eq!(print(&cold), "LAWS 1 1 0\nR 0 0 9\nF 0 0 4 0\n");
}

#[test]
fn bad_files_and_long_inputs() {
    assert_eq!(print(b""), "REFUSED 1 0 0\n");
    assert_eq!(print(&counted("01 00")), "REFUSED 3 0 5\n");
    // A right count and 65,536 bytes in all are read; one byte more is not.
    let mut bytes = 65_532_u32.to_be_bytes().to_vec();
    bytes.extend(hex("01 01 00 00 01 0000 0000"));
    bytes.resize(65_536, 0);
    assert_eq!(print(&bytes), "REFUSED 1 0 13\n");
    bytes.push(0);
    bytes[..4].copy_from_slice(&65_533_u32.to_be_bytes());
    assert_eq!(print(&bytes), "REFUSED 1 0 0\n");
}
