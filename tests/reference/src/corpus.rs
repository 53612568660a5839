//! A fixed list of problem files: each refusal of the reader at each place where it can occur,
//! every nesting of a language, every mode, and the sizes at the edges.

use crate::weights::Component::{self, Class, Dist, Gain, Width};

/// A file with its name.
pub type Case = (String, Vec<u8>);

/// Arc or attachment: two bytes, values, and t where the mode has one.
type Record = (u8, u8, Vec<u16>);

/// A problem whose bytes can be written whole, or cut and changed before they are counted.
#[derive(Clone)]
struct Draft {
    header: [u8; 4],
    language: Vec<u8>,
    arcs: Vec<Record>,
    attachments: Vec<Record>,
}

impl Draft {
    fn body(&self) -> Vec<u8> {
        let mut body = self.header.to_vec();
        body.extend(&self.language);
        for list in [&self.arcs, &self.attachments] {
            body.extend((list.len() as u16).to_be_bytes());
            body.extend(list.iter().flat_map(record_bytes));
        }
        body
    }

    fn bytes(&self) -> Vec<u8> {
        counted(&self.body())
    }

    fn with(&self, change: impl FnOnce(&mut Draft)) -> Vec<u8> {
        let mut draft = self.clone();
        change(&mut draft);
        draft.bytes()
    }
}

fn record_bytes((first, second, values): &Record) -> Vec<u8> {
    let mut bytes = vec![*first, *second];
    bytes.extend(values.iter().flat_map(|value| value.to_be_bytes()));
    bytes
}

/// The body after its own right byte count.
fn counted(body: &[u8]) -> Vec<u8> {
    let mut bytes = (body.len() as u32).to_be_bytes().to_vec();
    bytes.extend(body);
    bytes
}

fn tag(component: Component) -> Vec<u8> {
    match component {
        Dist => vec![1],
        Width(limit) => [&[2][..], &limit.to_be_bytes()].concat(),
        Class(limit) => [&[3][..], &limit.to_be_bytes()].concat(),
        Gain => vec![4],
    }
}

fn product(left: &[u8], right: &[u8]) -> Vec<u8> {
    [&[5], left, right].concat()
}

/// The printed case: three nodes in a row, dist, cold.
fn printed() -> Draft {
    Draft {
        header: [1, 3, 1, 3],
        language: tag(Dist),
        arcs: vec![(0, 1, vec![2]), (0, 2, vec![9]), (1, 2, vec![3])],
        attachments: vec![(1, 0, vec![0, 7]), (2, 0, vec![0, 4])],
    }
}

/// Four nodes and two destinations in a language whose values are all 1, which every kind takes.
fn square(language: Vec<u8>, count: usize, mode: u8) -> Draft {
    let ones = vec![1; count];
    let with_t = |t: u16| match mode {
        1 => ones.clone(),
        _ => [&ones[..], &[t]].concat(),
    };
    let arcs = [(0, 1), (0, 3), (1, 2), (2, 0), (2, 3), (3, 3)];
    Draft {
        header: [1, 4, 2, mode],
        language,
        arcs: arcs.map(|(i, j)| (i, j, ones.clone())).to_vec(),
        attachments: vec![(1, 0, with_t(65_535)), (3, 0, with_t(2)), (3, 1, with_t(0))],
    }
}

/// Every record that the sizes allow, in a lawful language whose components all have a limit.
fn largest() -> Draft {
    let values = vec![1, 0, 1, 65_535];
    let pairs =
        |rows: u8, columns: u8| (0..rows).flat_map(move |i| (0..columns).map(move |j| (i, j)));
    let with_t = [&values[..], &[65_535]].concat();
    let parts = [Width(1), Class(0), Width(1), Class(65_535)].map(tag);
    let halves = [product(&parts[0], &parts[1]), product(&parts[2], &parts[3])];
    Draft {
        header: [1, 16, 32, 3],
        language: product(&halves[0], &halves[1]),
        arcs: pairs(16, 16).map(|(i, j)| (i, j, values.clone())).collect(),
        attachments: pairs(16, 32).map(|(i, d)| (i, d, with_t.clone())).collect(),
    }
}

struct List(Vec<Case>);

impl List {
    fn add(&mut self, name: &str, bytes: Vec<u8>) {
        let number = self.0.len() + 1;
        self.0.push((format!("{number:03}_{name}"), bytes));
    }
}

/// All cases, in order.
pub fn cases() -> Vec<Case> {
    let mut list = List(Vec::new());
    sound(&mut list);
    cut(&mut list);
    header_refused(&mut list);
    language_refused(&mut list);
    records_refused(&mut list);
    laws_missing(&mut list);
    sizes(&mut list);
    published(&mut list);
    list.0
}

/// The printed case in each mode, and every nesting of one to four components.
fn sound(list: &mut List) {
    list.add("printed_case", printed().bytes());
    list.add(
        "printed_case_hot",
        printed().with(|file| file.header[3] = 2),
    );
    list.add(
        "printed_case_plain",
        printed().with(|file| {
            file.header[3] = 1;
            for (_, _, values) in &mut file.attachments {
                values.truncate(1);
            }
        }),
    );
    for (name, component) in [
        ("dist", Dist),
        ("width", Width(1)),
        ("class", Class(65_535)),
    ] {
        for (mode, mode_name) in [(1, "plain"), (2, "hot"), (3, "cold")] {
            let file = square(tag(component), 1, mode);
            list.add(&format!("{name}_{mode_name}"), file.bytes());
        }
    }
    let [d, w, c] = [tag(Dist), tag(Width(9)), tag(Class(2))];
    let nestings = [
        ("d_d", product(&d, &d), 2),
        ("d_w", product(&d, &w), 2),
        ("left_of_three", product(&product(&d, &d), &c), 3),
        ("right_of_three", product(&d, &product(&d, &c)), 3),
        (
            "left_of_four",
            product(&product(&product(&d, &d), &d), &w),
            4,
        ),
        (
            "left_right_of_four",
            product(&product(&d, &product(&d, &d)), &w),
            4,
        ),
        (
            "balanced_four",
            product(&product(&d, &d), &product(&d, &w)),
            4,
        ),
        (
            "right_left_of_four",
            product(&d, &product(&product(&d, &d), &w)),
            4,
        ),
        (
            "right_of_four",
            product(&d, &product(&d, &product(&d, &w))),
            4,
        ),
    ];
    for (name, language, count) in nestings {
        list.add(
            &format!("product_{name}"),
            square(language, count, 3).bytes(),
        );
    }
}

/// Refusal 1: the count of bytes, each field and record cut, bytes left over.
fn cut(list: &mut List) {
    for length in 0..4 {
        list.add(&format!("count_of_{length}_bytes"), vec![0; length]);
    }
    let whole = printed().bytes();
    for by in [1u32, 256, 1 << 24] {
        let [more, fewer] = [33 + by, 33u32.wrapping_sub(by)];
        for (name, count) in [("more", more), ("fewer", fewer)] {
            let bytes = [&count.to_be_bytes()[..], &whole[4..]].concat();
            list.add(&format!("count_{by}_{name}"), bytes);
        }
    }
    let limited = square(tag(Width(9)), 1, 3).body();
    let nested = square(product(&tag(Dist), &tag(Class(2))), 2, 2).body();
    for (name, body) in [
        ("dist", printed().body()),
        ("width", limited),
        ("product", nested),
    ] {
        for end in 0..body.len() {
            let seen = end < 20 || end + 9 > body.len() || name == "dist";
            if seen {
                list.add(&format!("cut_{name}_{end:02}"), counted(&body[..end]));
            }
        }
        let longer = [&body[..], &[0]].concat();
        list.add(&format!("left_over_{name}"), counted(&longer));
    }
}

/// Refusals 2 and 3, at version, n, m and mode.
fn header_refused(list: &mut List) {
    let places = [
        ("version", 0),
        ("nodes", 1),
        ("destinations", 2),
        ("mode", 3),
    ];
    let values: [&[u8]; 4] = [&[0, 2, 255], &[0, 17, 255], &[33, 255], &[0, 4, 255]];
    for ((name, place), values) in places.into_iter().zip(values) {
        for value in values {
            let file = printed().with(|file| file.header[place] = *value);
            list.add(&format!("{name}_{value}"), file);
        }
    }
    for mode in 1..4 {
        let file = printed().with(|file| {
            file.header[2..].copy_from_slice(&[0, mode]);
            file.attachments.clear();
        });
        list.add(&format!("no_destinations_mode_{mode}"), file);
    }
}

/// Refusals 4 and 5, at each side of a product.
fn language_refused(list: &mut List) {
    let dist = tag(Dist);
    for unknown in [0, 6, 255] {
        for (name, language) in [
            ("alone", vec![unknown]),
            ("left", product(&[unknown], &dist)),
            ("right", product(&dist, &[unknown])),
        ] {
            let file = printed().with(|file| file.language = language);
            list.add(&format!("tag_{unknown}_{name}"), file);
        }
    }
    let none = tag(Width(0));
    for (name, language) in [
        ("alone", none.clone()),
        ("left", product(&none, &dist)),
        ("right", product(&dist, &none)),
        ("both", product(&none, &none)),
    ] {
        let file = printed().with(|file| file.language = language);
        list.add(&format!("width_0_{name}"), file);
    }
    let two = product(&dist, &dist);
    let three = [product(&two, &dist), product(&dist, &two)];
    for (name, language) in [
        ("left", product(&product(&three[0], &dist), &dist)),
        ("right", product(&dist, &product(&dist, &three[1]))),
        ("balanced", product(&three[0], &two)),
        ("all_tags", vec![5; 9]),
    ] {
        let file = printed().with(|file| file.language = language);
        list.add(&format!("fourth_product_{name}"), file);
    }
}

/// Refusals 7, 8 and 6 in a record, and the order in which they come.
fn records_refused(list: &mut List) {
    let changes: [(&str, fn(&mut Draft)); 16] = [
        ("arc_from_3", |file| file.arcs[1].0 = 3),
        ("arc_to_3", |file| file.arcs[1].1 = 3),
        ("arc_both_255", |file| {
            (file.arcs[0].0, file.arcs[0].1) = (255, 255)
        }),
        ("arc_again", |file| file.arcs[1] = file.arcs[0].clone()),
        ("arc_descends_by_to", |file| file.arcs.swap(0, 1)),
        ("arc_descends_by_from", |file| file.arcs.swap(1, 2)),
        ("node_3", |file| file.attachments[0].0 = 3),
        ("destination_1", |file| file.attachments[1].1 = 1),
        ("attachment_again", |file| file.attachments[1].0 = 1),
        ("attachment_descends", |file| file.attachments.swap(0, 1)),
        ("no_such_before_descent", |file| {
            (file.arcs[2].0, file.arcs[2].1) = (0, 3)
        }),
        ("arcs_before_attachments", |file| {
            file.attachments[0].0 = 3;
            file.arcs[2].0 = 7;
        }),
        ("node_taken_for_destination", |file| {
            file.attachments[0] = (0, 1, vec![0, 7])
        }),
        ("no_arcs", |file| file.arcs.clear()),
        ("no_attachments", |file| file.attachments.clear()),
        ("no_records", |file| {
            file.arcs.clear();
            file.attachments.clear();
        }),
    ];
    for (name, change) in changes {
        list.add(name, printed().with(change));
    }
    let language = product(&tag(Width(9)), &product(&tag(Class(2)), &tag(Dist)));
    let file = Draft {
        header: [1, 2, 1, 3],
        language,
        arcs: vec![(0, 1, vec![9, 2, 65_535]), (1, 0, vec![1, 0, 0])],
        attachments: vec![(0, 0, vec![1, 1, 1, 1])],
    };
    let values: [(&str, fn(&mut Draft)); 8] = [
        ("width_value_0", |file| file.arcs[0].2[0] = 0),
        ("width_value_10", |file| file.arcs[1].2[0] = 10),
        ("class_value_3", |file| file.arcs[0].2[1] = 3),
        ("two_values", |file| {
            file.arcs[1].2[..2].copy_from_slice(&[0, 3])
        }),
        ("attached_width_10", |file| file.attachments[0].2[0] = 10),
        ("attached_class_65535", |file| {
            file.attachments[0].2[1] = 65_535
        }),
        ("descent_before_value", |file| {
            file.arcs[1].0 = 0;
            file.arcs[1].2[0] = 0;
        }),
        ("no_such_before_value", |file| {
            file.arcs[1].1 = 2;
            file.arcs[1].2[0] = 0;
        }),
    ];
    for (name, change) in values {
        list.add(name, file.with(change));
    }
}

/// Files that are read, and whose language lacks a law.
fn laws_missing(list: &mut List) {
    let [d, w, c, g] = [tag(Dist), tag(Width(9)), tag(Class(2)), tag(Gain)];
    for (name, language, count, mode) in [
        ("without_d", product(&w, &d), 2, 1),
        ("without_u", g.clone(), 1, 3),
        ("without_d_and_u", product(&c, &g), 2, 2),
        ("hot_without_c", product(&d, &w), 2, 2),
        ("hot_width", w.clone(), 1, 2),
        ("hot_trivial", product(&tag(Width(1)), &d), 2, 2),
        ("plain_without_c", product(&d, &c), 2, 1),
        ("cold_without_c", product(&d, &c), 2, 3),
    ] {
        list.add(name, square(language, count, mode).bytes());
    }
}

/// The smallest and the largest, and counts that no file can meet.
fn sizes(list: &mut List) {
    let alone = Draft {
        header: [1, 1, 0, 0],
        language: tag(Dist),
        arcs: vec![(0, 0, vec![5])],
        attachments: vec![],
    };
    list.add("one_node_self_arc", alone.bytes());
    list.add("no_destinations", printed().with(without_destinations));
    list.add(
        "no_destinations_with_a_record",
        alone.with(|file| file.attachments.push((0, 0, vec![0]))),
    );
    let row: Vec<Record> = (0..15).map(|i| (i, i + 1, vec![65_535])).collect();
    let chain = Draft {
        header: [1, 16, 1, 3],
        language: tag(Dist),
        arcs: row,
        attachments: vec![(15, 0, vec![65_535, 1])],
    };
    list.add("sixteen_in_a_row", chain.bytes());
    list.add("largest", largest().bytes());
    let mut promised = printed().body();
    promised[5..7].fill(255);
    list.add("count_of_arcs_65535", counted(&promised));
    let many = Draft {
        header: [1, 1, 0, 0],
        language: tag(Dist),
        arcs: vec![(0, 0, vec![1]); 16_000],
        attachments: vec![],
    };
    list.add("sixteen_thousand_arcs", many.bytes());
    for length in [65_536, 65_537] {
        let mut bytes = printed().bytes();
        bytes.resize(length, 0);
        list.add(&format!("of_{length}_bytes"), bytes.clone());
        let count = (length as u32 - 4).to_be_bytes();
        bytes[..4].copy_from_slice(&count);
        list.add(&format!("of_{length}_bytes_counted"), bytes);
    }
}

/// Source document 002, figure 6: (a) to (d) the bandwidths, cold and hot, and (e) to (h) the distances, hot.
fn published(list: &mut List) {
    let band = concat!(
        "00000043010402",
        "03",
        "02ffff0008000100140002001e01000014010300280200001e0203001403010028030200140004",
        "0000ffff00030200ffff00020201ffff00010301ffff0001"
    );
    let distance = concat!(
        "00000051010502",
        "02",
        "01000c000100030004000501000003010200020103000201040003020100020204000403010002",
        "04000005040100030402000400040300000000aa0301000000460400000000b404010000003c"
    );
    list.add("figure_6_of_002_bandwidth_cold", from_hex(band));
    let mut hot = from_hex(band);
    hot[7] = 2;
    list.add("figure_6_of_002_bandwidth_hot", hot);
    list.add("figure_6_of_002_distance_hot", from_hex(distance));
}

fn from_hex(text: &str) -> Vec<u8> {
    let digit = |byte: u8| (byte as char).to_digit(16).expect("a hex digit") as u8;
    let pairs = text.as_bytes().chunks(2);
    pairs
        .map(|pair| digit(pair[0]) << 4 | digit(pair[1]))
        .collect()
}

fn without_destinations(file: &mut Draft) {
    file.header[2..].fill(0);
    file.attachments.clear();
}

#[cfg(test)]
mod tests {
    use super::*;
    use crate::reader::read;
    use std::collections::BTreeSet;

    fn refusal(bytes: &[u8]) -> (u32, u32) {
        let (mut arcs, mut mapping) = (vec![0; 1_024], vec![0; 2_560]);
        let refusal = read(bytes, &mut arcs, &mut mapping).refusal;
        (refusal.number, refusal.place)
    }

    #[test]
    fn names_differ() {
        let cases = cases();
        let names: BTreeSet<&String> = cases.iter().map(|(name, _)| name).collect();
        assert_eq!(names.len(), cases.len());
        assert!(cases.len() >= 80);
    }

    #[test]
    fn each_refusal_of_the_reader_is_met() {
        let met: BTreeSet<u32> = cases().iter().map(|(_, bytes)| refusal(bytes).0).collect();
        assert_eq!(met, (0..=8).collect());
    }

    #[test]
    fn the_header_is_refused_at_each_of_its_bytes() {
        let met: BTreeSet<(u32, u32)> = cases().iter().map(|(_, bytes)| refusal(bytes)).collect();
        for refusal in [(1, 0), (1, 4), (1, 5), (1, 6), (1, 7), (1, 8), (1, 9)] {
            assert!(met.contains(&refusal), "{refusal:?}");
        }
        for refusal in [
            (2, 4),
            (3, 5),
            (3, 6),
            (3, 7),
            (4, 8),
            (4, 9),
            (4, 10),
            (5, 11),
        ] {
            assert!(met.contains(&refusal), "{refusal:?}");
        }
    }

    /// The forwarding tables that figure 6 of 002 prints: (d), value then t by node, and (h).
    #[test]
    fn figure_6_of_002() {
        let named = |name: &str| {
            let case = cases().into_iter().find(|(found, _)| found.ends_with(name));
            crate::print(&case.expect("the case is listed").1)
        };
        let forwarded = |text: &str| -> Vec<String> {
            let lines = text.lines().filter(|line| line.starts_with("F "));
            let entry = |line: &str| line.splitn(4, ' ').nth(3).unwrap_or("").to_string();
            lines.map(entry).collect()
        };
        let cold = forwarded(&named("bandwidth_cold"));
        let figure = [
            "30 2", "30 1", "20 2", "40 1", "65535 2", "65535 1", "20 2", "65535 1",
        ];
        assert_eq!(cold, figure);
        assert!(named("bandwidth_hot").ends_with("REFUSED 10 3 0\n"));
        let hot = forwarded(&named("distance_hot"));
        let figure = [
            "5 170", "5 60", "2 170", "2 70", "4 170", "4 60", "0 170", "0 70", "0 180", "0 60",
        ];
        assert_eq!(hot, figure);
    }

    #[test]
    fn the_largest_file_is_sound() {
        let bytes = largest().bytes();
        assert_eq!(bytes.len(), 8_731);
        assert_eq!(refusal(&bytes), (0, 0));
    }
}
