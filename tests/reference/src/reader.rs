//! The file reader: byte count, header, language, arcs and attachments, in file order.
//! Nothing is written to the lent buffers before the whole file has been read.

use crate::forwarding::{entry_to_words, ENTRY_WORDS};
use crate::matrices::matrix_words;
use crate::refusals::{refusal_of, Checked, Refusal, BUFFER_A, BUFFER_M};
use crate::weights::{weight_to_words, Component, Language, ARC_LIMIT, ONES, WEIGHT_WORDS};

/// The least lengths of the two lent buffers.
pub const ARC_ROOM: usize = 1_024;
pub const MAPPING_ROOM: usize = 2_560;
/// Offset of the first byte that the count of bytes speaks of.
const BODY: usize = 4;
const MOST_PRODUCTS: u32 = 3;

#[derive(Clone, Copy, Debug, PartialEq, Eq)]
pub struct ReadAnswer {
    pub refusal: Refusal,
    pub n: u32,
    pub m: u32,
    pub mode: u32,
    pub language: Language,
}

/// An arc (from, to) or an attachment (node, destination).
struct Record {
    first: usize,
    second: usize,
    values: Vec<u64>,
    outside: u32,
}

struct Problem {
    n: u8,
    m: u8,
    mode: u8,
    language: Language,
    arcs: Vec<Record>,
    attachments: Vec<Record>,
}

/// What a record of a list must look like.
struct RecordShape<'a> {
    first_below: u8,
    second_below: u8,
    components: &'a [Component],
    has_outside: bool,
}

/// The unread bytes and where they start.
struct Cursor<'a> {
    bytes: &'a [u8],
    at: usize,
}

/// In the reader "which" is 0 and the place is an offset.
fn refuse<T>(number: u32, offset: usize) -> Checked<T> {
    Err(Refusal::new(
        number,
        0,
        u32::try_from(offset).unwrap_or(u32::MAX),
    ))
}

impl<'a> Cursor<'a> {
    /// The next bytes as one field or record; 1 at its start when it is cut.
    fn take(&mut self, length: usize) -> Checked<&'a [u8]> {
        match self.bytes.get(self.at..self.at + length) {
            Some(field) => {
                self.at += length;
                Ok(field)
            }
            None => refuse(1, self.at),
        }
    }

    fn byte(&mut self) -> Checked<u8> {
        Ok(self.take(1)?[0])
    }

    fn two_bytes(&mut self) -> Checked<u16> {
        let field = self.take(2)?;
        Ok(u16::from_be_bytes([field[0], field[1]]))
    }
}

/// Reads a problem file into the two lent buffers.
pub fn read(bytes: &[u8], arcs: &mut [u32], mapping: &mut [u32]) -> ReadAnswer {
    let problem = check_rooms(arcs.len(), mapping.len()).and_then(|()| read_problem(bytes));
    let refusal = refusal_of(&problem);
    let Ok(problem) = problem else {
        return ReadAnswer {
            refusal,
            n: 0,
            m: 0,
            mode: 0,
            language: Language::NONE,
        };
    };
    write_arcs(&problem, arcs);
    write_mapping(&problem, mapping);
    ReadAnswer {
        refusal,
        n: u32::from(problem.n),
        m: u32::from(problem.m),
        mode: u32::from(problem.mode),
        language: problem.language,
    }
}

/// 9: here the lent buffers may be longer than needed.
fn check_rooms(arcs: usize, mapping: usize) -> Checked<()> {
    if arcs < ARC_ROOM {
        return Err(Refusal::new(9, BUFFER_A, 0));
    }
    if mapping < MAPPING_ROOM {
        return Err(Refusal::new(9, BUFFER_M, 0));
    }
    Ok(())
}

fn read_problem(bytes: &[u8]) -> Checked<Problem> {
    check_byte_count(bytes)?;
    let mut cursor = Cursor { bytes, at: BODY };
    let (n, m, mode) = read_header(&mut cursor)?;
    let language = read_language(&mut cursor)?;
    let components = language.components();
    let arc_shape = RecordShape {
        first_below: n,
        second_below: n,
        components,
        has_outside: false,
    };
    let arcs = read_records(&mut cursor, &arc_shape)?;
    let attachment_shape = RecordShape {
        first_below: n,
        second_below: m,
        components,
        has_outside: mode >= 2,
    };
    let attachments = read_records(&mut cursor, &attachment_shape)?;
    if cursor.at < bytes.len() {
        return refuse(1, cursor.at);
    }
    Ok(Problem {
        n,
        m,
        mode,
        language,
        arcs,
        attachments,
    })
}

fn check_byte_count(bytes: &[u8]) -> Checked<()> {
    match bytes {
        [a, b, c, d, body @ ..]
            if u64::from(u32::from_be_bytes([*a, *b, *c, *d])) == body.len() as u64 =>
        {
            Ok(())
        }
        _ => refuse(1, 0),
    }
}

/// Version, n, m and mode, each judged before the next is read.
fn read_header(cursor: &mut Cursor) -> Checked<(u8, u8, u8)> {
    if cursor.byte()? != 1 {
        return refuse(2, BODY);
    }
    let n = cursor.byte()?;
    if !(1..=16).contains(&n) {
        return refuse(3, BODY + 1);
    }
    let m = cursor.byte()?;
    if m > 32 {
        return refuse(3, BODY + 2);
    }
    let mode = cursor.byte()?;
    if mode > 3 || (mode == 0) != (m == 0) {
        return refuse(3, BODY + 3);
    }
    Ok((n, m, mode))
}

/// Reads left to right; each product makes one more language to be awaited.
fn read_language(cursor: &mut Cursor) -> Checked<Language> {
    let mut components = Vec::new();
    let mut awaited = 1;
    let mut products = 0;
    while awaited > 0 {
        let offset = cursor.at;
        let tag = cursor.byte()?;
        if tag == 5 {
            products += 1;
            if products > MOST_PRODUCTS {
                return refuse(5, offset);
            }
            awaited += 1;
        } else {
            components.push(read_component(cursor, tag, offset)?);
            awaited -= 1;
        }
    }
    Ok(Language::of(&components))
}

fn read_component(cursor: &mut Cursor, tag: u8, offset: usize) -> Checked<Component> {
    match tag {
        1 => Ok(Component::Dist),
        2 => match cursor.two_bytes()? {
            0 => refuse(4, offset + 1),
            limit => Ok(Component::Width(limit)),
        },
        3 => Ok(Component::Class(cursor.two_bytes()?)),
        4 => Ok(Component::Gain),
        _ => refuse(4, offset),
    }
}

fn read_records(cursor: &mut Cursor, shape: &RecordShape) -> Checked<Vec<Record>> {
    let stated = cursor.two_bytes()?;
    let mut records: Vec<Record> = Vec::new();
    for _ in 0..stated {
        let previous = records.last().map(|record| (record.first, record.second));
        records.push(read_record(cursor, shape, previous)?);
    }
    Ok(records)
}

/// One record, its faults in the order 1, 7, 8, 6.
fn read_record(
    cursor: &mut Cursor,
    shape: &RecordShape,
    previous: Option<(usize, usize)>,
) -> Checked<Record> {
    let start = cursor.at;
    let fields = shape.components.len() + usize::from(shape.has_outside);
    let bytes = cursor.take(2 + 2 * fields)?;
    if bytes[0] >= shape.first_below {
        return refuse(7, start);
    }
    if bytes[1] >= shape.second_below {
        return refuse(7, start + 1);
    }
    let pair = (usize::from(bytes[0]), usize::from(bytes[1]));
    if previous.is_some_and(|previous| previous >= pair) {
        return refuse(8, start);
    }
    let numbers: Vec<u16> = bytes[2..]
        .chunks(2)
        .map(|field| u16::from_be_bytes([field[0], field[1]]))
        .collect();
    let (values, outside) = numbers.split_at(shape.components.len());
    Ok(Record {
        first: pair.0,
        second: pair.1,
        values: check_values(shape.components, values, start + 2)?,
        outside: outside.first().map_or(0, |t| u32::from(*t)),
    })
}

fn check_values(components: &[Component], values: &[u16], offset: usize) -> Checked<Vec<u64>> {
    let values: Vec<u64> = values.iter().map(|value| u64::from(*value)).collect();
    for (place, (component, value)) in components.iter().zip(&values).enumerate() {
        if !component.has_within(*value, ARC_LIMIT) {
            return refuse(6, offset + 2 * place);
        }
    }
    Ok(values)
}

/// What isn't listed is no route.
fn write_arcs(problem: &Problem, arcs: &mut [u32]) {
    let nodes = usize::from(problem.n);
    arcs[..matrix_words(nodes)].fill(ONES);
    for record in &problem.arcs {
        let at = (record.first * nodes + record.second) * WEIGHT_WORDS;
        let words = weight_to_words(&Some(record.values.clone()));
        arcs[at..at + WEIGHT_WORDS].copy_from_slice(&words);
    }
}

/// What isn't listed is empty.
fn write_mapping(problem: &Problem, mapping: &mut [u32]) {
    let destinations = usize::from(problem.m);
    mapping[..usize::from(problem.n) * destinations * ENTRY_WORDS].fill(ONES);
    for record in &problem.attachments {
        let at = (record.first * destinations + record.second) * ENTRY_WORDS;
        let words = entry_to_words(&Some((record.values.clone(), record.outside)));
        mapping[at..at + ENTRY_WORDS].copy_from_slice(&words);
    }
}
