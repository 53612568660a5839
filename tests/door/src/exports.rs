//! The exported functions, each called on slices.

use compare::calls::{Call, Kind};

use crate::canaries::{Canary, Guarded};
use crate::requests::Request;

#[repr(C)]
#[derive(Clone, Copy, Debug, PartialEq, Eq)]
pub struct Reply {
    pub number: u32,
    pub which: u32,
    pub place: u32,
    pub value: u32,
}

/// What is lent to a call, each buffer between canaries.
pub struct Lent {
    pub language: Guarded<u16>,
    /// The bytes of a file; empty in every call but the reader.
    pub file: Guarded<u8>,
    /// The other buffers of the call, in order.
    pub buffers: Vec<Guarded<u32>>,
    /// The law report, or the problem; empty in the other calls.
    pub told: Guarded<u32>,
}

impl Lent {
    pub fn new(request: &Request) -> Lent {
        let (file, buffers) = match request.call.kind {
            Kind::Read => request.call.buffers.split_at(1),
            _ => request.call.buffers.split_at(0),
        };
        let bytes = file.iter().flatten().map(|byte| *byte as u8);
        let words = buffers.iter().map(|words| Guarded::new(words.clone()));
        Lent {
            language: Guarded::new(request.language.clone()),
            file: Guarded::new(bytes),
            buffers: words.collect(),
            told: Guarded::new(request.told.clone()),
        }
    }

    /// Whether every canary around every buffer is as it was.
    pub fn is_intact(&self) -> bool {
        let narrow = self.language.is_intact() && self.file.is_intact();
        let words = self.buffers.iter().all(Guarded::is_intact);
        narrow && words && self.told.is_intact()
    }
}

extern "C" {
    fn tronglephu_read(
        file: *const u8,
        file_count: usize,
        arcs: *mut u32,
        arcs_count: usize,
        mapping: *mut u32,
        mapping_count: usize,
        problem: *mut u32,
        problem_count: usize,
    ) -> Reply;
    fn tronglephu_laws(
        language: *const u16,
        language_count: usize,
        report: *mut u32,
        report_count: usize,
    ) -> Reply;
    fn tronglephu_fresh(
        language: *const u16,
        language_count: usize,
        n: u32,
        r: *mut u32,
        r_count: usize,
    ) -> Reply;
    fn tronglephu_steps(
        language: *const u16,
        language_count: usize,
        n: u32,
        a: *const u32,
        a_count: usize,
        r: *mut u32,
        r_count: usize,
        list: *const u32,
        list_count: usize,
    ) -> Reply;
    fn tronglephu_equation(
        language: *const u16,
        language_count: usize,
        n: u32,
        a: *const u32,
        a_count: usize,
        r: *const u32,
        r_count: usize,
    ) -> Reply;
    fn tronglephu_forward(
        language: *const u16,
        language_count: usize,
        n: u32,
        m: u32,
        mode: u32,
        a: *const u32,
        a_count: usize,
        r: *const u32,
        r_count: usize,
        mapping: *const u32,
        mapping_count: usize,
        f: *mut u32,
        f_count: usize,
    ) -> Reply;
    fn tronglephu_next_hop(
        language: *const u16,
        language_count: usize,
        n: u32,
        a: *const u32,
        a_count: usize,
        r: *const u32,
        r_count: usize,
        i: u32,
        j: u32,
    ) -> Reply;
    fn tronglephu_handover(
        language: *const u16,
        language_count: usize,
        n: u32,
        a: *const u32,
        a_count: usize,
        standing: *const u32,
        standing_count: usize,
        newer: *const u32,
        newer_count: usize,
        i: u32,
    ) -> Reply;
}

/// Makes the call of a request on what is lent to it.
pub fn ask(request: &Request, lent: &mut Lent) -> Reply {
    let call = &request.call;
    match call.kind {
        Kind::Read => ask_read(lent),
        Kind::Laws => ask_laws(lent),
        Kind::Fresh => ask_fresh(call, lent),
        Kind::Steps => ask_steps(call, lent),
        Kind::Equation => ask_equation(call, lent),
        Kind::Forward => ask_forward(call, lent),
        Kind::NextHop => ask_next_hop(call, lent),
        Kind::LentRow | Kind::WhichRefusal => ask_handover(call, lent),
        Kind::Print => panic!("the printed text is not exported"),
    }
}

/// Pointer and count of what may be written.
fn lend<T: Canary>(guarded: &mut Guarded<T>) -> (*mut T, usize) {
    let part = guarded.part_mut();
    (part.as_mut_ptr(), part.len())
}

/// The same of each of the call's buffers; a call has just the buffers that are asked for here.
fn lend_all<const K: usize>(lent: &mut Lent) -> [(*mut u32, usize); K] {
    std::array::from_fn(|index| lend(&mut lent.buffers[index]))
}

// Every pointer below comes from a part of a block of its own, with that part's count, and the blocks outlive the call.

fn ask_read(lent: &mut Lent) -> Reply {
    let [(a, a_count), (m, m_count)] = lend_all(lent);
    let ((file, file_count), (p, p_count)) = (lend(&mut lent.file), lend(&mut lent.told));
    unsafe { tronglephu_read(file, file_count, a, a_count, m, m_count, p, p_count) }
}

fn ask_laws(lent: &mut Lent) -> Reply {
    let ((l, l_count), (p, p_count)) = (lend(&mut lent.language), lend(&mut lent.told));
    unsafe { tronglephu_laws(l, l_count, p, p_count) }
}

fn ask_fresh(call: &Call, lent: &mut Lent) -> Reply {
    let (l, l_count) = lend(&mut lent.language);
    let [(r, r_count)] = lend_all(lent);
    unsafe { tronglephu_fresh(l, l_count, call.n, r, r_count) }
}

fn ask_steps(call: &Call, lent: &mut Lent) -> Reply {
    let (l, l_count) = lend(&mut lent.language);
    let [(a, a_count), (r, r_count), (s, s_count)] = lend_all(lent);
    unsafe { tronglephu_steps(l, l_count, call.n, a, a_count, r, r_count, s, s_count) }
}

fn ask_equation(call: &Call, lent: &mut Lent) -> Reply {
    let (l, l_count) = lend(&mut lent.language);
    let [(a, a_count), (r, r_count)] = lend_all(lent);
    unsafe { tronglephu_equation(l, l_count, call.n, a, a_count, r, r_count) }
}

fn ask_forward(call: &Call, lent: &mut Lent) -> Reply {
    let (l, l_count) = lend(&mut lent.language);
    let [(a, a_count), (r, r_count), (m, m_count), (f, f_count)] = lend_all(lent);
    unsafe {
        tronglephu_forward(
            l, l_count, call.n, call.m, call.mode, a, a_count, r, r_count, m, m_count, f, f_count,
        )
    }
}

fn ask_next_hop(call: &Call, lent: &mut Lent) -> Reply {
    let (l, l_count) = lend(&mut lent.language);
    let [(a, a_count), (r, r_count)] = lend_all(lent);
    unsafe { tronglephu_next_hop(l, l_count, call.n, a, a_count, r, r_count, call.i, call.j) }
}

fn ask_handover(call: &Call, lent: &mut Lent) -> Reply {
    let (l, l_count) = lend(&mut lent.language);
    let [(a, a_count), (s, s_count), (w, w_count)] = lend_all(lent);
    unsafe {
        tronglephu_handover(
            l, l_count, call.n, a, a_count, s, s_count, w, w_count, call.i,
        )
    }
}
