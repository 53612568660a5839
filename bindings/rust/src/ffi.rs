//! The functions of `include/tronglephu.h`, each behind a safe function on slices. All `unsafe` of the crate stands here.
//!
//! The functions take any bytes and any lengths, so nothing is checked before a call. What they ask of pointers a slice
//! gives: it is valid and aligned for its count, non-null also with count 0, and a `&mut` slice overlaps no other.

/// An answer: number, which and place, 0 0 0 being done, and the one number that the call gives.
#[repr(C)]
#[derive(Clone, Copy, Debug, PartialEq, Eq)]
pub(crate) struct Answer {
    pub number: u32,
    pub which: u32,
    pub place: u32,
    pub value: u32,
}

/// The least words of the reader's buffers and of a law report.
pub(crate) const ARCS_ROOM: usize = 1_024;
pub(crate) const MAPPING_ROOM: usize = 2_560;
pub(crate) const PROBLEM_WORDS: usize = 12;
pub(crate) const REPORT_WORDS: usize = 36;

/// A next hop's value for none, and a handover's values.
pub(crate) const NO_NODE: u32 = 255;
pub(crate) const NEWER: u32 = 2;

mod exported {
    use super::Answer;

    extern "C" {
        pub fn tronglephu_read(
            file: *const u8,
            file_count: usize,
            arcs: *mut u32,
            arcs_count: usize,
            mapping: *mut u32,
            mapping_count: usize,
            problem: *mut u32,
            problem_count: usize,
        ) -> Answer;

        pub fn tronglephu_laws(
            language: *const u16,
            language_count: usize,
            report: *mut u32,
            report_count: usize,
        ) -> Answer;

        pub fn tronglephu_fresh(
            language: *const u16,
            language_count: usize,
            n: u32,
            r: *mut u32,
            r_count: usize,
        ) -> Answer;

        pub fn tronglephu_steps(
            language: *const u16,
            language_count: usize,
            n: u32,
            a: *const u32,
            a_count: usize,
            r: *mut u32,
            r_count: usize,
            list: *const u32,
            list_count: usize,
        ) -> Answer;

        pub fn tronglephu_equation(
            language: *const u16,
            language_count: usize,
            n: u32,
            a: *const u32,
            a_count: usize,
            r: *const u32,
            r_count: usize,
        ) -> Answer;

        pub fn tronglephu_forward(
            language: *const u16,
            language_count: usize,
            n: u32,
            m: u32,
            mode: u32,
            a: *const u32,
            a_count: usize,
            r: *const u32,
            r_count: usize,
            mapping: *const u32,
            mapping_count: usize,
            f: *mut u32,
            f_count: usize,
        ) -> Answer;

        pub fn tronglephu_next_hop(
            language: *const u16,
            language_count: usize,
            n: u32,
            a: *const u32,
            a_count: usize,
            r: *const u32,
            r_count: usize,
            i: u32,
            j: u32,
        ) -> Answer;

        pub fn tronglephu_handover(
            language: *const u16,
            language_count: usize,
            n: u32,
            a: *const u32,
            a_count: usize,
            standing: *const u32,
            standing_count: usize,
            newer: *const u32,
            newer_count: usize,
            i: u32,
        ) -> Answer;
    }
}

pub(crate) fn read(
    file: &[u8],
    arcs: &mut [u32],
    mapping: &mut [u32],
    problem: &mut [u32],
) -> Answer {
    // SAFETY: every pointer comes from a slice, with that slice's count.
    unsafe {
        exported::tronglephu_read(
            file.as_ptr(),
            file.len(),
            arcs.as_mut_ptr(),
            arcs.len(),
            mapping.as_mut_ptr(),
            mapping.len(),
            problem.as_mut_ptr(),
            problem.len(),
        )
    }
}

pub(crate) fn laws(language: &[u16], report: &mut [u32]) -> Answer {
    // SAFETY: every pointer comes from a slice, with that slice's count.
    unsafe {
        exported::tronglephu_laws(
            language.as_ptr(),
            language.len(),
            report.as_mut_ptr(),
            report.len(),
        )
    }
}

pub(crate) fn fresh(language: &[u16], n: u32, r: &mut [u32]) -> Answer {
    // SAFETY: every pointer comes from a slice, with that slice's count.
    unsafe {
        exported::tronglephu_fresh(
            language.as_ptr(),
            language.len(),
            n,
            r.as_mut_ptr(),
            r.len(),
        )
    }
}

pub(crate) fn steps(language: &[u16], n: u32, a: &[u32], r: &mut [u32], list: &[u32]) -> Answer {
    // SAFETY: every pointer comes from a slice, with that slice's count.
    unsafe {
        exported::tronglephu_steps(
            language.as_ptr(),
            language.len(),
            n,
            a.as_ptr(),
            a.len(),
            r.as_mut_ptr(),
            r.len(),
            list.as_ptr(),
            list.len(),
        )
    }
}

pub(crate) fn equation(language: &[u16], n: u32, a: &[u32], r: &[u32]) -> Answer {
    // SAFETY: every pointer comes from a slice, with that slice's count.
    unsafe {
        exported::tronglephu_equation(
            language.as_ptr(),
            language.len(),
            n,
            a.as_ptr(),
            a.len(),
            r.as_ptr(),
            r.len(),
        )
    }
}

/// The numbers of a forwarding call.
pub(crate) struct Sizes {
    pub n: u32,
    pub m: u32,
    pub mode: u32,
}

pub(crate) fn forward(
    language: &[u16],
    sizes: Sizes,
    a: &[u32],
    r: &[u32],
    mapping: &[u32],
    f: &mut [u32],
) -> Answer {
    // SAFETY: every pointer comes from a slice, with that slice's count.
    unsafe {
        exported::tronglephu_forward(
            language.as_ptr(),
            language.len(),
            sizes.n,
            sizes.m,
            sizes.mode,
            a.as_ptr(),
            a.len(),
            r.as_ptr(),
            r.len(),
            mapping.as_ptr(),
            mapping.len(),
            f.as_mut_ptr(),
            f.len(),
        )
    }
}

pub(crate) fn next_hop(language: &[u16], n: u32, a: &[u32], r: &[u32], i: u32, j: u32) -> Answer {
    // SAFETY: every pointer comes from a slice, with that slice's count.
    unsafe {
        exported::tronglephu_next_hop(
            language.as_ptr(),
            language.len(),
            n,
            a.as_ptr(),
            a.len(),
            r.as_ptr(),
            r.len(),
            i,
            j,
        )
    }
}

pub(crate) fn handover(
    language: &[u16],
    n: u32,
    a: &[u32],
    standing: &[u32],
    newer: &[u32],
    i: u32,
) -> Answer {
    // SAFETY: every pointer comes from a slice, with that slice's count.
    unsafe {
        exported::tronglephu_handover(
            language.as_ptr(),
            language.len(),
            n,
            a.as_ptr(),
            a.len(),
            standing.as_ptr(),
            standing.len(),
            newer.as_ptr(),
            newer.len(),
            i,
        )
    }
}
