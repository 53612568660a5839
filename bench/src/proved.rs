//! The proved library, through its exported functions.

#[repr(C)]
#[derive(Clone, Copy, Debug, PartialEq, Eq)]
pub struct Answer {
    pub number: u32,
    pub which: u32,
    pub place: u32,
    pub value: u32,
}

mod exported {
    use super::Answer;

    extern "C" {
        pub fn tronglephu_read(
            file: *const u8,
            file_count: usize,
            arcs: *mut u32,
            arcs_count: usize,
            mapping: *mut u32,
            mapping_count: usize,
            problem: *mut u32,
            problem_count: usize,
        ) -> Answer;
        pub fn tronglephu_steps(
            language: *const u16,
            language_count: usize,
            n: u32,
            a: *const u32,
            a_count: usize,
            r: *mut u32,
            r_count: usize,
            list: *const u32,
            list_count: usize,
        ) -> Answer;
        pub fn tronglephu_forward(
            language: *const u16,
            language_count: usize,
            n: u32,
            m: u32,
            mode: u32,
            a: *const u32,
            a_count: usize,
            r: *const u32,
            r_count: usize,
            mapping: *const u32,
            mapping_count: usize,
            f: *mut u32,
            f_count: usize,
        ) -> Answer;
        pub fn tronglephu_handover(
            language: *const u16,
            language_count: usize,
            n: u32,
            a: *const u32,
            a_count: usize,
            standing: *const u32,
            standing_count: usize,
            newer: *const u32,
            newer_count: usize,
            i: u32,
        ) -> Answer;
    }
}

pub fn steps(l: &[u16; 9], n: u32, a: &[u32], r: &mut [u32], list: &[u32]) -> Answer {
    // Safety: every pointer and count is a slice's, and r overlaps no other.
    unsafe {
        exported::tronglephu_steps(
            l.as_ptr(),
            l.len(),
            n,
            a.as_ptr(),
            a.len(),
            r.as_mut_ptr(),
            r.len(),
            list.as_ptr(),
            list.len(),
        )
    }
}

#[allow(clippy::too_many_arguments)]
pub fn forward(
    l: &[u16; 9],
    n: u32,
    m: u32,
    mode: u32,
    a: &[u32],
    r: &[u32],
    mapping: &[u32],
    f: &mut [u32],
) -> Answer {
    // Safety: as above.
    unsafe {
        exported::tronglephu_forward(
            l.as_ptr(),
            l.len(),
            n,
            m,
            mode,
            a.as_ptr(),
            a.len(),
            r.as_ptr(),
            r.len(),
            mapping.as_ptr(),
            mapping.len(),
            f.as_mut_ptr(),
            f.len(),
        )
    }
}

pub fn handover(
    l: &[u16; 9],
    n: u32,
    a: &[u32],
    standing: &[u32],
    newer: &[u32],
    i: u32,
) -> Answer {
    // Safety: as above.
    unsafe {
        exported::tronglephu_handover(
            l.as_ptr(),
            l.len(),
            n,
            a.as_ptr(),
            a.len(),
            standing.as_ptr(),
            standing.len(),
            newer.as_ptr(),
            newer.len(),
            i,
        )
    }
}

pub fn read(file: &[u8], arcs: &mut [u32], mapping: &mut [u32], problem: &mut [u32]) -> Answer {
    // Safety: as above.
    unsafe {
        exported::tronglephu_read(
            file.as_ptr(),
            file.len(),
            arcs.as_mut_ptr(),
            arcs.len(),
            mapping.as_mut_ptr(),
            mapping.len(),
            problem.as_mut_ptr(),
            problem.len(),
        )
    }
}
