//! Two roots side by side, as crates/fenpiling exports it, on tables and a list that the caller lends.
use crate::arena::{Arena, Tables};

/// The answer of a comparison.
#[repr(C)]
#[derive(Clone, Copy, Debug, PartialEq, Eq)]
pub struct Compared {
    pub no: u32,
    pub count: u32,
    pub opened: u32,
}

/// The three parts of a lent list: path codes, and the values on both sides.
pub struct List<'a> {
    pub codes: &'a mut [u32],
    pub lefts: &'a mut [u16],
    pub rights: &'a mut [u16],
}

// A slice goes as its address and its length.
unsafe extern "C" {
    fn fenpiling_compare(
        arena: Arena,
        kids: *const u64,
        kids_len: usize,
        facts: *const u32,
        facts_len: usize,
        find: *const u16,
        find_len: usize,
        left: u64,
        right: u64,
        depth: u32,
        codes: *mut u32,
        codes_len: usize,
        lefts: *mut u16,
        lefts_len: usize,
        rights: *mut u16,
        rights_len: usize,
    ) -> Compared;
}

#[inline]
pub fn compare(
    arena: Arena,
    tables: &mut Tables,
    left: u64,
    right: u64,
    depth: u32,
    list: &mut List,
) -> Compared {
    call!(fenpiling_compare(
        arena,
        tables,
        left,
        right,
        depth,
        list.codes.as_mut_ptr(),
        list.codes.len(),
        list.lefts.as_mut_ptr(),
        list.lefts.len(),
        list.rights.as_mut_ptr(),
        list.rights.len()
    ))
}
