//! Readings in metres, as crates/fenpiling exports them: what a record says, and entering it on tables that the caller lends.
use crate::arena::{Arena, Made, Tables};

/// What a record says, or the number of the refusal.
#[repr(C)]
#[derive(Clone, Copy, Debug, PartialEq)]
pub struct Reading {
    pub no: u32,
    pub kind: u32,
    pub value: u16,
    pub x: f64,
    pub y: f64,
    pub z: f64,
    pub second_x: f64,
}

// A slice goes as its address and its length.
unsafe extern "C" {
    fn fenpiling_parse_reading(record: *const u8, record_len: usize) -> Reading;
    fn fenpiling_enter_reading(
        arena: Arena,
        kids: *mut u64,
        kids_len: usize,
        facts: *mut u32,
        facts_len: usize,
        find: *mut u16,
        find_len: usize,
        root: u64,
        depth: u32,
        k: u32,
        record: *const u8,
        record_len: usize,
    ) -> Made;
}

#[inline]
pub fn parse(record: &[u8]) -> Reading {
    // SAFETY: crates/fenpiling defines the function with these types, and proves that it is safe on any record.
    unsafe { fenpiling_parse_reading(record.as_ptr(), record.len()) }
}

#[inline]
pub fn enter(
    arena: Arena,
    tables: &mut Tables,
    root: u64,
    depth: u32,
    k: u32,
    record: &[u8],
) -> Made {
    call!(fenpiling_enter_reading(
        arena,
        tables,
        root,
        depth,
        k,
        record.as_ptr(),
        record.len()
    ))
}
