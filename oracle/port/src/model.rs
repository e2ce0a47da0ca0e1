//! The arena check, lookup, expansion and the edit, as crates/fenpiling exports them, on tables that the caller lends.
use crate::arena::{Arena, Made, Tables};

/// The place of a cell.
#[repr(C)]
#[derive(Clone, Copy, Debug, PartialEq, Eq)]
pub struct Cell {
    pub x: i32,
    pub y: i32,
    pub z: i32,
}

/// The answer of lookup.
#[repr(C)]
#[derive(Clone, Copy, Debug, PartialEq, Eq)]
pub struct Looked {
    pub no: u32,
    pub value: u16,
}

// A slice goes as its address and its length.
unsafe extern "C" {
    fn fenpiling_check(
        arena: Arena,
        kids: *const u64,
        kids_len: usize,
        facts: *mut u32,
        facts_len: usize,
        find: *const u16,
        find_len: usize,
    ) -> bool;
    fn fenpiling_get_at_depth(
        arena: Arena,
        kids: *const u64,
        kids_len: usize,
        facts: *const u32,
        facts_len: usize,
        find: *const u16,
        find_len: usize,
        id: u64,
        depth: u32,
        position: Cell,
    ) -> Looked;
    fn fenpiling_to_vec(
        arena: Arena,
        kids: *const u64,
        kids_len: usize,
        facts: *const u32,
        facts_len: usize,
        find: *const u16,
        find_len: usize,
        id: u64,
        depth: u32,
        cube: *mut u16,
        cube_len: usize,
    ) -> u32;
    fn fenpiling_set_voxel(
        arena: Arena,
        kids: *mut u64,
        kids_len: usize,
        facts: *mut u32,
        facts_len: usize,
        find: *mut u16,
        find_len: usize,
        root: u64,
        depth: u32,
        position: Cell,
        value: u16,
    ) -> Made;
}

#[inline]
pub fn check(arena: Arena, tables: &mut Tables) -> bool {
    call!(fenpiling_check(arena, tables))
}

#[inline]
pub fn get_at_depth(
    arena: Arena,
    tables: &mut Tables,
    id: u64,
    depth: u32,
    position: Cell,
) -> Looked {
    call!(fenpiling_get_at_depth(arena, tables, id, depth, position))
}

#[inline]
pub fn to_vec(arena: Arena, tables: &mut Tables, id: u64, depth: u32, cube: &mut [u16]) -> u32 {
    call!(fenpiling_to_vec(
        arena,
        tables,
        id,
        depth,
        cube.as_mut_ptr(),
        cube.len()
    ))
}

#[inline]
pub fn set_voxel(
    arena: Arena,
    tables: &mut Tables,
    root: u64,
    depth: u32,
    position: Cell,
    value: u16,
) -> Made {
    call!(fenpiling_set_voxel(
        arena, tables, root, depth, position, value
    ))
}
