//! Ids and paths, as crates/fenpiling exports them.

#[repr(C)]
pub struct Packed {
    pub no: u32,
    pub id: u64,
}

#[repr(C)]
pub struct Text {
    pub bytes: [u8; 41],
    pub len: usize,
}

#[repr(C)]
pub struct Cell {
    pub no: u32,
    pub x: i32,
    pub y: i32,
    pub z: i32,
}

#[repr(C)]
pub struct Child {
    pub no: u32,
    pub index: usize,
}

// SAFETY: crates/fenpiling defines each with these types, and proves that it is safe at every argument.
unsafe extern "C" {
    pub safe fn fenpiling_new_leaf(index: u32, generation: u16) -> Packed;
    pub safe fn fenpiling_new_branch(index: u32, generation: u16, types: u8, mask: u8) -> Packed;
    pub safe fn fenpiling_index(raw: u64) -> u32;
    pub safe fn fenpiling_generation(raw: u64) -> u16;
    pub safe fn fenpiling_types(raw: u64) -> u8;
    pub safe fn fenpiling_mask(raw: u64) -> u8;
    pub safe fn fenpiling_has_child(raw: u64, child: u8) -> bool;
    pub safe fn fenpiling_is_leaf(raw: u64) -> bool;
    pub safe fn fenpiling_is_branch(raw: u64) -> bool;
    pub safe fn fenpiling_is_invalid(raw: u64) -> bool;
    pub safe fn fenpiling_is_valid(raw: u64) -> bool;
    pub safe fn fenpiling_is_empty(raw: u64) -> bool;
    pub safe fn fenpiling_text(raw: u64) -> Text;
    pub safe fn fenpiling_encode_child_index_path(x: i32, y: i32, z: i32) -> u32;
    pub safe fn fenpiling_decode_child_index_path(code: u32) -> Cell;
    pub safe fn fenpiling_child_index2(x: i32, y: i32, z: i32, current: u32, max: u32) -> Child;
}
