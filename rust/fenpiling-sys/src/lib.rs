//! The functions of libfenpiling.a, as `include/fenpiling.h` declares and describes them. A slice goes as its address and its length.

/// An arena's state, which goes by value beside its tables: its capacity, and the lowest slot never given out plus 2^32 times the number of freed slots.
#[repr(C)]
#[derive(Clone, Copy, Debug, PartialEq, Eq)]
pub struct Arena {
    pub capacity: usize,
    pub slots: u64,
}

/// The place of a cell.
#[repr(C)]
#[derive(Clone, Copy, Debug, PartialEq, Eq)]
pub struct Cell {
    pub x: i32,
    pub y: i32,
    pub z: i32,
}

/// The eight children of a branch.
#[repr(C)]
#[derive(Clone, Copy, Debug, PartialEq, Eq)]
pub struct Children {
    pub ids: [u64; 8],
}

/// A call that answers no id, with the state's slots to pass next, accepted or refused.
#[repr(C)]
#[derive(Clone, Copy, Debug, PartialEq, Eq)]
pub struct Answer {
    pub no: u32,
    pub slots: u64,
}

/// A call that answers a node, with the state's slots to pass next, accepted or refused.
#[repr(C)]
#[derive(Clone, Copy, Debug, PartialEq, Eq)]
pub struct Made {
    pub no: u32,
    pub id: u64,
    pub slots: u64,
}

/// The two counts of a node.
#[repr(C)]
#[derive(Clone, Copy, Debug, PartialEq, Eq)]
pub struct Counted {
    pub no: u32,
    pub holds: u64,
    pub places: u64,
}

/// The value of a cell.
#[repr(C)]
#[derive(Clone, Copy, Debug, PartialEq, Eq)]
pub struct Looked {
    pub no: u32,
    pub value: u16,
}

/// The comparison of two models.
#[repr(C)]
#[derive(Clone, Copy, Debug, PartialEq, Eq)]
pub struct Compared {
    pub no: u32,
    pub count: u32,
    pub opened: u32,
}

/// What a record says.
#[repr(C)]
#[derive(Clone, Copy, Debug, PartialEq)]
pub struct Reading {
    pub no: u32,
    pub kind: u32,
    pub value: u16,
    pub x: f64,
    pub y: f64,
    pub z: f64,
    pub second_x: f64,
}

/// A packed id.
#[repr(C)]
#[derive(Clone, Copy, Debug, PartialEq, Eq)]
pub struct Packed {
    pub no: u32,
    pub id: u64,
}

/// The text of an id.
#[repr(C)]
#[derive(Clone, Copy, Debug, PartialEq, Eq)]
pub struct IdText {
    pub bytes: [u8; 41],
    pub length: usize,
}

/// The cell of a path code.
#[repr(C)]
#[derive(Clone, Copy, Debug, PartialEq, Eq)]
pub struct Decoded {
    pub no: u32,
    pub x: i32,
    pub y: i32,
    pub z: i32,
}

/// The number of a child.
#[repr(C)]
#[derive(Clone, Copy, Debug, PartialEq, Eq)]
pub struct Child {
    pub no: u32,
    pub index: usize,
}

// SAFETY: libfenpiling.a defines each function with these types. Those marked safe take numbers alone, any; the others read and write what they are lent
// and nothing else, whatever it holds.
unsafe extern "C" {
    pub unsafe fn fenpiling_fresh(
        capacity: usize,
        kids: *mut u64,
        kids_length: usize,
        facts: *mut u32,
        facts_length: usize,
        find: *mut u16,
        find_length: usize,
    ) -> Answer;
    pub unsafe fn fenpiling_intern_leaf(
        arena: Arena,
        kids: *mut u64,
        kids_length: usize,
        facts: *mut u32,
        facts_length: usize,
        find: *mut u16,
        find_length: usize,
        value: u16,
    ) -> Made;
    pub unsafe fn fenpiling_intern_branch(
        arena: Arena,
        kids: *mut u64,
        kids_length: usize,
        facts: *mut u32,
        facts_length: usize,
        find: *mut u16,
        find_length: usize,
        children: Children,
    ) -> Made;
    pub unsafe fn fenpiling_hold(
        arena: Arena,
        kids: *const u64,
        kids_length: usize,
        facts: *mut u32,
        facts_length: usize,
        find: *const u16,
        find_length: usize,
        id: u64,
    ) -> Answer;
    pub unsafe fn fenpiling_release(
        arena: Arena,
        kids: *mut u64,
        kids_length: usize,
        facts: *mut u32,
        facts_length: usize,
        find: *mut u16,
        find_length: usize,
        id: u64,
    ) -> Answer;
    pub unsafe fn fenpiling_counts(
        arena: Arena,
        kids: *const u64,
        kids_length: usize,
        facts: *const u32,
        facts_length: usize,
        find: *const u16,
        find_length: usize,
        id: u64,
    ) -> Counted;
    pub unsafe fn fenpiling_check(
        arena: Arena,
        kids: *const u64,
        kids_length: usize,
        facts: *mut u32,
        facts_length: usize,
        find: *const u16,
        find_length: usize,
    ) -> bool;
    pub unsafe fn fenpiling_get_at_depth(
        arena: Arena,
        kids: *const u64,
        kids_length: usize,
        facts: *const u32,
        facts_length: usize,
        find: *const u16,
        find_length: usize,
        id: u64,
        depth: u32,
        position: Cell,
    ) -> Looked;
    pub unsafe fn fenpiling_to_vec(
        arena: Arena,
        kids: *const u64,
        kids_length: usize,
        facts: *const u32,
        facts_length: usize,
        find: *const u16,
        find_length: usize,
        id: u64,
        depth: u32,
        cube: *mut u16,
        cube_length: usize,
    ) -> u32;
    pub unsafe fn fenpiling_set_voxel(
        arena: Arena,
        kids: *mut u64,
        kids_length: usize,
        facts: *mut u32,
        facts_length: usize,
        find: *mut u16,
        find_length: usize,
        root: u64,
        depth: u32,
        position: Cell,
        value: u16,
    ) -> Made;
    pub unsafe fn fenpiling_compare(
        arena: Arena,
        kids: *const u64,
        kids_length: usize,
        facts: *const u32,
        facts_length: usize,
        find: *const u16,
        find_length: usize,
        left: u64,
        right: u64,
        depth: u32,
        codes: *mut u32,
        codes_length: usize,
        lefts: *mut u16,
        lefts_length: usize,
        rights: *mut u16,
        rights_length: usize,
    ) -> Compared;
    pub unsafe fn fenpiling_parse_reading(record: *const u8, record_length: usize) -> Reading;
    pub unsafe fn fenpiling_enter_reading(
        arena: Arena,
        kids: *mut u64,
        kids_length: usize,
        facts: *mut u32,
        facts_length: usize,
        find: *mut u16,
        find_length: usize,
        root: u64,
        depth: u32,
        k: u32,
        record: *const u8,
        record_length: usize,
    ) -> Made;
    pub safe fn fenpiling_new_leaf(index: u32, generation: u16) -> Packed;
    pub safe fn fenpiling_new_branch(index: u32, generation: u16, types: u8, mask: u8) -> Packed;
    pub safe fn fenpiling_index(id: u64) -> u32;
    pub safe fn fenpiling_generation(id: u64) -> u16;
    pub safe fn fenpiling_types(id: u64) -> u8;
    pub safe fn fenpiling_mask(id: u64) -> u8;
    pub safe fn fenpiling_has_child(id: u64, child: u8) -> bool;
    pub safe fn fenpiling_is_leaf(id: u64) -> bool;
    pub safe fn fenpiling_is_branch(id: u64) -> bool;
    pub safe fn fenpiling_is_invalid(id: u64) -> bool;
    pub safe fn fenpiling_is_valid(id: u64) -> bool;
    pub safe fn fenpiling_is_empty(id: u64) -> bool;
    pub safe fn fenpiling_text(id: u64) -> IdText;
    pub safe fn fenpiling_encode_child_index_path(x: i32, y: i32, z: i32) -> u32;
    pub safe fn fenpiling_decode_child_index_path(code: u32) -> Decoded;
    pub safe fn fenpiling_child_index2(x: i32, y: i32, z: i32, level: u32, depth: u32) -> Child;
}
