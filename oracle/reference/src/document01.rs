//! Ids and paths as document 01 has them, written from that paper alone: bit by bit, and with its refusals.

/// EMPTY is raw 0.
pub const EMPTY: u64 = 0;
/// INVALID is raw 2^64 - 1.
pub const INVALID: u64 = u64::MAX;
/// Packing accepts generations to this one.
pub const MAX_GENERATION: u16 = 0x7FFE;

/// The field of `width` bits from bit `at` on.
fn field(raw: u64, at: u32, width: u32) -> u64 {
    (raw >> at) & ((1 << width) - 1)
}

/// The number of the refusal and INVALID, or 0 and the id of a leaf.
pub fn new_leaf(index: u32, generation: u16) -> (u32, u64) {
    pack(true, 0, 0, generation, index)
}

/// The number of the refusal and INVALID, or 0 and the id of a branch.
pub fn new_branch(index: u32, generation: u16, types: u8, mask: u8) -> (u32, u64) {
    pack(false, types, mask, generation, index)
}

fn pack(leaf: bool, types: u8, mask: u8, generation: u16, index: u32) -> (u32, u64) {
    if generation > MAX_GENERATION {
        return (12, INVALID);
    }
    let id = u64::from(leaf) << 63
        | u64::from(types) << 55
        | u64::from(mask) << 47
        | u64::from(generation) << 32
        | u64::from(index);
    (0, id)
}

pub fn is_leaf(raw: u64) -> bool {
    field(raw, 63, 1) == 1
}

pub fn index(raw: u64) -> u32 {
    field(raw, 0, 32) as u32
}

pub fn generation(raw: u64) -> u16 {
    field(raw, 32, 15) as u16
}

/// 0 of an id with bit 63 set.
pub fn types(raw: u64) -> u8 {
    if is_leaf(raw) {
        0
    } else {
        field(raw, 55, 8) as u8
    }
}

/// 0 of an id with bit 63 set.
pub fn mask(raw: u64) -> u8 {
    if is_leaf(raw) {
        0
    } else {
        field(raw, 47, 8) as u8
    }
}

/// No of an id with bit 63 set, and no for a child number above 7.
pub fn has_child(raw: u64, child: u8) -> bool {
    child < 8 && field(u64::from(mask(raw)), u32::from(child), 1) == 1
}

pub fn text(raw: u64) -> String {
    if raw == INVALID {
        "Id(INVALID)".to_string()
    } else if raw == EMPTY {
        "Id(EMPTY)".to_string()
    } else {
        let (i, g) = (index(raw), generation(raw));
        if is_leaf(raw) {
            format!("Id(L, i: {i:08X}, g: {g:04X})")
        } else {
            let (m, t) = (mask(raw), types(raw));
            format!("Id(B, i: {i:08X}, g: {g:04X}, m: {m:02X}, t: {t:02X})")
        }
    }
}

/// Bit n of a coordinate in two's complement.
fn bit(coordinate: i32, n: u32) -> u32 {
    (coordinate as u32 >> n) & 1
}

/// Bit n of x to 3n, of y to 3n+1, of z to 3n+2, for the low 10 bits.
pub fn path(x: i32, y: i32, z: i32) -> u32 {
    (0..10)
        .map(|n| bit(x, n) << (3 * n) | bit(y, n) << (3 * n + 1) | bit(z, n) << (3 * n + 2))
        .sum()
}

/// The number of the refusal and (0, 0, 0), or 0 and the cell of a path code.
pub fn cell(code: u32) -> (u32, i32, i32, i32) {
    if code >= 1 << 30 {
        return (3, 0, 0, 0);
    }
    let axis = |first: u32| -> i32 {
        (0..10)
            .map(|n| (((code >> (3 * n + first)) & 1) << n) as i32)
            .sum()
    };
    (0, axis(0), axis(1), axis(2))
}

/// The number of the refusal of a child number at level `level` of depth `depth`, or 0. The lowest number that applies is given.
pub fn child_refusal(x: i32, y: i32, z: i32, level: u32, depth: u32) -> u32 {
    if depth > 6 || level >= depth {
        2
    } else if [x, y, z].iter().any(|c| *c < 0 || *c >= 1 << depth) {
        3
    } else {
        0
    }
}

/// The number of the refusal and 0, or 0 and the child number: bit d-1-k of x, plus twice that of y, plus four times that of z.
pub fn child(x: i32, y: i32, z: i32, level: u32, depth: u32) -> (u32, u32) {
    match child_refusal(x, y, z, level, depth) {
        0 => {
            let n = depth - 1 - level;
            (0, bit(x, n) + 2 * bit(y, n) + 4 * bit(z, n))
        }
        refusal => (refusal, 0),
    }
}
