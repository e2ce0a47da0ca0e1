//! The functions of the port, each with its arguments and the comparison of one input.
use crate::judge::{Listed, Original, Outcome, judge};
use glam::IVec3;
use port::*;
use reference::{answer_or_panic, document01};
use voxelis::BlockId;
use voxelis::utils::common::{child_index2, encode_child_index_path};

/// An argument's name and the least and the most that its type holds.
pub struct Argument {
    pub name: &'static str,
    pub least: i128,
    pub most: i128,
}

pub struct Function {
    pub name: &'static str,
    pub arguments: &'static [Argument],
    /// Compares one input, which has a number within bounds for each argument.
    pub compare: fn(&[i128]) -> Outcome,
}

const fn unsigned(name: &'static str, bits: u32) -> Argument {
    Argument {
        name,
        least: 0,
        most: (1 << bits) - 1,
    }
}

const fn coordinate(name: &'static str) -> Argument {
    Argument {
        name,
        least: i32::MIN as i128,
        most: i32::MAX as i128,
    }
}

const RAW: [Argument; 1] = [unsigned("raw", 64)];
const CELL: [Argument; 3] = [coordinate("x"), coordinate("y"), coordinate("z")];

pub const NEW_LEAF: Function = Function {
    name: "new_leaf",
    arguments: &[unsigned("index", 32), unsigned("generation", 16)],
    compare: |input| {
        let (index, generation) = (input[0] as u32, input[1] as u16);
        let port = fenpiling_new_leaf(index, generation);
        judge(
            (port.no, port.id),
            document01::new_leaf(index, generation),
            answer_or_panic(|| (0, BlockId::new_leaf(index, generation).raw())),
            refused_packing(generation),
        )
    },
};

pub const NEW_BRANCH: Function = Function {
    name: "new_branch",
    arguments: &[
        unsigned("index", 32),
        unsigned("generation", 16),
        unsigned("types", 8),
        unsigned("mask", 8),
    ],
    compare: |input| {
        let (index, generation) = (input[0] as u32, input[1] as u16);
        let (types, mask) = (input[2] as u8, input[3] as u8);
        let port = fenpiling_new_branch(index, generation, types, mask);
        judge(
            (port.no, port.id),
            document01::new_branch(index, generation, types, mask),
            answer_or_panic(|| (0, BlockId::new_branch(index, generation, types, mask).raw())),
            refused_packing(generation),
        )
    },
};

fn refused_packing(generation: u16) -> Listed<(u32, u64)> {
    (generation > document01::MAX_GENERATION).then_some((
        "D20 generation above 0x7FFE: refusal 12, the Rust panics",
        Original::Panics("Generation overflow"),
    ))
}

pub const INDEX: Function = Function {
    name: "index",
    arguments: &RAW,
    compare: |input| {
        let raw = input[0] as u64;
        judge(
            fenpiling_index(raw),
            document01::index(raw),
            answer_or_panic(|| BlockId::from_raw(raw).index()),
            None,
        )
    },
};

pub const GENERATION: Function = Function {
    name: "generation",
    arguments: &RAW,
    compare: |input| {
        let raw = input[0] as u64;
        judge(
            fenpiling_generation(raw),
            document01::generation(raw),
            answer_or_panic(|| BlockId::from_raw(raw).generation()),
            None,
        )
    },
};

pub const TYPES: Function = Function {
    name: "types",
    arguments: &RAW,
    compare: |input| {
        let raw = input[0] as u64;
        judge(
            fenpiling_types(raw),
            document01::types(raw),
            answer_or_panic(|| BlockId::from_raw(raw).types()),
            document01::is_leaf(raw).then_some((
                "D20 types of a leaf: 0, the Rust panics",
                Original::Panics("Cannot get types from a leaf node"),
            )),
        )
    },
};

pub const MASK: Function = Function {
    name: "mask",
    arguments: &RAW,
    compare: |input| {
        let raw = input[0] as u64;
        judge(
            fenpiling_mask(raw),
            document01::mask(raw),
            answer_or_panic(|| BlockId::from_raw(raw).mask()),
            document01::is_leaf(raw).then_some((
                "D20 mask of a leaf: 0, the Rust panics",
                Original::Panics("Cannot get mask from a leaf node"),
            )),
        )
    },
};

pub const HAS_CHILD: Function = Function {
    name: "has_child",
    arguments: &[unsigned("raw", 64), unsigned("child", 8)],
    compare: |input| {
        let (raw, child) = (input[0] as u64, input[1] as u8);
        let listed = if document01::is_leaf(raw) {
            Some((
                "D20 a child of a leaf: no, the Rust panics",
                Original::Panics("Cannot check child on a leaf node"),
            ))
        } else if child > 7 {
            Some((
                "D20 a child number above 7: no, the Rust panics",
                Original::Panics("Child index out of bounds (0-7)"),
            ))
        } else {
            None
        };
        judge(
            fenpiling_has_child(raw, child),
            document01::has_child(raw, child),
            answer_or_panic(|| BlockId::from_raw(raw).has_child(child)),
            listed,
        )
    },
};

pub const IS_LEAF: Function = Function {
    name: "is_leaf",
    arguments: &RAW,
    compare: |input| {
        let raw = input[0] as u64;
        judge(
            fenpiling_is_leaf(raw),
            document01::is_leaf(raw),
            answer_or_panic(|| BlockId::from_raw(raw).is_leaf()),
            None,
        )
    },
};

pub const IS_BRANCH: Function = Function {
    name: "is_branch",
    arguments: &RAW,
    compare: |input| {
        let raw = input[0] as u64;
        judge(
            fenpiling_is_branch(raw),
            !document01::is_leaf(raw),
            answer_or_panic(|| BlockId::from_raw(raw).is_branch()),
            None,
        )
    },
};

pub const IS_INVALID: Function = Function {
    name: "is_invalid",
    arguments: &RAW,
    compare: |input| {
        let raw = input[0] as u64;
        judge(
            fenpiling_is_invalid(raw),
            raw == document01::INVALID,
            answer_or_panic(|| BlockId::from_raw(raw).is_invalid()),
            None,
        )
    },
};

pub const IS_VALID: Function = Function {
    name: "is_valid",
    arguments: &RAW,
    compare: |input| {
        let raw = input[0] as u64;
        judge(
            fenpiling_is_valid(raw),
            raw != document01::INVALID,
            answer_or_panic(|| BlockId::from_raw(raw).is_valid()),
            None,
        )
    },
};

pub const IS_EMPTY: Function = Function {
    name: "is_empty",
    arguments: &RAW,
    compare: |input| {
        let raw = input[0] as u64;
        judge(
            fenpiling_is_empty(raw),
            raw == document01::EMPTY,
            answer_or_panic(|| BlockId::from_raw(raw).is_empty()),
            None,
        )
    },
};

/// The text, and that all bytes after it are 0. The original has it twice, as `Display` and as `Debug`.
pub const TEXT: Function = Function {
    name: "text",
    arguments: &RAW,
    compare: |input| {
        let raw = input[0] as u64;
        let port = fenpiling_text(raw);
        if port.len > port.bytes.len() || port.bytes[port.len..].iter().any(|byte| *byte != 0) {
            return Outcome::Different(format!(
                "the port's text has length {} and bytes {:?}",
                port.len, port.bytes
            ));
        }
        judge(
            String::from_utf8_lossy(&port.bytes[..port.len]).into_owned(),
            document01::text(raw),
            answer_or_panic(|| {
                let id = BlockId::from_raw(raw);
                let text = format!("{id}");
                assert_eq!(text, format!("{id:?}"));
                text
            }),
            None,
        )
    },
};

/// The original has it twice, as a function and as a macro.
pub const ENCODE: Function = Function {
    name: "encode_child_index_path",
    arguments: &CELL,
    compare: |input| {
        let (x, y, z) = (input[0] as i32, input[1] as i32, input[2] as i32);
        judge(
            fenpiling_encode_child_index_path(x, y, z),
            document01::path(x, y, z),
            answer_or_panic(|| {
                let cell = IVec3::new(x, y, z);
                let code = encode_child_index_path(&cell);
                assert_eq!(code, voxelis::encode_child_index_path_macro!(cell));
                code
            }),
            None,
        )
    },
};

/// The original has no inverse: its own path of the cell that the port answers has to be the code. At a refusal, where that cell is 0, 0, 0, it is not.
pub const DECODE: Function = Function {
    name: "decode_child_index_path",
    arguments: &[unsigned("code", 32)],
    compare: |input| {
        let code = input[0] as u32;
        let port = fenpiling_decode_child_index_path(code);
        let has_this_code = encode_child_index_path(&IVec3::new(port.x, port.y, port.z)) == code;
        let original = if has_this_code {
            Ok((0, port.x, port.y, port.z))
        } else {
            Err("its code is another".to_string())
        };
        judge(
            (port.no, port.x, port.y, port.z),
            document01::cell(code),
            original,
            (code >= 1 << 30).then_some((
                "D23 a code that no cell has: refusal 3",
                Original::Panics("its code is another"),
            )),
        )
    },
};

pub const CHILD_INDEX2: Function = Function {
    name: "child_index2",
    arguments: &[
        coordinate("x"),
        coordinate("y"),
        coordinate("z"),
        unsigned("current", 32),
        unsigned("max", 32),
    ],
    compare: |input| {
        let (x, y, z) = (input[0] as i32, input[1] as i32, input[2] as i32);
        let (current, max) = (input[3] as u32, input[4] as u32);
        let port = fenpiling_child_index2(x, y, z, current, max);
        let (no, child) = document01::child(x, y, z, current, max);
        judge(
            (port.no, port.index),
            (no, child as usize),
            answer_or_panic(|| {
                let cell = IVec3::new(x, y, z);
                (0, child_index2(&cell, current as usize, max as usize))
            }),
            child_departure(x, y, z, current, max),
        )
    },
};

fn child_departure(x: i32, y: i32, z: i32, current: u32, max: u32) -> Listed<(u32, usize)> {
    if current >= max {
        return Some((
            "D10 level not below the depth: refusal 2, the Rust panics",
            Original::Panics("attempt to subtract with overflow"),
        ));
    }
    let shift = max - current - 1;
    if shift > 63 {
        return Some((
            "D11 depth more than 64 above the level: refusal 2, the Rust panics",
            Original::Panics("attempt to shift right with overflow"),
        ));
    }
    // The Rust reads the bit of the coordinate in two's complement, wherever the cell lies.
    let bit = |coordinate: i32| ((i64::from(coordinate) >> shift) & 1) as usize;
    let answer = Original::Answers((0, bit(x) | bit(y) << 1 | bit(z) << 2));
    match document01::child_refusal(x, y, z, current, max) {
        0 => None,
        2 => Some(("D11 depth above 6: refusal 2, the Rust answers", answer)),
        _ => Some((
            "D9 a coordinate outside the cube: refusal 3, the Rust answers",
            answer,
        )),
    }
}
