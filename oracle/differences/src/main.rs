//! Shows on the original what docs/DIFFERENCES.md says of ids, paths, the arena and reading: each departure at its smallest input. The original's own checks are on
//! under --release and off under --profile unchecked.
mod arena;
mod reading;

use glam::IVec3;
use reference::{answer_or_panic, document01};
use std::fmt::Debug;
use std::hint::black_box;
use voxelis::utils::common::{child_index, child_index2, encode_child_index_path};
use voxelis::{BlockId, TraversalDepth, child_index_macro, child_index_macro_2};

/// Prints a call, what the original does, and what the port does by document 01.
fn show<T: Debug>(departure: &str, call: &str, original: impl FnOnce() -> T, port: &str) {
    let original = match answer_or_panic(original) {
        Ok(answer) => format!("answers {answer:?}"),
        Err(words) => format!("panics: {}", words.replace('\n', " ")),
    };
    println!("{departure:4} {call:50} the Rust {original}; the port {port}");
}

/// The port's answer, or the number of its refusal.
fn port_child(x: i32, y: i32, z: i32, level: u32, depth: u32) -> String {
    match document01::child(x, y, z, level, depth) {
        (0, child) => format!("answers {child}"),
        (refusal, _) => format!("refuses with {refusal}"),
    }
}

fn show_child(departure: &str, [x, y, z]: [i32; 3], level: u32, depth: u32) {
    show(
        departure,
        &format!("child_index2(({x}, {y}, {z}), {level}, {depth})"),
        || {
            child_index2(
                &IVec3::new(x, y, z),
                black_box(level as usize),
                black_box(depth as usize),
            )
        },
        &port_child(x, y, z, level, depth),
    );
}

fn packing() {
    let refusal = "refuses with 12 and gives INVALID";
    show(
        "D20",
        "new_leaf(0, 0x7FFF)",
        || BlockId::new_leaf(0, black_box(0x7FFF)),
        refusal,
    );
    show(
        "D20",
        "new_branch(0, 0x7FFF, 0, 0)",
        || BlockId::new_branch(0, black_box(0x7FFF), 0, 0),
        refusal,
    );
}

fn fields() {
    let leaf = BlockId::from_raw(black_box(1 << 63));
    let branch = BlockId::from_raw(black_box(0));
    show(
        "D20",
        "types of raw 0x8000000000000000",
        || leaf.types(),
        "answers 0",
    );
    show(
        "D20",
        "mask of raw 0x8000000000000000",
        || leaf.mask(),
        "answers 0",
    );
    show(
        "D20",
        "has_child(0) of raw 0x8000000000000000",
        || leaf.has_child(0),
        "answers no",
    );
    show(
        "D20",
        "has_child(8) of raw 0",
        || branch.has_child(black_box(8)),
        "answers no",
    );
    show(
        "D20",
        "types of INVALID",
        || BlockId::INVALID.types(),
        "answers 0",
    );
}

fn child_numbers() {
    show_child("D9", [-1, 0, 0], 0, 1);
    show_child("D9", [2, 0, 0], 0, 1);
    show_child("D9", [3, 3, 3], 0, 1);
    show_child("D10", [0, 0, 0], 0, 0);
    show_child("D10", [-1, 0, 0], 0, 0);
    show_child("D11", [0, 0, 0], 0, 7);
    show_child("D11", [64, 0, 0], 0, 7);
    show_child("D11", [1, 0, 0], 0, 65);
}

/// The largest code of the original is 2^30 - 1: above it the inverse, which the port adds, has no cell.
fn inverse() {
    let most = (0..10).fold(0, |code, n| {
        code | encode_child_index_path(&IVec3::new(1 << n, 1 << n, 1 << n))
    });
    show(
        "D23",
        "the largest path code",
        || most,
        "refuses larger ones in the inverse with 3",
    );
}

fn forms() {
    show(
        "D24",
        "BlockId::default()",
        BlockId::default,
        "has no default: INVALID has a name",
    );
    show(
        "D24",
        "u64::from(BlockId::from(7u64))",
        || u64::from(BlockId::from(7u64)),
        "has from_raw and raw",
    );
    let id = BlockId::new_leaf(1, 0);
    show(
        "D25",
        "format!(\"{id:?}\") == format!(\"{id}\")",
        || format!("{id:?}") == format!("{id}"),
        "has one text",
    );
    show(
        "D25",
        "format!(\"{id:40}\"), a width",
        || format!("{id:40}"),
        "takes no width",
    );
    let far = IVec3::new(1, 0, 0);
    show(
        "D26",
        "child_index2((1, 0, 0), 2^32, 2^32 + 1)",
        || child_index2(&far, black_box(1 << 32), black_box((1 << 32) + 1)),
        "cannot be asked: its numbers are u32",
    );
    let mut agreed = 0u64;
    for max in 1..=8u8 {
        for current in 0..max {
            for cell in 0..512 {
                let cell = IVec3::new(cell & 7, (cell >> 3) & 7, cell >> 6);
                let depth = TraversalDepth::new(current, max);
                let expected = child_index2(&cell, current.into(), max.into());
                assert_eq!(child_index(&cell, &depth), expected);
                assert_eq!(child_index_macro!(cell, depth), expected);
                assert_eq!(child_index_macro_2!(cell, current, max), expected);
                agreed += 1;
            }
        }
    }
    println!(
        "D27  child_index, child_index_macro and child_index_macro_2 answer as child_index2 does at {agreed} inputs; the port has child_index2 alone"
    );
}

fn main() {
    reference::quiet();
    println!(
        "the original, built with its own checks {}",
        if cfg!(debug_assertions) { "on" } else { "off" }
    );
    packing();
    fields();
    child_numbers();
    inverse();
    forms();
    arena::all();
    reading::all();
}
