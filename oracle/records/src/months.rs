//! What the program `months` has to write, by a plain reading of documents 01 and 02: an array of cells for each side, beside the reference arena. And files for it.
use reference::document01::EMPTY;
use std::io::Write;

use crate::{Cell, DEPTH, Model, SIDE};

/// The list has room for so many cells.
const ROOM: usize = 1024;

/// The cells of a cube.
const CELLS: u32 = (SIDE * SIDE * SIDE) as u32;

/// The cell of a path code: bit n of x stands at 3n, of y at 3n + 1, of z at 3n + 2.
fn cell(code: u32) -> Cell {
    [0, 1, 2].map(|axis| {
        (0..DEPTH)
            .map(|n| ((code >> (3 * n + axis) & 1) << n) as u16)
            .sum()
    })
}

/// Enters a file's records and writes a line for each that is refused, and one for a cut last record.
fn enter(side: &str, bytes: &[u8], model: &mut Model, out: &mut impl Write) -> std::io::Result<()> {
    let records = bytes.chunks_exact(8);
    let short = records.remainder().len();
    for (number, record) in records.enumerate() {
        let refusal = model.enter(record);
        if refusal != 0 {
            writeln!(out, "{side} {} {refusal}", number + 1)?;
        }
    }
    assert!(model.shows_its_cells());
    if short != 0 {
        writeln!(out, "{side} short {short}")?;
    }
    Ok(())
}

/// How many pairs are opened, starting with two blocks that have so many levels, given as their cells in rising path code. What edits make is tidy: two blocks have one id
/// exactly if they have the same cells, and a block is a branch exactly if its cells are not all the same.
fn opened(before: &[u16], after: &[u16], left: u32) -> usize {
    let uniform = |cells: &[u16]| cells.iter().all(|value| *value == cells[0]);
    if before == after || uniform(before) && uniform(after) {
        return 0;
    }
    let place = 8_usize.pow(left - 1);
    let places = before.chunks(place).zip(after.chunks(place));
    1 + places
        .map(|(before, after)| opened(before, after, left - 1))
        .sum::<usize>()
}

/// The listing of two files.
pub fn list(left: &[u8], right: &[u8], out: &mut impl Write) -> std::io::Result<()> {
    let mut model = Model::new();
    enter("left", left, &mut model, out)?;
    // The cells in the order of their path codes.
    let in_turn = |cells: &[u16]| -> Vec<u16> {
        (0..CELLS)
            .map(|code| cells[Model::place(cell(code))])
            .collect()
    };
    let before = in_turn(&model.cells);
    // The first root keeps its hold.
    model.root = EMPTY;
    model.cells.fill(0);
    enter("right", right, &mut model, out)?;
    let after = in_turn(&model.cells);

    let differing: Vec<usize> = (0..before.len())
        .filter(|code| before[*code] != after[*code])
        .collect();
    if differing.len() > ROOM {
        writeln!(out, "refused 15\ncells 0\nopened 0")?;
    } else {
        for code in &differing {
            let [x, y, z] = cell(*code as u32);
            writeln!(out, "{code} {x} {y} {z} {} {}", before[*code], after[*code])?;
        }
        let opened = opened(&before, &after, DEPTH);
        writeln!(out, "cells {}\nopened {opened}", differing.len())?;
    }
    writeln!(out, "live {}", model.arena.live())?;
    out.flush()
}

fn write(cell: Cell, value: u16, out: &mut impl Write) -> std::io::Result<()> {
    for number in cell.into_iter().chain([value]) {
        out.write_all(&number.to_le_bytes())?;
    }
    Ok(())
}

/// The records that fill the cube of so many cells a side at the given corner with a value.
fn fill([x, y, z]: Cell, side: u16, value: u16, out: &mut impl Write) -> std::io::Result<()> {
    for cell in (0..CELLS).map(cell) {
        if cell.iter().all(|axis| *axis < side) {
            write([x + cell[0], y + cell[1], z + cell[2]], value, out)?;
        }
    }
    Ok(())
}

/// A file that fills the cube of so many cells a side at the origin with a value.
pub fn block(side: u16, value: u16, out: &mut impl Write) -> std::io::Result<()> {
    fill([0, 0, 0], side, value, out)?;
    out.flush()
}

/// samples/months-october.bin: a cell outside, which is refused, and a block of eight cells among others.
pub fn october(out: &mut impl Write) -> std::io::Result<()> {
    write([0, 0, 0], 5, out)?;
    write([64, 0, 0], 5, out)?;
    write([1, 0, 0], 7, out)?;
    write([2, 3, 1], 9, out)?;
    fill([8, 8, 8], 2, 4, out)?;
    write([63, 63, 63], 65_535, out)?;
    out.flush()
}

/// samples/months-november.bin: of October's cells two are the same, one has another value, the block has another and one is empty; one is new. A record is refused, and the last
/// one is cut.
pub fn november(out: &mut impl Write) -> std::io::Result<()> {
    write([0, 0, 0], 5, out)?;
    write([1, 0, 0], 8, out)?;
    write([2, 3, 1], 9, out)?;
    write([10, 0, 0], 3, out)?;
    write([0, 0, 64], 1, out)?;
    fill([8, 8, 8], 2, 6, out)?;
    out.write_all(&[63, 0, 63])?;
    out.flush()
}
