//! What the program `edits` has to write, by a plain reading of document 01: an array of cells beside the reference arena, each edit by path copy. And
//! what `survey` and `months` have to write.
//!
//!     records FILE                        the listing of a file's edits
//!     records random COUNT SEED           so many edits at random, on standard output
//!     records survey K FILE               the listing of a file's readings, with an edge of 2^-K metres
//!     records survey random COUNT SEED K  so many readings at random, on standard output
//!     records survey sample               samples/survey.bin, on standard output
//!     records months FILE FILE            the listing of two files' edits and of the cells in which they differ
//!     records months october              samples/months-october.bin, on standard output
//!     records months november             samples/months-november.bin, on standard output
//!     records months block SIDE VALUE     edits that fill a cube of so many cells a side, on standard output
mod months;
mod readings;

use reference::Random;
use reference::arena::{Arena, Order};
use reference::document01::{EMPTY, INVALID, is_leaf, text};
use std::io::{BufWriter, Write};

const SLOTS: usize = 512;
const DEPTH: u32 = 6;
const SIDE: usize = 64;

type Cell = [u16; 3];

/// The number of the child that the cell lies in, at a level.
fn child(cell: Cell, level: u32) -> usize {
    let bit = |axis: u16| usize::from(axis >> (DEPTH - 1 - level) & 1);
    bit(cell[0]) + 2 * bit(cell[1]) + 4 * bit(cell[2])
}

/// The eight parts of a node: a leaf, and EMPTY, stands for eight of itself.
fn parts(arena: &Arena, id: u64) -> [u64; 8] {
    if id == EMPTY || is_leaf(id) {
        [id; 8]
    } else {
        arena.node(id).children
    }
}

/// The node with one cell changed, and a hold on it, or the refusal. The nodes on the path are made anew, leaf first.
fn anew(arena: &mut Arena, id: u64, level: u32, cell: Cell, value: u16) -> Result<u64, u32> {
    let accepted = |(refusal, id)| if refusal == 0 { Ok(id) } else { Err(refusal) };
    if level == DEPTH {
        return match value {
            0 => Ok(EMPTY),
            _ => accepted(arena.intern_leaf(value)),
        };
    }
    let mut children = parts(arena, id);
    let number = child(cell, level);
    let new = anew(arena, children[number], level + 1, cell, value)?;
    children[number] = new;
    if (new == EMPTY || is_leaf(new)) && children == [new; 8] {
        return Ok(new);
    }
    for (other, sibling) in children.iter().enumerate() {
        if other != number {
            assert_eq!(arena.hold(*sibling), 0);
        }
    }
    accepted(arena.intern_branch(children))
}

struct Model {
    arena: Arena,
    root: u64,
    cells: Vec<u16>,
}

impl Model {
    fn new() -> Self {
        Self {
            arena: Arena::fresh(SLOTS, Order::DepthFirst).unwrap(),
            root: EMPTY,
            cells: vec![0; SIDE * SIDE * SIDE],
        }
    }

    fn place(cell: Cell) -> usize {
        let [x, y, z] = cell.map(usize::from);
        (y * SIDE + z) * SIDE + x
    }

    /// The refusal, and the root with one new hold.
    fn edit(&mut self, cell: Cell, value: u16) -> (u32, u64) {
        if cell.iter().any(|axis| usize::from(*axis) >= SIDE) {
            return (3, INVALID);
        }
        if self.cells[Self::place(cell)] == value {
            return (self.arena.hold(self.root), self.root);
        }
        let mut trial = self.arena.clone();
        match anew(&mut trial, self.root, 0, cell, value) {
            Ok(root) => {
                self.arena = trial;
                (0, root)
            }
            Err(refusal) => (refusal, INVALID),
        }
    }

    /// One record: the refusal.
    fn record(&mut self, cell: Cell, value: u16) -> u32 {
        let (refusal, root) = self.edit(cell, value);
        if refusal == 0 {
            assert_eq!(self.arena.release(self.root), 0);
            self.root = root;
            self.cells[Self::place(cell)] = value;
        }
        refusal
    }

    /// One record, given its bytes: the refusal.
    fn enter(&mut self, record: &[u8]) -> u32 {
        let word = |i: usize| u16::from_le_bytes([record[2 * i], record[2 * i + 1]]);
        self.record([word(0), word(1), word(2)], word(3))
    }

    fn look(&self, cell: Cell) -> u16 {
        let mut id = self.root;
        for level in 0..DEPTH {
            id = parts(&self.arena, id)[child(cell, level)];
        }
        if id == EMPTY {
            0
        } else {
            self.arena.node(id).value
        }
    }

    /// Every cell of the tree has the array's value.
    fn shows_its_cells(&self) -> bool {
        let axis = 0..SIDE as u16;
        let cells = axis.clone().flat_map(|x| {
            let z = axis.clone();
            axis.clone()
                .flat_map(move |y| z.clone().map(move |z| [x, y, z]))
        });
        cells
            .into_iter()
            .all(|cell| self.look(cell) == self.cells[Self::place(cell)])
    }
}

fn list(bytes: &[u8], out: &mut impl Write) -> std::io::Result<()> {
    let mut model = Model::new();
    let records = bytes.chunks_exact(8);
    let short = records.remainder().len();
    for (number, record) in records.enumerate() {
        let refusal = model.enter(record);
        writeln!(out, "{} {refusal} {}", number + 1, text(model.root))?;
    }
    assert!(model.shows_its_cells());
    if short != 0 {
        writeln!(out, "short {short}")?;
    }
    writeln!(out, "live {}", model.arena.live())?;
    out.flush()
}

/// Records at random: in corners of several sizes and of few or many values, so that nodes are shared, cubes fill up and so does the arena; at times
/// cells that were written are set to nothing again, and at times a coordinate lies past the cube.
fn random(count: usize, seed: u64, out: &mut impl Write) -> std::io::Result<()> {
    let mut random = Random::new(seed);
    let (mut side, mut values, mut clearing) = (2, 2, false);
    let mut written: Vec<Cell> = vec![];
    for _ in 0..count {
        if random.once_in(100) {
            side = random.one_of(&[1, 2, 4, 8, 64]);
            values = random.one_of(&[1, 2, 3, 1000, 65_536]);
            clearing = random.once_in(2);
        }
        let limit = if random.once_in(100) { 65_536 } else { side };
        let (cell, value) = match clearing.then(|| written.pop()).flatten() {
            Some(cell) => (cell, 0),
            None => (
                [limit; 3].map(|limit| random.below(limit) as u16),
                random.below(values) as u16,
            ),
        };
        if value != 0 {
            written.push(cell);
        }
        for number in cell.into_iter().chain([value]) {
            out.write_all(&number.to_le_bytes())?;
        }
    }
    out.flush()
}

fn main() -> std::io::Result<()> {
    let words: Vec<String> = std::env::args().skip(1).collect();
    let words: Vec<&str> = words.iter().map(String::as_str).collect();
    let mut out = BufWriter::new(std::io::stdout().lock());
    match words[..] {
        [file] => list(&std::fs::read(file)?, &mut out),
        ["random", count, seed] => random(count.parse().unwrap(), seed.parse().unwrap(), &mut out),
        ["survey", "sample"] => readings::sample(&mut out),
        ["survey", edge, file] => {
            // A number too large to be read is too large for an edge.
            let edge = edge.parse().unwrap_or(u32::MAX);
            readings::list(&std::fs::read(file)?, edge, &mut out)
        }
        ["survey", "random", count, seed, edge] => {
            let [count, seed, edge] = [count, seed, edge].map(|word| word.parse().unwrap());
            readings::random(count as usize, seed, edge as u32, &mut out)
        }
        ["months", "october"] => months::october(&mut out),
        ["months", "november"] => months::november(&mut out),
        ["months", "block", side, value] => {
            months::block(side.parse().unwrap(), value.parse().unwrap(), &mut out)
        }
        ["months", left, right] => {
            months::list(&std::fs::read(left)?, &std::fs::read(right)?, &mut out)
        }
        _ => {
            eprintln!(
                "records FILE, records random COUNT SEED, or records survey with K FILE, random COUNT SEED K, or sample, \
                 or records months with FILE FILE, october, november, or block SIDE VALUE"
            );
            std::process::exit(2);
        }
    }
}
