//! What is compared: every cell of a node at a depth; and calls that document 01 refuses.
use crate::model::{Model, expand};
use crate::plan::Cube;
use arena::damage;
use arena::lent::Lent;
use port::model::Looked;
use reference::Random;
use reference::document01::{EMPTY, INVALID, generation, new_leaf};
use reference::reading::{DEEPEST, cells, expansion, expansion_refusal, lookup};

/// What a lent cube has in it before an expansion.
const BEFORE: u16 = 0xBEEF;

/// How many lookups, and how many expansions, run on each set of damaged tables.
const DAMAGED_CALLS: usize = 12;

/// How much was compared.
#[derive(Default)]
pub struct Counts {
    pub models: u64,
    /// Expansions with every cell looked up.
    pub cubes: u64,
    pub cells: u64,
    /// Cells at which the original's lookup is `None` and the port's 0 (D13).
    pub nothing: u64,
    /// Cells compared with the cube of which a model was made.
    pub plain: u64,
    /// Cubes of a tree that is taller than the depth.
    pub taller: u64,
    pub odd: u64,
    /// Odd lookups and expansions by the number that they answer.
    pub looked: [u64; 10],
    pub expanded: [u64; 10],
    /// Lookups outside the cube, of a depth above 6, and from a level on, on the original.
    pub outside: u64,
    pub deeper: u64,
    pub from_level: u64,
}

/// Is the original's answer the value, where nothing is `None` (D13)?
fn is_same(original: Option<u16>, value: u16) -> bool {
    original == (value != 0).then_some(value)
}

/// Compares every cell of a node at a depth: the port's lookup and expansion, the original's, and document 01's.
pub fn whole(model: &mut Model, id: u64, depth: u32, counts: &mut Counts) -> Result<(), String> {
    let expected = expansion(&model.port.view(), id, depth);
    let here = |words: String| format!("{id:#x} at depth {depth}: {words}");
    let (no, cube) = expand(&mut model.port, id, depth, &vec![BEFORE; expected.len()])?;
    if no != 0 {
        return Err(here(format!("the port refuses its expansion with {no}")));
    }
    let original_cube = model.original_cube(id, depth)?;
    let original_looks = model.original_looks(id, 0, depth, cells(depth))?;
    if original_cube.len() != expected.len() {
        return Err(here(
            "the original's expansion has another length".to_string(),
        ));
    }
    for (at, cell) in cells(depth).enumerate() {
        let value = expected[at];
        let looked = model.port.look(id, depth, cell);
        let is_right = looked == Looked { no: 0, value }
            && cube[at] == value
            && original_cube[at] == value
            && is_same(original_looks[at], value);
        if !is_right {
            return Err(here(format!(
                "cell {cell:?}: the port looks up {looked:?} and expands {}, the original {:?} and {}, document 01 {value}",
                cube[at], original_looks[at], original_cube[at]
            )));
        }
        counts.nothing += u64::from(value == 0);
    }
    counts.cells += expected.len() as u64;
    counts.cubes += 1;
    Ok(())
}

/// Compares the port's expansion with the cube of which the node was made, at a depth no less than its own.
pub fn plain(
    model: &mut Model,
    id: u64,
    depth: u32,
    made_of: &Cube,
    counts: &mut Counts,
) -> Result<(), String> {
    let (_, cube) = expand(&mut model.port, id, depth, &vec![BEFORE; 1 << (3 * depth)])?;
    for (at, cell) in cells(depth).enumerate() {
        let coarse = cell.map(|c| c >> (depth - made_of.depth));
        let value = made_of.values[made_of.place(coarse)];
        if cube[at] != value {
            return Err(format!(
                "{id:#x} at depth {depth}, cell {cell:?}: the port expands {}, the model has {value}",
                cube[at]
            ));
        }
    }
    counts.plain += cube.len() as u64;
    Ok(())
}

/// An id that is most often neither EMPTY nor live.
fn odd_id(model: &Model, live: &[u64], random: &mut Random) -> u64 {
    let capacity = model.port.arena.capacity;
    let own = |slot: usize| model.port.view().own(slot);
    match random.below(8) {
        0 => INVALID,
        1 => random.bits(),
        2 => damage::word(random),
        // A slot with its generation, as a leaf: often one never used, or freed.
        3 => {
            let slot = random.below(capacity);
            new_leaf(slot as u32, generation(own(slot)) & 0x3FFF).1
        }
        // The generation before: a stale id.
        4 => {
            let slot = random.below(capacity);
            own(slot).wrapping_sub(1 << 32) | u64::from(random.once_in(2)) << 63
        }
        5 => new_leaf((capacity + random.below(3)) as u32, 0).1,
        _ if live.is_empty() => EMPTY,
        6 => random.one_of(live) ^ 1 << random.below(64),
        _ => random.one_of(live),
    }
}

fn odd_depth(random: &mut Random) -> u32 {
    match random.below(8) {
        0 => 7,
        1 => random.one_of(&[8, 31, 32, 63, 64, 255, 256, 1 << 31, u32::MAX - 1, u32::MAX]),
        2 => random.bits() as u32,
        _ => random.below(DEEPEST as usize + 1) as u32,
    }
}

/// A coordinate, most often inside the cube.
fn odd_coordinate(depth: u32, random: &mut Random) -> i32 {
    let side = 1i64 << depth.min(30);
    let edges = [
        -1,
        side - 1,
        side,
        side + 1,
        i32::MIN.into(),
        i32::MAX.into(),
    ];
    match random.below(8) {
        0 => random.one_of(&edges) as i32,
        1 => random.bits() as i32,
        _ => random.below(side as usize) as i32,
    }
}

/// The length of a cube, most often the right one.
fn odd_length(depth: u32, random: &mut Random) -> usize {
    let right = 1usize << (3 * depth.min(DEEPEST));
    let any = random.below(600);
    match random.below(3) {
        0 => random.one_of(&[0, right - 1, right + 1, right / 8, any]),
        _ => right,
    }
}

/// One lookup and one expansion on any tables: the answers are document 01's, and nothing else changes. Answers what the lookup answers.
fn judge(
    lent: &mut Lent,
    id: u64,
    depth: u32,
    cell: [i32; 3],
    random: &mut Random,
    counts: &mut Counts,
) -> Result<(u32, u16), String> {
    let expected = lookup(&lent.view(), id, depth, cell);
    let looked = lent.look(id, depth, cell);
    if (looked.no, looked.value) != expected {
        return Err(format!(
            "{id:#x} at depth {depth}, cell {cell:?}: the port answers {looked:?}, document 01 {expected:?}"
        ));
    }
    let before = vec![random.bits() as u16; odd_length(depth, random)];
    let number = expansion_refusal(&lent.view(), id, depth, before.len());
    let (no, cube) = expand(lent, id, depth, &before)?;
    let is_right = no == number
        && match no {
            0 => cube == expansion(&lent.view(), id, depth),
            _ => cube == before,
        };
    if !is_right {
        return Err(format!(
            "{id:#x} at depth {depth}, expanded into {} values: the port answers {no}, document 01 {number}, or the cube is wrong",
            before.len()
        ));
    }
    counts.odd += 2;
    counts.looked[expected.0 as usize] += 1;
    counts.expanded[number as usize] += 1;
    Ok(expected)
}

/// Calls most of which are refused, on the tables of a model. Where the listed departures say what the original does, it has to do that.
pub fn odd(
    model: &mut Model,
    times: u64,
    random: &mut Random,
    counts: &mut Counts,
) -> Result<(), String> {
    let live = model.live();
    for _ in 0..times {
        let id = odd_id(model, &live, random);
        let depth = match odd_depth(random) {
            // The deepest expansions are slow, and compared elsewhere.
            DEEPEST if !random.once_in(16) => 2,
            depth => depth,
        };
        let cell = [(); 3].map(|()| odd_coordinate(depth, random));
        let (no, value) = judge(&mut model.port, id, depth, cell, random, counts)?;
        let is_there = id == EMPTY || model.port.view().is_live(id);
        if !is_there {
            continue;
        }
        match no {
            0 => from_level(model, id, depth, cell, value, random, counts)?,
            3 => outside(model, id, depth, cell, counts)?,
            2 if (7..=30).contains(&depth) && cell.iter().all(|c| (0..1 << depth).contains(c)) => {
                deeper(model, id, depth, cell, counts)?;
            }
            _ => {}
        }
    }
    Ok(())
}

fn original_answers(
    model: &Model,
    id: u64,
    level: u32,
    depth: u32,
    cell: [i32; 3],
    value: u16,
) -> Result<(), String> {
    let found = model.original_looks(id, level, depth, [cell].into_iter())?[0];
    if is_same(found, value) {
        return Ok(());
    }
    Err(format!(
        "{id:#x} from level {level} at depth {depth}, cell {cell:?}: the original answers {found:?}, the listed departures say {value}"
    ))
}

/// D9: outside the cube the original reads the low bits of the coordinates.
fn outside(
    model: &Model,
    id: u64,
    depth: u32,
    cell: [i32; 3],
    counts: &mut Counts,
) -> Result<(), String> {
    let low = cell.map(|c| c & ((1 << depth) - 1));
    let value = lookup(&model.port.view(), id, depth, low).1;
    counts.outside += 1;
    original_answers(model, id, 0, depth, cell, value)
}

/// D11: below the deepest level the original reads on.
fn deeper(
    model: &Model,
    id: u64,
    depth: u32,
    cell: [i32; 3],
    counts: &mut Counts,
) -> Result<(), String> {
    let coarse = cell.map(|c| c >> (depth - DEEPEST));
    let value = lookup(&model.port.view(), id, DEEPEST, coarse).1;
    counts.deeper += 1;
    original_answers(model, id, 0, depth, cell, value)
}

/// D12: from level k of depth d the original reads what it reads from level 0 of depth d - k, and passes over the bits above.
fn from_level(
    model: &Model,
    id: u64,
    depth: u32,
    cell: [i32; 3],
    value: u16,
    random: &mut Random,
    counts: &mut Counts,
) -> Result<(), String> {
    let level = random.below(20) as u32;
    let above = cell.map(|c| c + ((random.below(1 << level) as i32) << depth));
    counts.from_level += 1;
    original_answers(model, id, level, level + depth, above, value)
}

/// Calls on one set of damaged tables: the answers are still document 01's, read on what stands there, and the tables stay as they are.
pub fn damaged(lent: &mut Lent, random: &mut Random, counts: &mut Counts) -> Result<(), String> {
    let before = lent.clone();
    for _ in 0..DAMAGED_CALLS {
        let id = damage::id(lent, random);
        let depth = match odd_depth(random) {
            DEEPEST | 5 if !random.once_in(40) => 3,
            depth => depth,
        };
        let cell = [(); 3].map(|()| odd_coordinate(depth, random));
        judge(lent, id, depth, cell, random, counts)?;
    }
    if !lent.is_intact() || !lent.is_same(&before) {
        return Err("reading changes something".to_string());
    }
    Ok(())
}
