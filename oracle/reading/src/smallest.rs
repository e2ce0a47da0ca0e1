//! The inputs at which docs/DIFFERENCES.md shows the departures of reading: what the port answers there.
use crate::model::expand;
use arena::call::Call;
use arena::lent::Lent;
use reference::document01::{EMPTY, INVALID};

const LEAF_FLAG: u64 = 1 << 63;

/// An arena of the port on which every call has to be accepted.
struct Accepting(Lent);

impl Accepting {
    fn new() -> Self {
        Self(Lent::fresh(8))
    }

    fn call(&mut self, call: Call<u64>) -> Result<u64, String> {
        let answered = self.0.call(&call);
        match answered.no {
            0 => Ok(answered.id),
            no => Err(format!("{call:x?} is refused with {no}")),
        }
    }

    /// A branch of one child, in that place.
    fn over(&mut self, child: u64, place: usize) -> Result<u64, String> {
        let mut children = [EMPTY; 8];
        children[place] = child;
        self.call(Call::Branch(children))
    }
}

/// Sees that a lookup answers this number and value.
fn looks(
    arena: &mut Accepting,
    id: u64,
    depth: u32,
    cell: [i32; 3],
    expected: (u32, u16),
) -> Result<(), String> {
    let looked = arena.0.look(id, depth, cell);
    if (looked.no, looked.value) == expected {
        return Ok(());
    }
    Err(format!(
        "{id:#x} at depth {depth}, cell {cell:?}: {looked:?}, not {expected:?}"
    ))
}

/// Sees that an expansion into so many ones answers this number, and leaves this value in each.
fn expands(
    arena: &mut Accepting,
    id: u64,
    depth: u32,
    length: usize,
    expected: (u32, u16),
) -> Result<(), String> {
    let (no, cube) = expand(&mut arena.0, id, depth, &vec![1; length])?;
    if no == expected.0 && cube.iter().all(|value| *value == expected.1) {
        return Ok(());
    }
    Err(format!(
        "{id:#x} at depth {depth} into {length} values: {no} and {cube:?}, not {expected:?}"
    ))
}

/// Every row on reading.
pub fn all() -> Result<(), String> {
    let mut arena = Accepting::new();
    let leaf = arena.call(Call::Leaf(5))?;
    let last = arena.over(leaf, 7)?;
    // D9
    looks(&mut arena, last, 1, [-1, -1, -1], (3, 0))?;
    looks(&mut arena, last, 1, [3, 3, 3], (3, 0))?;
    looks(&mut arena, leaf, 0, [1, 0, 0], (3, 0))?;
    // D11
    looks(&mut arena, leaf, 7, [0; 3], (2, 0))?;
    looks(&mut arena, last, 65, [0; 3], (2, 0))?;
    expands(&mut arena, leaf, 7, 0, (2, 1))?;
    expands(&mut arena, leaf, 22, 0, (2, 1))?;
    // D12
    looks(&mut arena, last, 1, [1; 3], (0, 5))?;
    looks(&mut arena, last, 0, [0; 3], (0, 0))?;
    // D29
    expands(&mut arena, EMPTY, 0, 0, (9, 1))?;
    expands(&mut arena, EMPTY, 0, 2, (9, 1))?;

    let mut arena = Accepting::new();
    let leaf = arena.call(Call::Leaf(1))?;
    let low = arena.over(leaf, 0)?;
    // D13
    for id in [low, EMPTY] {
        looks(&mut arena, id, 0, [0; 3], (0, 0))?;
        expands(&mut arena, id, 0, 1, (0, 0))?;
    }
    // The lowest number that applies.
    expands(&mut arena, INVALID, 7, 1, (2, 1))?;
    expands(&mut arena, INVALID, 0, 2, (4, 1))?;
    // D14, D16
    for id in [leaf & !LEAF_FLAG, INVALID] {
        looks(&mut arena, id, 0, [0; 3], (4, 0))?;
        expands(&mut arena, id, 0, 1, (4, 1))?;
    }

    // D15
    let mut arena = Accepting::new();
    let leaf = arena.call(Call::Leaf(5))?;
    arena.call(Call::Release(leaf))?;
    arena.call(Call::Leaf(6))?;
    looks(&mut arena, leaf, 1, [0; 3], (4, 0))?;
    expands(&mut arena, leaf, 0, 1, (4, 1))
}
